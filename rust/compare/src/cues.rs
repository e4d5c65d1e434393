//! Makes random cue lists: good ones, ones at a limit, and ones with faults of every kind.

use crate::rng::Rng;
use model::store::{Space, COUNT_ADDRESS, UNLOCK_ADDRESS};
use model::PACKET_BYTES;

/// A list in the making.
#[derive(Default)]
pub struct List {
    bytes: Vec<u8>,
    /// Where each record starts.
    starts: Vec<usize>,
}

impl List {
    pub fn bytes(&self) -> &[u8] {
        &self.bytes
    }

    pub fn records(&self) -> usize {
        self.starts.len()
    }

    pub fn read(&mut self, space: Space, address: u32) {
        self.add(&record(false, space.number(), address as u16, 0));
    }

    pub fn write(&mut self, space: Space, address: u32, value: u32) {
        self.add(&record(true, space.number(), address as u16, value));
    }

    /// Adds a record that may be a bad one.
    fn add(&mut self, bytes: &[u8]) {
        self.starts.push(self.bytes.len());
        self.bytes.extend_from_slice(bytes);
    }

    /// Puts other bytes in the place of a record.
    fn replace(&mut self, index: usize, bytes: &[u8]) {
        let end = match self.starts.get(index + 1) {
            Some(&next) => next,
            None => self.bytes.len(),
        };
        self.bytes
            .splice(self.starts[index]..end, bytes.iter().copied());
    }
}

fn record(write: bool, space: u8, address: u16, value: u32) -> Vec<u8> {
    let mark = if write { b"WR" } else { b"RD" };
    let mut bytes = mark.to_vec();
    bytes.extend([space, 0]);
    bytes.extend(address.to_le_bytes());
    if write {
        bytes.extend(value.to_le_bytes());
    }
    bytes
}

/// A list that is accepted.
pub fn good(rng: &mut Rng) -> List {
    let mut list = List::default();
    match rng.below(12) {
        0 => packet_edge(rng, &mut list),
        1 => reply_edge(rng, &mut list),
        2 => eeprom_spread(rng, &mut list),
        _ => {}
    }
    let parts = rng.pick(&[0, 1, 1, 2, 3, 6, 12]);
    let most = match rng.below(16) {
        0 => 1_000,
        1..=4 => 140,
        _ => 12,
    };
    for _ in 0..parts {
        stretch(rng, &mut list, most);
    }
    list
}

/// A list of any kind, about half of them with a fault.
pub fn any(rng: &mut Rng) -> Vec<u8> {
    let mut list = good(rng);
    if rng.coin() {
        return list.bytes;
    }
    if list.records() == 0 || rng.one_in(4) {
        let bad = bad_record(rng);
        list.add(&bad);
    } else {
        let index = rng.below(list.records());
        let bad = bad_record(rng);
        list.replace(index, &bad);
    }
    let length = list.bytes.len();
    if length > 0 && rng.one_in(4) {
        list.bytes.truncate(length - rng.between(1, 12.min(length)));
    }
    if rng.one_in(8) {
        list.bytes.push(rng.pick(b"RWL\0"));
    }
    list.bytes
}

/// The number of different lists about the limit of a hundred thousand records.
pub const LONG_LISTS: u64 = 8;

/// A list about the limit of a hundred thousand records.
pub fn long(rng: &mut Rng, variant: u64) -> Vec<u8> {
    let mut list = List::default();
    let bad = record(false, 1, 0, 0);
    let good = record(false, 0, 0, 0);
    let records = if variant == 7 { 99_999 } else { 100_000 };
    while list.records() < records {
        let most = (records - list.records()).min(5_000);
        stretch(rng, &mut list, most);
    }
    match variant {
        0 => {}
        1 => list.add(&good),
        2 => list.add(&[0]),
        3 | 7 => list.add(b"RD\0"),
        4 => list.replace(99_999, &bad),
        5 => {
            list.add(&good);
            list.replace(50_000, &bad);
        }
        _ => list.add(&bad),
    }
    list.bytes
}

/// A list that reads or writes one element so many times.
pub fn repeats(rng: &mut Rng, count: usize) -> List {
    let mut list = List::default();
    still(rng, &mut list, count);
    list
}

/// Adds 1 to `most` records of one pattern.
pub fn stretch(rng: &mut Rng, list: &mut List, most: usize) {
    let count = rng.between(1, most);
    match rng.below(10) {
        0..=2 => rising(rng, list, count),
        3 => falling(rng, list, count),
        4 => alternating(rng, list, count),
        5 => still(rng, list, count),
        6 => rising_kinds(rng, list, count),
        7 => rising_spaces(rng, list, count),
        _ => scattered(rng, list, count),
    }
}

/// Neighbouring elements, from the space's start again after its end.
fn rising(rng: &mut Rng, list: &mut List, count: usize) {
    let (space, write) = kind(rng);
    let mut address = address(rng, space, write);
    for _ in 0..count {
        access(rng, list, space, write, address);
        address = next(space, write, address);
    }
}

/// Neighbouring registers, some read and some written.
fn rising_kinds(rng: &mut Rng, list: &mut List, count: usize) {
    let mut address = address(rng, Space::Registers, true);
    for _ in 0..count {
        let write = rng.one_in(3);
        access(rng, list, Space::Registers, write, address);
        address = next(Space::Registers, write, address);
    }
}

/// Neighbouring addresses read in one space or another of the same element size.
fn rising_spaces(rng: &mut Rng, list: &mut List, count: usize) {
    let mut address = 0;
    for _ in 0..count {
        let space = rng.pick(&[Space::Status, Space::Information, Space::Information]);
        address = allowed(space, address);
        access(rng, list, space, false, address);
        address = next(space, false, address);
    }
}

fn falling(rng: &mut Rng, list: &mut List, count: usize) {
    let write = rng.coin();
    let mut address = address(rng, Space::Registers, write);
    for _ in 0..count {
        access(rng, list, Space::Registers, write, address);
        address = address.checked_sub(4).unwrap_or(65_532);
    }
}

/// Two kinds of access by turns, each on neighbouring elements.
fn alternating(rng: &mut Rng, list: &mut List, count: usize) {
    let kinds = [kind(rng), kind(rng)];
    let mut addresses = kinds.map(|(space, write)| address(rng, space, write));
    for turn in 0..count {
        let (space, write) = kinds[turn % 2];
        let at = &mut addresses[turn % 2];
        access(rng, list, space, write, *at);
        *at = next(space, write, *at);
    }
}

/// The same element over and over.
fn still(rng: &mut Rng, list: &mut List, count: usize) {
    let (space, write) = kind(rng);
    let address = address(rng, space, write);
    for _ in 0..count {
        access(rng, list, space, write, address);
    }
}

fn scattered(rng: &mut Rng, list: &mut List, count: usize) {
    for _ in 0..count {
        let (space, write) = kind(rng);
        let address = address(rng, space, write);
        access(rng, list, space, write, address);
    }
}

/// Fills a first packet up to its limit or a few bytes less; then comes another record.
fn packet_edge(rng: &mut Rng, list: &mut List) {
    let target = PACKET_BYTES - 2 * rng.below(10);
    let mut length = 0;
    if rng.one_in(4) {
        // With the unlock in front.
        access(rng, list, Space::Eeprom, true, 0x30);
        length += 12;
    }
    // A status write takes 6 bytes and a register write 8: as many of the first as make it even.
    while !(target - length).is_multiple_of(8) {
        access(rng, list, Space::Status, true, 0x04);
        length += 6;
    }
    while length < target {
        access(rng, list, Space::Registers, true, 0x100);
        length += 8;
    }
    match rng.below(5) {
        // The first may join the last command, the others start one of 4 to 12 bytes.
        0 => access(rng, list, Space::Registers, true, 0x104),
        1 => access(rng, list, Space::Registers, true, 0x200),
        2 => access(rng, list, Space::Eeprom, true, 0x40),
        3 => access(rng, list, Space::Status, true, 0x08),
        _ => access(rng, list, Space::Registers, false, 0),
    }
}

/// Fills a first reply up to its limit or a few bytes less; then comes another read.
fn reply_edge(rng: &mut Rng, list: &mut List) {
    let target = PACKET_BYTES - rng.pick(&[0, 2, 4, 6]);
    let mut length = 0;
    while length + 4 <= target {
        list.read(Space::Registers, length as u32);
        length += 4;
    }
    if length < target {
        list.read(Space::Information, 0);
    }
    match rng.below(3) {
        0 => list.read(Space::Registers, length as u32),
        1 => list.read(Space::Information, 2),
        _ => list.write(Space::Registers, 0, rng.word()),
    }
}

/// EEPROM writes spread over several packets.
fn eeprom_spread(rng: &mut Rng, list: &mut List) {
    for _ in 0..rng.between(2, 4) {
        for _ in 0..rng.between(1, 4) {
            let address = address(rng, Space::Eeprom, true);
            access(rng, list, Space::Eeprom, true, address);
        }
        let count = rng.between(150, 400);
        let still = rng.coin();
        for k in 0..count {
            let address = if still { 0 } else { 4 * k as u32 };
            access(rng, list, Space::Registers, true, address);
        }
    }
}

/// A space, and whether it is written.
pub fn kind(rng: &mut Rng) -> (Space, bool) {
    let space = rng.pick(&[
        Space::Registers,
        Space::Registers,
        Space::Registers,
        Space::Eeprom,
        Space::Status,
        Space::Information,
    ]);
    (space, space != Space::Information && rng.coin())
}

fn access(rng: &mut Rng, list: &mut List, space: Space, write: bool, address: u32) {
    if !write {
        return list.read(space, address);
    }
    let value = match space {
        Space::Registers => rng.word(),
        _ => rng.word() & 0xFFFF,
    };
    list.write(space, address, value);
}

/// An address that a record of this kind may have.
pub fn address(rng: &mut Rng, space: Space, write: bool) -> u32 {
    let element = space.element();
    let first = lowest(space, write);
    let drawn = match rng.below(4) {
        0 => first,
        1 => space.bytes() - element * rng.between(1, 4) as u32,
        2 => first + element * rng.below(12) as u32,
        _ => element * rng.below((space.bytes() / element) as usize) as u32,
    };
    allowed(space, drawn.clamp(first, space.bytes() - element))
}

/// The neighbouring element's address.
fn next(space: Space, write: bool, address: u32) -> u32 {
    let next = address + space.element();
    match next < space.bytes() {
        true => allowed(space, next),
        false => lowest(space, write),
    }
}

fn lowest(space: Space, write: bool) -> u32 {
    match write {
        true => space.first_writable().unwrap_or(0),
        false => 0,
    }
}

/// The address, or the next one where no list may name it.
fn allowed(space: Space, address: u32) -> u32 {
    match space.kept_from_lists(address) {
        true => address + 2,
        false => address,
    }
}

/// A record with one fault or two.
fn bad_record(rng: &mut Rng) -> Vec<u8> {
    let (space, write) = kind(rng);
    let address = address(rng, space, write);
    let value = rng.word() & 0xFFFF;
    let mut bytes = record(write, space.number(), address as u16, value);
    for _ in 0..rng.pick(&[1, 1, 2]) {
        match rng.below(9) {
            0 => {
                let marks = [
                    *b"RW", *b"WD", *b"rd", *b"wr", *b"DR", *b"LB", *b"R\0", *b"\0D", *b"W\0",
                ];
                bytes[..2].copy_from_slice(&rng.pick(&marks));
            }
            1 => bytes[2] = rng.pick(&[1, 3, 4, 5, 8, 10, 0x80, 0xFF]),
            2 => bytes[4] |= rng.pick(&[1, 2, 3]),
            3 => {
                // The first address past the end, for spaces that have one.
                let past = rng.pick(&[space.bytes(), 0xFFFE, 0x0100]) as u16;
                bytes[4..6].copy_from_slice(&past.to_le_bytes());
            }
            4 => bytes = record(true, 7, 2 * rng.below(16) as u16, value),
            5 => bytes = record(true, 2, 2 * rng.below(16) as u16, value),
            6 => {
                let address = rng.pick(&[COUNT_ADDRESS, UNLOCK_ADDRESS]);
                bytes = record(rng.coin(), 6, address as u16, value);
            }
            7 => bytes[3] = rng.pick(&[1, 0x80, 0xFF]),
            _ => {
                let high = rng.pick(&[0x1_0000, 0x8000_0000, 0xFFFF_0000]);
                let address = rng.pick(&[0x20, 0x22, 0x7E]);
                bytes = record(true, 2, address, value | high);
            }
        }
    }
    bytes
}
