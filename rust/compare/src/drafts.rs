//! Makes random packets: legal ones, ones at a limit, and ones with faults of every kind.

use crate::rng::Rng;
use model::area::{Area, INFO_BYTES, POINTERS};
use model::store::{Space, COUNT_ADDRESS, UNLOCK_ADDRESS, UNLOCK_VALUE};
use model::words::Fields;
use model::PACKET_BYTES;

/// A read of one information cell at the pointer: the shortest command there is.
const SHORTEST: [u8; 2] = [0x01, 0x1D];

/// The most bytes that a write over the unlock cell takes here.
const UNLOCK_BYTES: usize = 44;

/// A random packet for a card with these pointers.
pub fn packet(rng: &mut Rng, pointers: [u32; POINTERS]) -> Vec<u8> {
    let mut packet = Packet::new(rng, pointers);
    match packet.rng.below(100) {
        0..=17 => packet.some_commands(8, 127),
        18..=25 => packet.some_commands(400, 3),
        26..=33 => packet.full(),
        34..=41 => packet.full_reply(),
        42..=45 => packet.reply_just_past(),
        46..=55 => packet.eeprom_play(),
        56..=61 => packet.info_play(),
        62 => packet.most_elements(),
        63..=75 => packet.faults(),
        76..=87 => packet.damaged(),
        88..=90 => packet.random_bytes(),
        91..=93 => packet.too_long(),
        94..=95 => {}
        _ => packet.wild_commands(),
    }
    packet.bytes
}

/// A packet in the making, with what its commands so far lead to.
struct Packet<'r> {
    rng: &'r mut Rng,
    bytes: Vec<u8>,
    pointers: [u32; POINTERS],
    replied: usize,
    unlocked: bool,
}

/// A command that may have faults.
struct Draft {
    write: bool,
    given: Option<u16>,
    info: bool,
    space: u8,
    size: u8,
    increment: bool,
    count: u8,
}

impl Draft {
    fn new(
        write: bool,
        given: Option<u16>,
        area: impl Into<Area>,
        increment: bool,
        count: usize,
    ) -> Draft {
        let area = area.into();
        Draft {
            write,
            given,
            info: area.info,
            space: area.space.number(),
            size: area.size(),
            increment,
            count: count as u8,
        }
    }

    /// The command word and its address.
    fn head(&self) -> Vec<u8> {
        let fields = Fields {
            write: self.write,
            address: self.given.is_some(),
            info: self.info,
            space: self.space,
            size: self.size,
            increment: self.increment,
            count: self.count,
        };
        let word = fields.to_word().expect("fields in range");
        let mut bytes = word.to_le_bytes().to_vec();
        bytes.extend(self.given.iter().flat_map(|address| address.to_le_bytes()));
        bytes
    }

    fn data_bytes(&self) -> usize {
        match self.write {
            true => usize::from(self.count) << self.size,
            false => 0,
        }
    }
}

impl<'r> Packet<'r> {
    fn new(rng: &'r mut Rng, pointers: [u32; POINTERS]) -> Packet<'r> {
        Packet {
            rng,
            bytes: Vec::new(),
            pointers,
            replied: 0,
            unlocked: false,
        }
    }

    fn room(&self) -> usize {
        PACKET_BYTES.saturating_sub(self.bytes.len())
    }

    fn reply_room(&self) -> usize {
        PACKET_BYTES.saturating_sub(self.replied)
    }

    // Whole packets.

    /// Up to `commands` legal commands of at most `most` elements.
    fn some_commands(&mut self, commands: usize, most: usize) {
        for _ in 0..self.rng.between(1, commands) {
            self.legal(most);
        }
    }

    /// A packet that ends at its limit or two bytes before.
    fn full(&mut self) {
        let most = self.rng.pick(&[2, 20, 127]);
        self.add_read(Space::Information, 0, 1);
        let mut tries = 0;
        while self.room() > 0 && self.reply_room() > 400 && tries < 2_000 {
            self.legal(most);
            tries += 1;
        }
        let short = self.rng.pick(&[0, 0, 0, 2]);
        self.pad_to(PACKET_BYTES - short);
    }

    /// Adds shortest commands up to a length.
    fn pad_to(&mut self, length: usize) {
        self.add_read(Space::Information, 2, 1);
        while self.bytes.len() < length {
            self.bytes.extend(SHORTEST);
            self.replied += 2;
        }
    }

    /// A packet whose reply ends at its limit.
    fn full_reply(&mut self) {
        self.some_commands(6, 127);
        self.fill_reply(0);
        if self.rng.one_in(4) {
            self.write_over_unlock(UNLOCK_VALUE);
        }
    }

    /// Reads until the reply has `left` bytes of room.
    fn fill_reply(&mut self, left: usize) {
        while self.reply_room() >= left + 4 && self.room() >= 4 {
            let most = ((self.reply_room() - left) / 4).min(127);
            let some = self.rng.between(1, most);
            let count = self.rng.pick(&[most, most, some]);
            let address = 4 * self.rng.below(64) as u32;
            self.add_read(Space::Registers, address, count);
        }
        if self.reply_room() > left {
            let info = Area::info(self.rng.pick(&Space::ALL));
            let area = self.rng.pick(&[Space::Information.into(), info]);
            self.add_read(area, 0, (self.reply_room() - left) / 2);
        }
    }

    /// A reply that passes its limit by one element or some more.
    fn reply_just_past(&mut self) {
        self.some_commands(4, 60);
        let left = self.rng.pick(&[0, 2, 4]);
        self.fill_reply(left);
        let area = self.rng.pick(&Area::ALL);
        let element = area.element() as usize;
        let count = left / element + self.rng.pick(&[1, 1, 1, 3]);
        self.draft(Draft::new(false, Some(0), area, true, count));
        if self.rng.coin() {
            self.faulty();
        }
    }

    /// Unlocks, locks and EEPROM accesses in any order, legal or not.
    fn eeprom_play(&mut self) {
        for _ in 0..self.rng.between(1, 8) {
            match self.rng.below(8) {
                0..=2 => self.write_over_unlock(UNLOCK_VALUE),
                3 => {
                    let value = self.rng.pick(&[0, 0x5A03, 0x025A, 0x0002, 0x5A00, 0xDA02]);
                    self.write_over_unlock(value);
                }
                4 | 5 => {
                    let first = 2 * self.rng.between(0x10, 0x3F);
                    let most = (128 - first) / 2;
                    let count = self.rng.between(1, most);
                    let increment = self.rng.coin();
                    let given = Some(first as u16);
                    self.draft(Draft::new(true, given, Space::Eeprom, increment, count));
                }
                6 => {
                    let first = self.rng.pick(&[0, 0x1C, 0x1E, 0x20, 0x22]);
                    let count = self.rng.between(1, 3);
                    self.draft(Draft::new(true, Some(first), Space::Eeprom, true, count));
                }
                _ => {
                    let space = self.rng.pick(&[Space::Eeprom, Space::Status]);
                    self.draft(Draft::new(false, Some(0x1A), space, true, 3));
                }
            }
        }
    }

    /// Info areas among commands that move the pointers which they show.
    fn info_play(&mut self) {
        const ELEMENTS: usize = INFO_BYTES / 2;
        const POINTER: u16 = 6;
        for _ in 0..self.rng.between(1, 12) {
            let area = Area::info(self.rng.pick(&Space::ALL));
            let increment = self.rng.coin();
            let count = self.rng.between(1, 5);
            match self.rng.below(6) {
                0 => self.draft(Draft::new(false, Some(0), area, true, ELEMENTS)),
                1 => self.draft(Draft::new(false, Some(POINTER), area, increment, count)),
                2 => self.draft(Draft::new(false, None, area, increment, count)),
                _ => self.legal(40),
            }
        }
    }

    /// 736 reads and 724 writes, which are the most that a packet can hold, or one read more. No
    /// room is left for addresses, so there are fewer where a pointer doesn't serve.
    fn most_elements(&mut self) {
        let more = self.rng.pick(&[0, 0, 0, 1]);
        let counts = [(127, 127); 5].into_iter().chain([(101 + more, 89)]);
        for (reads, writes) in counts {
            // All but the registers have elements of 2 bytes.
            let area = self.rng.pick(&Area::ALL[1..]);
            self.at_pointer(false, area, reads);
            self.at_pointer(true, Space::Status.into(), writes);
        }
    }

    /// Legal commands with a faulty one among them.
    fn faults(&mut self) {
        for _ in 0..self.rng.between(0, 5) {
            self.legal(40);
        }
        self.faulty();
        for _ in 0..self.rng.pick(&[0, 0, 1, 3]) {
            match self.rng.one_in(4) {
                true => self.faulty(),
                false => self.legal(40),
            }
        }
    }

    /// Legal commands of which bytes were changed, lost or added.
    fn damaged(&mut self) {
        match self.rng.coin() {
            true => self.some_commands(6, 10),
            false => self.some_commands(60, 3),
        }
        for _ in 0..self.rng.pick(&[1, 1, 1, 2, 4]) {
            let length = self.bytes.len();
            if length == 0 {
                return;
            }
            let at = self.rng.below(length);
            match self.rng.below(6) {
                0 | 1 => self.bytes.truncate(at),
                2 => self.bytes[at] ^= 1 << self.rng.below(8),
                3 => self.bytes[at] = self.rng.byte(),
                4 => self.bytes.insert(at, self.rng.byte()),
                _ => drop(self.bytes.remove(at)),
            }
        }
    }

    fn random_bytes(&mut self) {
        let most = self.rng.pick(&[4, 20, 1_472, 1_600]);
        self.bytes = vec![0; self.rng.between(1, most)];
        self.rng.fill(&mut self.bytes);
    }

    /// One byte, or more, above the limit; what would run is otherwise good.
    fn too_long(&mut self) {
        self.full();
        self.pad_to(PACKET_BYTES);
        let more = self.rng.pick(&[1, 1, 2, 28, 400]);
        let length = self.bytes.len() + more;
        while self.bytes.len() < length {
            self.bytes.push(SHORTEST[self.bytes.len() % 2]);
        }
    }

    /// Commands whose every field is drawn by itself.
    fn wild_commands(&mut self) {
        for _ in 0..self.rng.between(1, 5) {
            let area = self.area(5);
            let address = self.address(area, false) as u16;
            let given = self.rng.coin().then_some(address);
            let count = self.rng.pick(&[0, 1, 1, 2, 3, 16, 127]);
            let (write, increment) = (self.rng.coin(), self.rng.coin());
            let mut draft = Draft::new(write, given, area, increment, count);
            draft.info ^= self.rng.one_in(12);
            if self.rng.one_in(8) {
                draft.space = self.rng.below(8) as u8;
            }
            if self.rng.one_in(8) {
                draft.size = self.rng.below(4) as u8;
            }
            self.draft(draft);
        }
    }

    // Single commands.

    /// Adds a legal command of at most `most` elements, if one of the kind drawn fits.
    fn legal(&mut self, most: usize) {
        let area = self.area(8);
        let writable = !area.info && area.space != Space::Information;
        let write = writable && self.rng.coin();
        if write && area == Space::Eeprom.into() && !self.unlocked {
            if self.room() < 2 * UNLOCK_BYTES {
                return;
            }
            self.write_over_unlock(UNLOCK_VALUE);
        }
        let (given, address) = self.given_or_pointer(area, write);
        let increment = self.rng.coin();
        let head = if given.is_some() { 4 } else { 2 };
        let element = area.element() as usize;
        let in_area = match increment {
            true => (area.bytes() - address) as usize / element,
            false => 127,
        };
        let in_packet = match write {
            true => self.room().saturating_sub(head) / element,
            false if self.room() < head => 0,
            false => self.reply_room() / element,
        };
        let most = most.min(127).min(in_area).min(in_packet);
        if most == 0 {
            return;
        }
        let count = match self.rng.below(4) {
            0 => 1,
            1 => most,
            _ => self.rng.between(1, most),
        };
        self.draft(Draft::new(write, given, area, increment, count));
    }

    /// Adds a command with one fault or more.
    fn faulty(&mut self) {
        let area = self.area(4);
        let (given, address) = self.given_or_pointer(area, false);
        let in_area = (area.bytes() - address) / area.element();
        let count = self.rng.between(1, in_area.clamp(1, 127) as usize);
        let (write, increment) = (!area.info && self.rng.coin(), self.rng.coin());
        let mut draft = Draft::new(write, given, area, increment, count);
        // How much of it stays: a cut that isn't at the packet's end shifts what follows.
        let mut kept = usize::MAX;
        for _ in 0..self.rng.pick(&[1, 1, 1, 2, 3]) {
            match self.rng.below(11) {
                0 => (draft.info, draft.write) = (true, true),
                1 => draft.space = self.rng.pick(&[1, 3, 4, 5]),
                2 => draft.size = (draft.size + 1 + self.rng.below(3) as u8) % 4,
                3 => draft.count = 0,
                4 => draft.given = Some(address as u16 | self.rng.between(1, 3) as u16),
                5 => draft.given = Some(self.past_the_end(area, draft.count.into())),
                6 => {
                    let space = self.rng.pick(&[Space::Eeprom, Space::Information]);
                    let first = 2 * self.rng.below(0x10) as u16;
                    draft = Draft::new(true, Some(first), space, increment, 1);
                }
                7 => {
                    let count = self.rng.between(1, 8);
                    draft = Draft::new(true, Some(0x40), Space::Eeprom, increment, count);
                }
                8 => kept = self.rng.between(1, 4),
                9 => draft.given = None,
                _ if draft.data_bytes() > 0 => {
                    let some = self.rng.between(1, draft.data_bytes());
                    let lost = self.rng.pick(&[1, some]);
                    kept = draft.head().len() + draft.data_bytes() - lost;
                }
                _ => draft.count = 127,
            }
        }
        let start = self.bytes.len();
        self.draft(draft);
        self.bytes.truncate(start.saturating_add(kept));
    }

    /// Writes `value` to the unlock cell, as the last one written there.
    fn write_over_unlock(&mut self, value: u16) {
        if self.room() < UNLOCK_BYTES {
            return;
        }
        let cell = UNLOCK_ADDRESS as u16;
        let single = |given, increment| Draft::new(true, given, Space::Status, increment, 1);
        let draft = match self.rng.below(5) {
            0 => single(Some(cell), false),
            1 => single(Some(cell), true),
            2 => {
                // The command before leaves the pointer at the cell.
                self.draft(single(Some(cell - 2), true));
                single(None, self.rng.coin())
            }
            3 => {
                let first = 2 * self.rng.between(5, 13);
                let most = (32 - first) / 2;
                let count = self.rng.between((26 - first) / 2 + 1, most);
                Draft::new(true, Some(first as u16), Space::Status, true, count)
            }
            _ => {
                let count = self.rng.between(2, 6);
                Draft::new(true, Some(cell), Space::Status, false, count)
            }
        };
        let elements = match (draft.increment, draft.given) {
            (true, Some(first)) => usize::from(cell - first) / 2,
            _ => usize::from(draft.count) - 1,
        };
        let element = self.bytes.len() + draft.head().len() + 2 * elements;
        self.draft(draft);
        self.bytes[element..element + 2].copy_from_slice(&value.to_le_bytes());
        self.unlocked = value == UNLOCK_VALUE;
    }

    /// Adds a command without address or increment, if the pointer serves.
    fn at_pointer(&mut self, write: bool, area: Area, count: usize) {
        if self.pointer_serves(area, write) {
            self.draft(Draft::new(write, None, area, false, count));
        }
    }

    fn add_read(&mut self, area: impl Into<Area>, address: u32, count: usize) {
        let area = area.into();
        if self.room() < 4 || count * area.element() as usize > self.reply_room() {
            return;
        }
        let increment = count as u32 * area.element() <= area.bytes() - address;
        let increment = increment && area != Space::Information.into();
        self.draft(Draft::new(
            false,
            Some(address as u16),
            area,
            increment,
            count,
        ));
    }

    /// Adds a command with random data and follows what it does to a card.
    fn draft(&mut self, draft: Draft) {
        self.bytes.extend(draft.head());
        let start = self.bytes.len();
        self.bytes.resize(start + draft.data_bytes(), 0);
        self.rng.fill(&mut self.bytes[start..]);
        let Some(space) = Space::from_number(draft.space) else {
            return;
        };
        let area = Area {
            space,
            info: draft.info,
        };
        let status = area == Space::Status.into();
        if draft.write && status {
            self.status_values(start);
        }
        let pointer = self.pointers[area.index()];
        let address = draft.given.map_or(pointer, u32::from);
        let bytes = u32::from(draft.count) * area.element();
        let moved = if draft.increment { bytes } else { 0 };
        self.pointers[area.index()] = (address + moved).min(area.bytes());
        if !draft.write {
            self.replied += bytes as usize;
        } else if status && address <= UNLOCK_ADDRESS {
            // Most values drawn don't open it.
            self.unlocked &= address + moved <= UNLOCK_ADDRESS && draft.increment;
        }
    }

    /// Makes some of the values written to the status space ones that open the unlock, and some
    /// the highest, from which the packet count goes to 0.
    fn status_values(&mut self, start: usize) {
        for value in self.bytes[start..].chunks_exact_mut(2) {
            match self.rng.below(16) {
                0..=3 => value.copy_from_slice(&UNLOCK_VALUE.to_le_bytes()),
                4 => value.fill(0xFF),
                _ => {}
            }
        }
    }

    // Areas and addresses.

    /// Registers more often than the other spaces, and once in `n` times an info area.
    fn area(&mut self, n: usize) -> Area {
        if self.rng.one_in(n) {
            return Area::info(self.rng.pick(&Space::ALL));
        }
        let space = self.rng.pick(&[
            Space::Registers,
            Space::Registers,
            Space::Registers,
            Space::Eeprom,
            Space::Status,
            Space::Information,
        ]);
        space.into()
    }

    /// Whether an address is given, and the one used: the pointer where it serves.
    fn given_or_pointer(&mut self, area: Area, write: bool) -> (Option<u16>, u32) {
        if self.pointer_serves(area, write) && self.rng.coin() {
            return (None, self.pointers[area.index()]);
        }
        let address = self.address(area, write);
        (Some(address as u16), address)
    }

    /// Whether an element can be reached at the pointer.
    fn pointer_serves(&self, area: Area, write: bool) -> bool {
        let pointer = self.pointers[area.index()];
        pointer.is_multiple_of(area.element())
            && pointer < area.bytes()
            && !(write && area.space.read_only_at(pointer))
    }

    /// A legal address: often near a limit, or where others have been.
    fn address(&mut self, area: Area, write: bool) -> u32 {
        let element = area.element();
        let first = match write {
            true => area.space.first_writable().unwrap_or(0),
            false => 0,
        };
        let last = area.bytes() - element;
        let drawn = match self.rng.below(8) {
            0 => first,
            1 => last,
            2 => last.saturating_sub(element * self.rng.below(12) as u32),
            3 => self.rng.pick(&[COUNT_ADDRESS, UNLOCK_ADDRESS]),
            4 => 0x20,
            5 => element * self.rng.below(64) as u32,
            _ => element * self.rng.below((area.bytes() / element) as usize) as u32,
        };
        (drawn - drawn % element).clamp(first, last)
    }

    /// An address from which the last of `count` elements, or more of them, stand past the end.
    fn past_the_end(&mut self, area: Area, count: u32) -> u16 {
        let element = area.element();
        let lowest = area.bytes().saturating_sub(element * count.max(1)) + element;
        let address = match self.rng.below(3) {
            0 => lowest,
            1 => area.bytes(),
            _ => lowest + element * self.rng.below(8) as u32,
        };
        address.min(65_536 - element) as u16
    }
}
