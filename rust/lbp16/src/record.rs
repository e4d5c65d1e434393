//! Records of a cue list in words.

use head::Fault;
use std::fmt::{self, Display};

/// A list's record that is whole, from its mark on.
pub struct Record<'a>(&'a [u8]);

const WRITE: &[u8] = b"WR";

/// A space's name, its bytes and those of an element, where the card has it.
pub fn space(number: u8) -> Option<(&'static str, u32, u32)> {
    match number {
        0 => Some(("registers", 65_536, 4)),
        2 => Some(("eeprom", 128, 2)),
        6 => Some(("status", 32, 2)),
        7 => Some(("information", 32, 2)),
        _ => None,
    }
}

/// Where a space begins in the store: behind those with lower numbers.
pub fn start(number: u8) -> u32 {
    (0..number)
        .filter_map(space)
        .map(|(_, bytes, _)| bytes)
        .sum()
}

impl<'a> Record<'a> {
    /// The record at an offset of a list, if it is whole.
    pub fn at(list: &'a [u8], offset: usize) -> Option<Record<'a>> {
        let rest = list.get(offset..)?;
        let bytes = bytes_of(rest)?;
        rest.get(..bytes).map(Record)
    }

    /// Record k of an accepted list, and its offset.
    pub fn number(list: &'a [u8], k: u64) -> Option<(usize, Record<'a>)> {
        let mut offset = 0;
        for _ in 0..k {
            offset += bytes_of(&list[offset..])?;
        }
        Record::at(list, offset).map(|record| (offset, record))
    }

    pub fn space(&self) -> u8 {
        self.0[2]
    }

    pub fn address(&self) -> u16 {
        u16::from_le_bytes([self.0[4], self.0[5]])
    }

    fn value(&self) -> Option<u32> {
        let value = self.0.get(6..10)?;
        value.try_into().ok().map(u32::from_le_bytes)
    }
}

/// How many bytes the record has that begins here.
pub fn bytes_of(rest: &[u8]) -> Option<usize> {
    match rest.get(..2)? {
        b"RD" => Some(6),
        WRITE => Some(10),
        _ => None,
    }
}

impl Display for Record<'_> {
    fn fmt(&self, f: &mut fmt::Formatter) -> fmt::Result {
        let kind = if self.0[..2] == *WRITE {
            "write"
        } else {
            "read"
        };
        let address = self.address();
        let element = match space(self.space()) {
            Some((name, _, element)) => {
                write!(f, "{kind} {name} 0x{address:04X}")?;
                element
            }
            None => {
                write!(f, "{kind} space {} 0x{address:04X}", self.space())?;
                4
            }
        };
        match self.value() {
            Some(value) if element == 2 && value <= 0xFFFF => write!(f, " 0x{value:04X}"),
            Some(value) => write!(f, " 0x{value:08X}"),
            None => Ok(()),
        }
    }
}

/// What is wrong with a list at a record, as the program `cuewhy` says it.
pub struct Wrong<'a>(pub &'a Fault, pub &'a [u8]);

impl Display for Wrong<'_> {
    fn fmt(&self, f: &mut fmt::Formatter) -> fmt::Result {
        let Wrong(fault, list) = self;
        let rest = &list[fault.offset..];
        write!(f, "{} (byte {}): ", fault.refusal, fault.offset)?;
        match (fault.refusal.number, fault.cause) {
            (22, 1) => unmarked(f, rest, fault.refusal.place),
            (22, _) => cut(f, rest),
            (23 | 24, cause) => match Record::at(list, fault.offset) {
                Some(record) => bad(f, &record, fault.refusal.number, cause),
                None => write!(f, "{}", fault.sentence()),
            },
            _ => write!(f, "{}", fault.sentence()),
        }
    }
}

fn unmarked(f: &mut fmt::Formatter, rest: &[u8], place: u64) -> fmt::Result {
    write!(f, "mark {:02X} {:02X}: neither RD nor WR", rest[0], rest[1])?;
    match place {
        0 => Ok(()),
        _ => write!(f, "; the record before may be one of the wrong length"),
    }
}

fn cut(f: &mut fmt::Formatter, rest: &[u8]) -> fmt::Result {
    let left = rest.len();
    match bytes_of(rest) {
        Some(6) => write!(f, "read: cut off, {left} bytes left of 6"),
        Some(_) => write!(f, "write: cut off, {left} bytes left of 10"),
        None => write!(f, "record: cut off, 1 byte left of 6 or 10"),
    }
}

fn bad(f: &mut fmt::Formatter, record: &Record, number: u32, cause: u64) -> fmt::Result {
    write!(f, "{record}: ")?;
    let (_, bytes, element) = space(record.space()).unwrap_or(("", 0, 1));
    match (number, cause) {
        (23, 1) => write!(f, "the card has no such space"),
        (23, 2) => write!(f, "address not a multiple of {element}"),
        (23, 3) => write!(f, "past the end: the space has {bytes} bytes"),
        (23, 4) if record.space() == 2 => write!(f, "read-only below 0x20"),
        (23, 4) => write!(f, "the space is read-only"),
        (23, 5) => write!(f, "the unlock cell, which no list may name"),
        (23, _) => write!(f, "the packet count, which no list may name"),
        (_, 1) => write!(f, "spare byte not 0"),
        _ => write!(f, "value above 0xFFFF"),
    }
}
