//! Cue lists: reading their records, and doing a record alone.

use crate::store::Space;
use crate::Refusal;
use std::ops::Range;

/// The most records that a list may have.
pub const MOST_RECORDS: u64 = 100_000;

#[derive(Clone, Copy, Debug, PartialEq, Eq)]
pub struct Record {
    pub space: Space,
    pub address: u32,
    pub action: Action,
}

#[derive(Clone, Copy, Debug, PartialEq, Eq)]
pub enum Action {
    Read,
    Write(u32),
}

impl Record {
    /// The record of these fields, or the lower of 23 and 24 that it is refused with.
    pub fn new(space: u8, spare: u8, address: u16, action: Action) -> Result<Record, u32> {
        let space = Space::from_number(space).ok_or(23u32)?;
        let address = u32::from(address);
        let record = Record {
            space,
            address,
            action,
        };
        if address % space.element() != 0
            || address + space.element() > space.bytes()
            || record.is_write() && space.read_only_at(address)
            || space.kept_from_lists(address)
        {
            return Err(23);
        }
        if spare != 0 || !record.value_fits() {
            return Err(24);
        }
        Ok(record)
    }

    pub fn is_write(&self) -> bool {
        matches!(self.action, Action::Write(_))
    }

    /// Whether a written value has no more bits than its element.
    fn value_fits(&self) -> bool {
        match self.action {
            Action::Read => true,
            Action::Write(value) => self.space.element() == 4 || value <= 0xFFFF,
        }
    }

    /// The bytes of the store that its element stands in.
    pub fn cell(&self) -> Range<usize> {
        let first = self.space.place(self.address);
        first..first + self.space.element() as usize
    }

    /// Does the record alone: a read adds the element's bytes to `values`, a write changes the
    /// element and nothing else.
    pub fn run(&self, store: &mut [u8], values: &mut Vec<u8>) {
        let cell = &mut store[self.cell()];
        let element = cell.len();
        match self.action {
            Action::Read => values.extend_from_slice(cell),
            Action::Write(value) => cell.copy_from_slice(&value.to_le_bytes()[..element]),
        }
    }
}

/// The records of a list in order, up to its end or its first refusal.
pub struct Records<'a> {
    rest: &'a [u8],
    read: u64,
}

impl<'a> Records<'a> {
    pub fn new(list: &'a [u8]) -> Records<'a> {
        Records {
            rest: list,
            read: 0,
        }
    }

    /// The next record, or the lowest number that it is refused with.
    fn record(&mut self) -> Result<Record, u32> {
        if self.read == MOST_RECORDS {
            return Err(21);
        }
        let (record, bytes) = first(self.rest)?;
        self.rest = &self.rest[bytes..];
        self.read += 1;
        Ok(record)
    }
}

impl Iterator for Records<'_> {
    type Item = Result<Record, Refusal>;

    fn next(&mut self) -> Option<Self::Item> {
        if self.rest.is_empty() {
            return None;
        }
        let place = self.read;
        let record = self.record();
        if record.is_err() {
            self.rest = &[];
        }
        Some(record.map_err(|number| Refusal { number, place }))
    }
}

/// The record at the front of the bytes and its length, or the lowest number from 22 on that it
/// is refused with.
pub fn first(bytes: &[u8]) -> Result<(Record, usize), u32> {
    let length = match bytes {
        [b'R', b'D', ..] => 6,
        [b'W', b'R', ..] => 10,
        _ => return Err(22),
    };
    let record = bytes.get(..length).ok_or(22u32)?;
    check(record).map(|record| (record, length))
}

/// Takes a whole record of 6 or 10 bytes apart.
fn check(record: &[u8]) -> Result<Record, u32> {
    let address = u16::from_le_bytes([record[4], record[5]]);
    let action = match record[6..] {
        [a, b, c, d] => Action::Write(u32::from_le_bytes([a, b, c, d])),
        _ => Action::Read,
    };
    Record::new(record[2], record[3], address, action)
}
