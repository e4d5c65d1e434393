//! The guard: bytes of the store that no packet, burst or list may write.

use crate::cue::{Record, Records};
use crate::packet::{self, start, Command, Ran};
use crate::spi;
use crate::store::{Space, COUNT_ADDRESS, STORE_BYTES, UNLOCK_ADDRESS};
use crate::{Refusal, PACKET_BYTES};
use std::ops::Range;

/// The number of a guard that is not sound. It is not one of the papers'.
pub const UNSOUND: u32 = 70;

/// The number of a write to a protected byte. It is not one of the papers'.
pub const PROTECTED: u32 = 71;

/// The most ranges that a guard may have.
pub const MOST_RANGES: usize = 64;

/// A guard that is sound.
struct Guard {
    ranges: Vec<Range<u64>>,
}

/// Whether a guard is sound: answers how many ranges it has.
///
/// A guard is two numbers for each range of the store, its first byte and how many bytes it has.
pub fn sound(guard: &[u32]) -> Result<u64, Refusal> {
    Guard::new(guard).map(|guard| guard.ranges.len() as u64)
}

/// Checks a packet as [`packet::check`] does, and against the guard.
pub fn check(
    packet: &[u8],
    store: &[u8],
    pointers: &[u32],
    guard: &[u32],
) -> Result<usize, Refusal> {
    let guard = Guard::new(guard)?;
    let length = packet::check(packet, store, pointers)?;
    guard.lets_pass(packet, store, pointers)?;
    Ok(length)
}

/// Runs a packet as [`packet::run`] does, unless it writes a protected byte.
pub fn run(
    packet: &[u8],
    store: &mut [u8],
    pointers: &mut [u32],
    reply: &mut [u8],
    guard: &[u32],
) -> Result<Ran, Refusal> {
    let guard = Guard::new(guard)?;
    // Another reply room is refused by the plain run, before the guard is asked.
    if reply.len() == PACKET_BYTES {
        packet::check(packet, store, pointers)?;
        guard.lets_pass(packet, store, pointers)?;
    }
    packet::run(packet, store, pointers, reply)
}

/// Runs a burst as [`spi::burst`] does, unless a register that it promises to write is protected.
pub fn burst(
    words: &[u32],
    store: &mut [u8],
    answer: &mut [u32],
    guard: &[u32],
) -> Result<u64, Refusal> {
    let guard = Guard::new(guard)?;
    let header = spi::start(words, store, answer)?;
    if header.is_write() && guard.protects(header.cells()) {
        return Err(Refusal::whole(PROTECTED));
    }
    spi::burst(words, store, answer)
}

/// Whether a list is good and writes no protected byte: answers how many records it has.
pub fn list(list: &[u8], guard: &[u32]) -> Result<u64, Refusal> {
    let guard = Guard::new(guard)?;
    let records: Result<Vec<Record>, Refusal> = Records::new(list).collect();
    let records = records?;
    let forbidden = |record: &Record| record.is_write() && guard.protects(record.cell());
    match records.iter().position(forbidden) {
        None => Ok(records.len() as u64),
        Some(index) => Err(Refusal {
            number: PROTECTED,
            place: index as u64,
        }),
    }
}

impl Guard {
    fn new(numbers: &[u32]) -> Result<Guard, Refusal> {
        let mut ranges = Vec::new();
        for (index, pair) in numbers.chunks(2).enumerate() {
            let fault = Refusal {
                number: UNSOUND,
                place: index as u64,
            };
            let &[first, bytes] = pair else {
                return Err(fault);
            };
            let range = u64::from(first)..u64::from(first) + u64::from(bytes);
            let in_store = range.end <= STORE_BYTES as u64;
            if index >= MOST_RANGES || !in_store || reaches_own_cell(&range) {
                return Err(fault);
            }
            ranges.push(range);
        }
        Ok(Guard { ranges })
    }

    /// Whether one of these bytes of the store is in a range.
    fn protects(&self, bytes: Range<usize>) -> bool {
        let bytes = bytes.start as u64..bytes.end as u64;
        self.ranges.iter().any(|range| meet(range, &bytes))
    }

    /// Refuses an accepted packet at its first command that writes a protected byte.
    fn lets_pass(&self, packet: &[u8], store: &[u8], pointers: &[u32]) -> Result<(), Refusal> {
        let mut walk = start(packet, store, pointers)?;
        while !walk.at_end() {
            let place = walk.place();
            let command = walk.command()?;
            if self.forbids(&command) {
                return Err(Refusal {
                    number: PROTECTED,
                    place,
                });
            }
        }
        Ok(())
    }

    fn forbids(&self, command: &Command) -> bool {
        command
            .written()
            .is_some_and(|written| self.protects(written))
    }
}

/// Whether a range has a byte of the cells that the card changes with every accepted packet.
fn reaches_own_cell(range: &Range<u64>) -> bool {
    [UNLOCK_ADDRESS, COUNT_ADDRESS].iter().any(|&address| {
        let first = Space::Status.place(address) as u64;
        meet(range, &(first..first + 2))
    })
}

/// Whether two ranges have a byte in common; one without bytes has none.
fn meet(one: &Range<u64>, other: &Range<u64>) -> bool {
    one.start.max(other.start) < one.end.min(other.end)
}
