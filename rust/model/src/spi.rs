//! One SPI burst on the register space.

use crate::store::{Space, STORE_BYTES};
use crate::{Refusal, HIGHEST_COUNT};
use std::ops::Range;

const READ: u8 = 0xA;
const WRITE: u8 = 0xB;

/// The first word of a burst, taken apart.
#[derive(Clone, Copy, Debug, PartialEq, Eq)]
pub struct Header {
    pub address: u16,
    /// 0xA to read, 0xB to write.
    pub command: u8,
    pub increment: bool,
    pub count: u8,
}

impl Header {
    pub fn from_word(word: u32) -> Header {
        Header {
            address: (word >> 16) as u16,
            command: (word >> 12 & 0xF) as u8,
            increment: word >> 11 & 1 == 1,
            count: (word >> 4 & 0x7F) as u8,
        }
    }

    pub fn to_word(self) -> Result<u32, Refusal> {
        if !is_command(self.command) {
            return Err(Refusal::whole(32));
        }
        if self.count == 0 || self.count > HIGHEST_COUNT {
            return Err(Refusal::whole(33));
        }
        Ok(u32::from(self.address) << 16
            | u32::from(self.command) << 12
            | u32::from(self.increment) << 11
            | u32::from(self.count) << 4)
    }

    pub(crate) fn is_write(self) -> bool {
        self.command == WRITE
    }

    /// The bytes of the store that the promised elements stand in.
    pub(crate) fn cells(self) -> Range<usize> {
        let first = Space::Registers.place(self.address.into());
        let elements = if self.increment { self.count } else { 1 };
        first..first + 4 * usize::from(elements)
    }
}

fn is_command(command: u8) -> bool {
    command == READ || command == WRITE
}

/// Runs a burst and answers how many elements were moved.
///
/// `answer` has as many words as are sent. A burst that was cut short, with fewer words than its
/// header promises, does those that came.
pub fn burst(words: &[u32], store: &mut [u8], answer: &mut [u32]) -> Result<u64, Refusal> {
    let header = start(words, store, answer)?;
    let step = if header.increment { 4 } else { 0 };
    let first = Space::Registers.place(header.address.into());
    let places = (0..usize::from(header.count)).map(|k| first + k * step);
    answer.fill(0);
    if header.command == READ {
        for (answered, at) in answer[1..].iter_mut().zip(places) {
            let cell = store[at..at + 4].try_into().expect("four bytes");
            *answered = u32::from_le_bytes(cell);
        }
    } else {
        for (sent, at) in words[1..].iter().zip(places) {
            store[at..at + 4].copy_from_slice(&sent.to_le_bytes());
        }
    }
    Ok(words[1..].len() as u64)
}

/// The header of a good burst with rooms of the right lengths.
pub(crate) fn start(words: &[u32], store: &[u8], answer: &[u32]) -> Result<Header, Refusal> {
    if store.len() != STORE_BYTES || answer.len() != words.len() {
        return Err(Refusal::whole(1));
    }
    check(words).map_err(Refusal::whole)
}

/// The header of a good burst, or the lowest number that it is refused with.
fn check(words: &[u32]) -> Result<Header, u32> {
    let header = Header::from_word(*words.first().ok_or(31u32)?);
    if !is_command(header.command) {
        return Err(32);
    }
    if header.count == 0 {
        return Err(33);
    }
    if words.len() > 1 + usize::from(header.count) {
        return Err(34);
    }
    // All that is promised must be in the space, whether it came or not.
    if !header.address.is_multiple_of(4) || header.cells().end > Space::Registers.bytes() as usize {
        return Err(35);
    }
    Ok(header)
}
