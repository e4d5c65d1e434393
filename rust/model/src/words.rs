//! The LBP16 command word.

use crate::{Refusal, HIGHEST_COUNT};

const WRITE: u16 = 1 << 15;
const ADDRESS: u16 = 1 << 14;
const INFO: u16 = 1 << 13;
const INCREMENT: u16 = 1 << 7;

/// A command word taken apart.
#[derive(Clone, Copy, Debug, PartialEq, Eq)]
pub struct Fields {
    pub write: bool,
    /// An address follows the word.
    pub address: bool,
    pub info: bool,
    pub space: u8,
    /// 0, 1, 2, 3 for elements of 1, 2, 4, 8 bytes.
    pub size: u8,
    pub increment: bool,
    pub count: u8,
}

impl Fields {
    pub fn from_word(word: u16) -> Fields {
        Fields {
            write: word & WRITE != 0,
            address: word & ADDRESS != 0,
            info: word & INFO != 0,
            space: (word >> 10 & 7) as u8,
            size: (word >> 8 & 3) as u8,
            increment: word & INCREMENT != 0,
            count: (word & 0x7F) as u8,
        }
    }

    pub fn to_word(self) -> Result<u16, Refusal> {
        if self.space > 7 || self.size > 3 || self.count > HIGHEST_COUNT {
            return Err(Refusal::whole(13));
        }
        let flag = |set: bool, bit: u16| if set { bit } else { 0 };
        Ok(flag(self.write, WRITE)
            | flag(self.address, ADDRESS)
            | flag(self.info, INFO)
            | u16::from(self.space) << 10
            | u16::from(self.size) << 8
            | flag(self.increment, INCREMENT)
            | u16::from(self.count))
    }
}
