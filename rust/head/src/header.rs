//! The header word of an SPI burst, both ways.
//!
//! ```
//! assert_eq!(head::header_word(&head::header(0x1000_A83F)), Ok(0x1000_A830));
//! ```
#![forbid(unsafe_code)]

use crate::refusal::placeless;
use crate::{Refusal, raw};

/// A header word taken apart.
///
/// ```
/// let header = head::Header { address: 0x1000, command: 0xA, increment: true, count: 3 };
/// assert_eq!(head::header(0x1000_A830), header);
/// ```
#[derive(Clone, Copy, Debug, PartialEq, Eq, Hash)]
pub struct Header {
    /// The first register's.
    pub address: u16,
    /// 0xA to read, 0xB to write.
    pub command: u8,
    /// Each register is the next one; otherwise all are the same one.
    pub increment: bool,
    /// How many words follow, 0 to 127.
    pub count: u8,
}

/// Takes a burst's header apart. No word is refused; the four lowest bits are ignored.
///
/// ```
/// let header = head::header(0x1000_A830);
/// assert_eq!((header.address, header.command, header.count), (0x1000, 0xA, 3));
/// assert!(header.increment);
/// assert_eq!(head::header_word(&header), Ok(0x1000_A830));
/// ```
pub fn header(word: u32) -> Header {
    let mut fields = [0; 4];
    raw::header(word, &mut fields);
    let [address, command, increment, count] = fields;
    Header {
        address: address as u16,
        command: command as u8,
        increment: increment != 0,
        count: count as u8,
    }
}

/// Puts a burst's header together. A command other than 0xA and 0xB is refused with 32, a count
/// outside 1 to 127 with 33.
///
/// ```
/// let header = head::Header { address: 0x1000, command: 0xB, increment: true, count: 0 };
/// assert_eq!(head::header_word(&header).unwrap_err().number, 33);
/// ```
pub fn header_word(header: &Header) -> Result<u32, Refusal> {
    let fields = [
        header.address.into(),
        header.command.into(),
        header.increment.into(),
        header.count.into(),
    ];
    let mut word = 0;
    placeless(raw::header_word(&fields, &mut word))?;
    Ok(word)
}

/// The library's answers of this module, as numbers.
///
/// ```
/// assert_eq!(head::header::exports::header(0x1000_A830, &mut []), 13);
/// ```
pub mod exports {
    pub use crate::raw::{header, header_word};
}
