//! What is wrong with a cue list.
//!
//! ```
//! // The list ends inside its record.
//! assert_eq!(head::list_why(b"RD\0").map(|fault| fault.refusal.number), Some(22));
//! ```
#![forbid(unsafe_code)]

use crate::{Refusal, raw};
use std::error::Error;
use std::fmt;

/// The refusal of a list, and what is wrong at the record.
///
/// ```
/// let fault = head::list_why(b"RD\0\0\x04\0RD\0\x01\x04\0").expect("a refused list");
/// assert_eq!(fault.to_string(), "refused 24 at 1 (byte 6): the spare byte is not 0");
/// ```
#[derive(Clone, Copy, Debug, PartialEq, Eq)]
pub struct Fault {
    /// What [`crate::compile()`] refuses the list with, 21 to 24.
    pub refusal: Refusal,
    /// Where the record begins in the list. The bytes before it alone are an accepted list.
    pub offset: usize,
    /// Which of the number's causes comes first, from 1; 0 for 21.
    pub cause: u64,
}

impl Fault {
    /// The cause, in the header's words: the library has a sentence for each number, and none for each cause.
    ///
    /// ```
    /// let fault = head::list_why(b"RD\0\0\x03\0").expect("a refused list");
    /// assert_eq!(fault.sentence(), "the address is not a multiple of the element's bytes");
    /// ```
    pub fn sentence(&self) -> &'static str {
        match (self.refusal.number, self.cause) {
            (21, _) => "a list has at most 100,000 records",
            (22, 1) => {
                "the mark is neither RD nor WR; the record before may be one of the wrong length"
            }
            (22, _) => "the list ends inside the record",
            (23, 1) => "the card has no such space",
            (23, 2) => "the address is not a multiple of the element's bytes",
            (23, 3) => "the element stands past the end of the space",
            (23, 4) => "a write to read-only cells",
            (23, 5) => "the unlock cell, which no list may name",
            (23, _) => "the packet count, which no list may name",
            (_, 1) => "the spare byte is not 0",
            _ => "the value is above 0xFFFF",
        }
    }
}

impl fmt::Display for Fault {
    fn fmt(&self, f: &mut fmt::Formatter) -> fmt::Result {
        write!(
            f,
            "{} (byte {}): {}",
            self.refusal,
            self.offset,
            self.sentence()
        )
    }
}

impl Error for Fault {
    fn source(&self) -> Option<&(dyn Error + 'static)> {
        Some(&self.refusal)
    }
}

/// What is wrong with a list; nothing if [`crate::compile()`] would not refuse it with 21 to 24.
///
/// ```
/// // A read of register 4, and a write to a cell of the EEPROM that is read only.
/// let list = b"RD\0\0\x04\0WR\x02\0\x10\0\x01\0\0\0";
/// let fault = head::list_why(list).expect("a refused list");
/// assert_eq!((fault.refusal.number, fault.refusal.place), (23, 1));
/// assert_eq!((fault.offset, fault.cause), (6, 4));
/// assert_eq!(fault.sentence(), "a write to read-only cells");
/// assert!(head::list_why(&list[..fault.offset]).is_none());
/// ```
pub fn list_why(list: &[u8]) -> Option<Fault> {
    let (number, place, offset, cause) = raw::list_why(list);
    let fault = Fault {
        refusal: Refusal { number, place },
        offset: offset as usize,
        cause,
    };
    (number != 0).then_some(fault)
}

/// The library's answers of this module, as numbers.
///
/// ```
/// assert_eq!(head::list_why::exports::list_why(b"RD"), (22, 0, 0, 2));
/// ```
pub mod exports {
    pub use crate::raw::list_why;
}
