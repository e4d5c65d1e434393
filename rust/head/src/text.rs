//! Cue lists as text, and back.
//!
//! A text is lines. `#` starts a comment; words stand apart by blanks, tabs and carriage returns. A line is
//! empty or one of
//!
//! ```text
//! read SPACE ADDRESS            read NAME
//! write SPACE ADDRESS VALUE     write NAME VALUE
//! name NAME SPACE ADDRESS
//! ```
//!
//! A space is `registers`, `eeprom`, `status`, `information` or a number; numbers are decimal, or hex
//! behind 0x. A name has a letter first, then letters, digits, `_`, `-` and `.`, at most 32 bytes, and
//! stands for a space and an address in the lines below its definition.
//!
//! ```
//! let text = b"name lamp registers 0x2000   # the dimmer\nwrite lamp 32768\nread lamp\n";
//! let mut list = [0; 16];
//! let assembled = head::assemble(text, &mut list)?;
//! assert_eq!((assembled.bytes, assembled.records), (16, 2));
//! assert_eq!(list, *b"WR\0\0\0\x20\0\x80\0\0RD\0\0\0\x20");
//!
//! let mut room = [0; 100];
//! let written = head::list_text(&list, &mut room)?;
//! assert_eq!(written.lines, 2);
//! let text = b"write registers 0x2000 0x00008000\nread registers 0x2000\n";
//! assert_eq!(room[..written.bytes], *text);
//! # Ok::<(), head::Refusal>(())
//! ```

#![forbid(unsafe_code)]

use crate::refusal::written;
use crate::{Refusal, raw};

/// The number of a line whose first word and number of words are those of no form.
///
/// ```
/// assert_eq!(head::assemble(b"read", &mut []).unwrap_err().number, head::text::FORM);
/// ```
pub const FORM: u32 = 81;

/// The number of a word that is no space, address or value where one must stand, or is too large.
///
/// ```
/// assert_eq!(head::assemble(b"read 0 65536", &mut []).unwrap_err().number, head::text::NUMBER);
/// ```
pub const NUMBER: u32 = 82;

/// The number of a name that is none, unknown, defined twice or beyond the thousandth.
///
/// ```
/// assert_eq!(head::assemble(b"read lamp", &mut []).unwrap_err().number, head::text::NAME);
/// ```
pub const NAME: u32 = 83;

/// What a text was assembled to.
///
/// ```
/// let assembled = head::assemble(b"read 0 4", &mut [0; 10])?;
/// assert_eq!(assembled, head::Assembled { bytes: 6, records: 1 });
/// # Ok::<(), head::Refusal>(())
/// ```
#[derive(Clone, Copy, Debug, PartialEq, Eq)]
pub struct Assembled {
    /// The list's length.
    pub bytes: usize,
    /// How many records the list has.
    pub records: u64,
}

/// The text that was written for a list.
///
/// ```
/// let written = head::list_text(b"RD\0\0\x04\0", &mut [0; 34])?;
/// assert_eq!(written, head::Written { bytes: 22, lines: 1 });
/// # Ok::<(), head::Refusal>(())
/// ```
#[derive(Clone, Copy, Debug, PartialEq, Eq)]
pub struct Written {
    /// The text's length.
    pub bytes: usize,
    /// How many lines the text has.
    pub lines: u64,
}

/// Assembles a text to a cue list in `out`, which [`crate::compile()`] then refuses for no record.
///
/// The place of a refusal is the line, counted from 1: [`FORM`], [`NUMBER`], [`NAME`], or 21, 23 and 24 as
/// the compiler would refuse its record. Where `out` is too short the refusal is 26 and its place is the
/// length that is needed. What lies in `out` beyond the answered bytes is left as it was.
///
/// ```
/// let refusal = head::assemble(b"# no such space\nread lamps 0x10\n", &mut []).unwrap_err();
/// assert_eq!((refusal.number, refusal.place), (head::text::NUMBER, 2));
/// ```
pub fn assemble(text: &[u8], out: &mut [u8]) -> Result<Assembled, Refusal> {
    let (bytes, records) = written(raw::assemble(text, out))?;
    Ok(Assembled { bytes, records })
}

/// Writes a cue list to `out` as text, a line for each record, which [`assemble`] makes the same list of.
///
/// A bad list is refused as [`crate::compile()`] refuses it. Where `out` is too short the refusal is 26 and its
/// place is the length that is needed. What lies in `out` beyond the answered bytes is left as it was.
///
/// ```
/// let mut out = [0; 34];
/// let written = head::list_text(b"RD\0\0\x04\0", &mut out)?;
/// assert_eq!(out[..written.bytes], *b"read registers 0x0004\n");
/// # Ok::<(), head::Refusal>(())
/// ```
pub fn list_text(list: &[u8], out: &mut [u8]) -> Result<Written, Refusal> {
    let (bytes, lines) = written(raw::list_text(list, out))?;
    Ok(Written { bytes, lines })
}

/// The library's answers of this module, as numbers.
///
/// ```
/// assert_eq!(head::text::exports::assemble(b"read", &mut []), (81, 1, 0));
/// ```
pub mod exports {
    pub use crate::raw::{assemble, list_text};
}
