//! Damaged cue lists.
//!
//! ```
//! let (mut out, mut log) = ([0; 7], [0; 2]);
//! let salvaged = head::salvage(b"?RD\0\0\x04\0", &mut out, &mut log)?;
//! assert!(head::list_why(&out[..salvaged.bytes]).is_none());
//! # Ok::<(), head::Refusal>(())
//! ```
#![forbid(unsafe_code)]

use crate::refusal::written;
use crate::{Refusal, raw};

/// What was saved of a damaged list.
///
/// ```
/// let salvaged = head::salvage(b"??", &mut [0; 2], &mut [0; 2])?;
/// assert_eq!(salvaged, head::Salvaged { bytes: 0, entries: 1 });
/// # Ok::<(), head::Refusal>(())
/// ```
#[derive(Clone, Copy, Debug, PartialEq, Eq)]
pub struct Salvaged {
    /// The bytes of the records kept.
    pub bytes: usize,
    /// The stretches skipped, two numbers of the log for each.
    pub entries: usize,
}

/// Writes the good records of a damaged cue list to `out`, and each skipped stretch to `log` as two
/// numbers, start and length.
///
/// `out` must be as long as the list: otherwise the refusal is 26 and its place that length. Where
/// `log` has too little room the refusal is 27 and its place the number of stretches.
///
/// ```
/// // A byte was lost in the mark of the first of two reads.
/// let list = b"D\0\0\x04\0RD\0\0\x08\0";
/// let (mut out, mut log) = ([0; 11], [0; 4]);
/// let salvaged = head::salvage(list, &mut out, &mut log)?;
/// assert_eq!(out[..salvaged.bytes], *b"RD\0\0\x08\0");
/// assert_eq!(log[..2 * salvaged.entries], [0, 5]);
/// # Ok::<(), head::Refusal>(())
/// ```
pub fn salvage(list: &[u8], out: &mut [u8], log: &mut [u64]) -> Result<Salvaged, Refusal> {
    let (bytes, entries) = written(raw::salvage(list, out, log))?;
    Ok(Salvaged {
        bytes,
        entries: entries as usize,
    })
}

/// The library's answers of this module, as numbers.
///
/// ```
/// assert_eq!(head::salvage::exports::salvage(b"?", &mut [], &mut []), (26, 1, 0));
/// ```
pub mod exports {
    pub use crate::raw::salvage;
}
