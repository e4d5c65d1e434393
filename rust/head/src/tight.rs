//! Packets for a cue list that are tighter than the packing rule's.
//!
//! ```
//! let list = b"RD\0\0\x04\0RD\0\0\x04\0";
//! let packets = head::Packets::tighten(list)?;
//! assert_eq!(head::tight_check(list, packets.output()), Ok(1));
//! # Ok::<(), head::Refusal>(())
//! ```
#![forbid(unsafe_code)]

use crate::packets::compiled;
use crate::refusal::accepted;
use crate::{Compiled, Refusal, raw};

/// The number of an output that [`tight_check`] rejects.
///
/// ```
/// let refusal = head::tight_check(b"RD\0\0\x04\0", b"").unwrap_err();
/// assert_eq!(refusal.number, head::tight::REJECTED);
/// ```
pub const REJECTED: u32 = 50;

/// Plans packets for a cue list in `out`, each after a mark and its length: never more bytes than
/// [`crate::compile()`] gives, and with the same effect. Refusals are as there: `out` must have the
/// room that the packing rule's packets need, though less may be used.
///
/// ```
/// // Reads register 4 three times.
/// let list = b"RD\0\0\x04\0RD\0\0\x04\0RD\0\0\x04\0";
/// let mut out = [0; 100];
/// let planned = head::tighten(list, &mut out)?;
/// assert_eq!((planned.bytes, planned.packets), (8, 1));
/// assert_eq!(head::tight_check(list, &out[..planned.bytes]), Ok(1));
/// # Ok::<(), head::Refusal>(())
/// ```
pub fn tighten(list: &[u8], out: &mut [u8]) -> Result<Compiled, Refusal> {
    compiled(raw::tighten(list, out))
}

/// Checks an output that is proposed for a cue list, by whomever, and answers its packets. Running
/// them does the same as the list's records one by one, from whatever state.
///
/// A bad list is refused as [`crate::compile()`] refuses it, another fault with [`REJECTED`].
///
/// ```
/// // One command with a count of 2 and no increment reads register 4 twice.
/// let list = b"RD\0\0\x04\0RD\0\0\x04\0";
/// assert_eq!(head::tight_check(list, b"LB\x04\0\x02\x42\x04\0"), Ok(1));
/// assert!(head::tight_check(list, b"LB\x04\0\x03\x42\x04\0").is_err());
/// ```
pub fn tight_check(list: &[u8], output: &[u8]) -> Result<u64, Refusal> {
    accepted(raw::tight_check(list, output))
}

/// The library's answers of this module, as numbers.
///
/// ```
/// assert_eq!(head::tight::exports::tight_check(b"", b""), (0, 0));
/// ```
pub mod exports {
    pub use crate::raw::{tight_check, tighten};
}
