//! Two cue lists that may be run in either order.
//!
//! ```
//! let (lamp, tilt) = (b"WR\0\0\x04\0\x01\0\0\0", b"RD\0\0\x08\0");
//! assert!(head::independent(lamp, tilt).is_ok());
//! ```
#![forbid(unsafe_code)]

use crate::{Refusal, raw};
use std::error::Error;
use std::fmt;

/// The number of two lists that clash.
///
/// ```
/// let lamp = b"WR\0\0\x04\0\x01\0\0\0";
/// let dependent = head::independent(lamp, lamp).unwrap_err();
/// assert_eq!(dependent.refusal.number, head::independent::CLASH);
/// ```
pub const CLASH: u32 = 51;

/// Why two lists are not independent.
///
/// ```
/// let dependent = head::independent(b"", b"?").unwrap_err();
/// assert_eq!(dependent.to_string(), "the second list: refused 22 at 0");
/// ```
#[derive(Clone, Copy, Debug, PartialEq, Eq)]
pub struct Dependent {
    /// Which list, 0 or 1, the refusal speaks of.
    pub list: u64,
    /// The list's own refusal, or [`CLASH`] with the first record of the second list that writes a
    /// cell which the first names, or names one which the first writes.
    pub refusal: Refusal,
}

impl fmt::Display for Dependent {
    fn fmt(&self, f: &mut fmt::Formatter) -> fmt::Result {
        let which = if self.list == 0 { "first" } else { "second" };
        write!(f, "the {which} list: ")?;
        self.refusal.fmt(f)
    }
}

impl Error for Dependent {
    fn source(&self) -> Option<&(dyn Error + 'static)> {
        Some(&self.refusal)
    }
}

/// Whether both lists are accepted and neither writes a cell that the other names. They can then be
/// compiled apart and run in either order: the cells at the end and each list's values are the same.
///
/// ```
/// let lamps = b"WR\0\0\x04\0\x01\0\0\0";
/// let tilt = b"RD\0\0\x08\0RD\0\0\x04\0";
/// assert!(head::independent(lamps, &tilt[..6]).is_ok());
/// let dependent = head::independent(lamps, tilt).unwrap_err();
/// assert_eq!((dependent.list, dependent.refusal.place), (1, 1));
/// ```
pub fn independent(first: &[u8], second: &[u8]) -> Result<(), Dependent> {
    let (number, list, place) = raw::independent(first, second);
    match number {
        0 => Ok(()),
        _ => Err(Dependent {
            list,
            refusal: Refusal { number, place },
        }),
    }
}

/// The library's answers of this module, as numbers.
///
/// ```
/// assert_eq!(head::independent::exports::independent(b"", b"?"), (22, 1, 0));
/// ```
pub mod exports {
    pub use crate::raw::independent;
}
