//! Why a call was turned away.
//!
//! ```
//! let refusal = head::compile(b"RD", &mut []).unwrap_err();
//! assert_eq!((refusal.number, refusal.place), (22, 0));
//! ```
#![forbid(unsafe_code)]

use std::error::Error;
use std::fmt;

/// Why a call was turned away. A refused call has changed nothing that it was lent, but that
/// [`parts::Compiler`](crate::parts::Compiler) keeps a fault of its list.
///
/// It is shown as number and place, and with `{:#}` also with the library's sentence for the number:
///
/// ```
/// let refusal = head::Card::new().check(&[0x80, 0x02]).unwrap_err();
/// assert_eq!(refusal.to_string(), "refused 7 at 0");
/// assert_eq!(format!("{refusal:#}"), "refused 7 at 0: count 0, no element is named");
/// ```
#[derive(Clone, Copy, Debug, PartialEq, Eq, Hash)]
pub struct Refusal {
    /// Which rule was broken: never 0. The header's `enum head_refusal` has a name for each.
    pub number: u32,
    /// The offset of the refused command, the number of the refused record, the line of a text, the
    /// bytes needed (refusal 26), the log entries or frame numbers needed (27), the pair of a guard
    /// (70), the frame of a capture (92 to 94), or 0.
    pub place: u64,
}

impl Refusal {
    /// The library's sentence for the number.
    ///
    /// ```
    /// let refusal = head::Card::new().check(&[0x80, 0x02]).unwrap_err();
    /// assert_eq!(refusal.sentence(), "count 0, no element is named");
    /// ```
    pub fn sentence(&self) -> String {
        crate::sentence(self.number)
    }
}

impl fmt::Display for Refusal {
    fn fmt(&self, f: &mut fmt::Formatter) -> fmt::Result {
        write!(f, "refused {} at {}", self.number, self.place)?;
        match f.alternate() {
            true => write!(f, ": {}", self.sentence()),
            false => Ok(()),
        }
    }
}

impl Error for Refusal {}

/// The value of an accepted call, or the refusal at that place.
#[inline]
pub(crate) fn accepted((number, value): (u32, u64)) -> Result<u64, Refusal> {
    match number {
        0 => Ok(value),
        _ => Err(Refusal {
            number,
            place: value,
        }),
    }
}

/// The same of a call that has no place.
#[inline]
pub(crate) fn placeless(number: u32) -> Result<(), Refusal> {
    accepted((number, 0)).map(|_| ())
}

/// What an accepted call wrote: its bytes, and how many things these are.
#[inline]
pub(crate) fn written((number, bytes, count): (u32, u64, u64)) -> Result<(usize, u64), Refusal> {
    Ok((accepted((number, bytes))? as usize, count))
}
