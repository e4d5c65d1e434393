//! The lamp panel: starting exchanges, reporting faults, and readings in a panel's units.
//!
//! ```
//! let asked = head::panel::start(0b0110, 0b1110)?;
//! assert_eq!(head::panel::report(asked, 0).failed, 0);
//! # Ok::<(), head::Refusal>(())
//! ```
#![forbid(unsafe_code)]

use crate::refusal::placeless;
use crate::{Refusal, raw};

/// What became of the channels that were asked.
///
/// ```
/// let report = head::panel::report(0b0110, 0b0001);
/// assert_eq!(report, head::panel::Report { asked: 2, failed: 0, lowest: None });
/// ```
#[derive(Clone, Copy, Debug, PartialEq, Eq)]
pub struct Report {
    /// How many channels were asked.
    pub asked: u8,
    /// How many of these failed.
    pub failed: u8,
    /// The lowest of these.
    pub lowest: Option<u8>,
}

/// Answers the mask of the channels to start exchanges for. One that names a channel outside the
/// started ones is refused with 43.
///
/// ```
/// assert_eq!(head::panel::start(0b0110, 0b1110), Ok(0b0110));
/// assert_eq!(head::panel::start(0b0110, 0b1100).unwrap_err().number, 43);
/// ```
pub fn start(asked: u8, started: u8) -> Result<u8, Refusal> {
    let mut mask = 0;
    placeless(raw::start(asked, started, &mut mask))?;
    Ok(mask)
}

/// Reports on the channels asked, given the mask of faults. Faults of other channels don't count.
///
/// ```
/// let report = head::panel::report(0b1110, 0b0101);
/// assert_eq!((report.asked, report.failed, report.lowest), (3, 1, Some(2)));
/// ```
pub fn report(asked: u8, faults: u8) -> Report {
    let [asked, failed, lowest] = raw::report(asked, faults);
    Report {
        asked,
        failed,
        lowest: (lowest < 8).then_some(lowest),
    }
}

/// What a value reads: times the maximum, divided by one less than 2 to the width.
///
/// Another type than UNSIGNED (2), a width outside 1 to 24 or a value too large for it is refused
/// with 44; then a bound that isn't finite, or a maximum not above the minimum, with 45; then a
/// product that isn't finite with 46.
///
/// ```
/// assert_eq!(head::panel::reading(2, 8, 255, 0.0, 36.3), Ok(36.3));
/// ```
pub fn reading(
    kind: u32,
    width: u32,
    value: u64,
    minimum: f32,
    maximum: f32,
) -> Result<f32, Refusal> {
    let mut bits = 0;
    let (minimum, maximum) = (minimum.to_bits(), maximum.to_bits());
    placeless(raw::reading(
        kind, width, value, minimum, maximum, &mut bits,
    ))?;
    Ok(f32::from_bits(bits))
}

/// The library's answers of this module, as numbers.
///
/// ```
/// assert_eq!(head::panel::exports::report(0, 0), [0, 0, 8]);
/// ```
pub mod exports {
    pub use crate::raw::{reading, report, start};
}
