//! A sentence for every number.
//!
//! ```
//! assert_eq!(head::sentence(0), "accepted");
//! ```
#![forbid(unsafe_code)]

use crate::raw;

/// The bytes that are room enough for any sentence.
///
/// ```
/// let mut room = [0; head::sentence::SENTENCE_BYTES];
/// assert!((0..200).all(|number| head::sentence::exports::sentence(number, &mut room).0 == 0));
/// ```
pub const SENTENCE_BYTES: usize = 100;

/// What a number means, in a sentence: that of a [`crate::Refusal`], 0 for acceptance, or any other, of
/// which it says that it means nothing. Where a number means different things to different functions
/// all are named.
///
/// ```
/// assert_eq!(head::sentence(22), "mark unknown, or record cut");
/// assert_eq!(head::sentence(14), "no refusal has this number");
/// ```
pub fn sentence(number: u32) -> String {
    let mut room = [0; SENTENCE_BYTES];
    let (_, bytes) = raw::sentence(number, &mut room);
    String::from_utf8_lossy(&room[..bytes as usize]).into_owned()
}

/// The library's answers of this module, as numbers.
///
/// ```
/// assert_eq!(head::sentence::exports::sentence(31, &mut []), (26, 11));
/// ```
pub mod exports {
    pub use crate::raw::sentence;
}
