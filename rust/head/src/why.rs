//! Why a packet is refused.
//!
//! ```
//! let reason = head::Card::new().why(&[0x80, 0x02]).expect("a refused packet");
//! assert_eq!(reason.to_string(), "refused 7 at 0: count 0, no element is named");
//! ```
#![forbid(unsafe_code)]

use crate::word::fields_of;
use crate::{Fields, Refusal, raw};
use std::error::Error;
use std::fmt;

pub use crate::sentence::sentence;

/// The refusal of a packet, and the command that is at fault.
///
/// ```
/// let reason = head::Card::new().why(&[0x81, 0x42, 0, 0, 0x81, 0x4E, 0, 0]).expect("a refused packet");
/// assert_eq!((reason.index, reason.fields.space), (1, 3));
/// assert_eq!(reason.to_string(), "refused 5 at 4: the card has no such space");
/// ```
#[derive(Clone, Copy, Debug, PartialEq, Eq)]
pub struct Reason {
    /// What [`crate::check`] refuses the packet with.
    pub refusal: Refusal,
    /// The command's index from 0. Refusals 1 and 2 name no command: index and fields are 0.
    pub index: u64,
    /// The command's fields, all 0 where its word is cut off.
    pub fields: Fields,
}

impl Reason {
    /// The rule that was broken, in the library's sentence.
    ///
    /// ```
    /// let reason = head::Card::new().why(&[0x81]).expect("a refused packet");
    /// assert_eq!(reason.sentence(), "command word or its address cut off");
    /// ```
    pub fn sentence(&self) -> String {
        self.refusal.sentence()
    }
}

impl fmt::Display for Reason {
    fn fmt(&self, f: &mut fmt::Formatter) -> fmt::Result {
        write!(f, "{:#}", self.refusal)
    }
}

impl Error for Reason {
    fn source(&self) -> Option<&(dyn Error + 'static)> {
        Some(&self.refusal)
    }
}

/// Why a packet would be refused in this state; nothing if it would be accepted. From refusal 3 on
/// the bytes before the refusal's place alone are an accepted packet in the same state.
///
/// ```
/// let store = vec![0; head::STORE_BYTES];
/// let packet = [0x81, 0x42, 0xFC, 0xFF, 0x81, 0x02];
/// let reason = head::why(&packet, &store, &[0; head::POINTERS]).expect("a refused packet");
/// assert_eq!(reason.index, 1);
/// assert_eq!((reason.refusal.number, reason.refusal.place), (8, 4));
/// assert!(!reason.fields.address && reason.fields.increment);
/// assert!(head::why(&packet[..4], &store, &[0; head::POINTERS]).is_none());
/// ```
pub fn why(packet: &[u8], store: &[u8], pointers: &[u32]) -> Option<Reason> {
    let mut fields = [0; 7];
    let (number, place, index) = raw::why(packet, store, pointers, &mut fields);
    let reason = Reason {
        refusal: Refusal { number, place },
        index,
        fields: fields_of(fields),
    };
    (number != 0).then_some(reason)
}

/// The library's answers of this module, as numbers.
///
/// ```
/// assert_eq!(head::why::exports::why(&[], &[], &[], &mut []), (13, 0, 0));
/// ```
pub mod exports {
    pub use crate::raw::why;
}
