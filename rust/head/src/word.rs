//! The command word of a packet, both ways.
//!
//! ```
//! let word = head::word(&head::Fields { count: 3, ..head::fields(0x4285) })?;
//! assert_eq!(word, 0x4283);
//! # Ok::<(), head::Refusal>(())
//! ```
#![forbid(unsafe_code)]

use crate::refusal::placeless;
use crate::{Refusal, raw};

/// A command word taken apart.
///
/// ```
/// // Write 4 registers from an address on.
/// let fields = head::Fields { write: true, address: true, info: false, space: 0, size: 2, increment: true, count: 4 };
/// assert_eq!(head::word(&fields), Ok(0xC284));
/// ```
#[derive(Clone, Copy, Debug, PartialEq, Eq, Hash)]
pub struct Fields {
    /// The command writes; otherwise it reads.
    pub write: bool,
    /// A 16-bit address follows the word.
    pub address: bool,
    /// The space's info area is meant.
    pub info: bool,
    /// 0 to 7.
    pub space: u8,
    /// 0, 1, 2, 3 for elements of 1, 2, 4, 8 bytes.
    pub size: u8,
    /// Each element stands behind the one before; otherwise all are the same one.
    pub increment: bool,
    /// How many elements, 0 to 127.
    pub count: u8,
}

/// Takes a command word apart. No word is refused.
///
/// ```
/// let fields = head::fields(0x4285);
/// assert!(fields.address && fields.increment && !fields.write);
/// assert_eq!((fields.space, fields.size, fields.count), (0, 2, 5));
/// assert_eq!(head::word(&fields), Ok(0x4285));
/// ```
pub fn fields(word: u16) -> Fields {
    let mut bytes = [0; 7];
    raw::fields(word, &mut bytes);
    fields_of(bytes)
}

/// The fields of the seven bytes that the library gives for them.
pub(crate) fn fields_of([write, address, info, space, size, increment, count]: [u8; 7]) -> Fields {
    Fields {
        write: write != 0,
        address: address != 0,
        info: info != 0,
        space,
        size,
        increment: increment != 0,
        count,
    }
}

/// Puts a command word together. A space above 7, a size above 3 or a count above 127 is refused
/// with 13.
///
/// ```
/// let fields = head::Fields { space: 8, ..head::fields(0x4285) };
/// assert_eq!(head::word(&fields).unwrap_err().number, 13);
/// ```
pub fn word(fields: &Fields) -> Result<u16, Refusal> {
    let bytes = [
        fields.write.into(),
        fields.address.into(),
        fields.info.into(),
        fields.space,
        fields.size,
        fields.increment.into(),
        fields.count,
    ];
    let mut word = 0;
    placeless(raw::word(&bytes, &mut word))?;
    Ok(word)
}
