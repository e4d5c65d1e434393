//! A packet in words.
//!
//! ```
//! assert_eq!(head::packet_text(&[], &mut [0; head::POINTERS]), Ok("  no commands\n".into()));
//! ```
#![forbid(unsafe_code)]

use crate::{POINTERS, Refusal, raw};

/// A packet as text: a line for each accepted command; of a packet that is refused also the refusal, and the command that it is of.
/// The pointers are those before the packet, and then those that it leaves: as they were where it is refused.
///
/// The only refusal is 1, of a pointer above the size of its space or info area.
///
/// ```
/// let mut pointers = [0; head::POINTERS];
/// let packet = [0x81, 0xC2, 0x10, 0x00, 0x01, 0x00, 0x00, 0x00, 0x01, 0x02];
/// let text = head::packet_text(&packet, &mut pointers)?;
/// assert_eq!(
///     text,
///     "  0: write registers 0x0010, 1 element, increment: 0x00000001\n  \
///        8: read registers from the pointer (0x0014), 1 element, no increment\n"
/// );
/// assert_eq!(pointers[0], 0x14);
/// # Ok::<(), head::Refusal>(())
/// ```
pub fn packet_text(packet: &[u8], pointers: &mut [u32; POINTERS]) -> Result<String, Refusal> {
    let (_, bytes) = raw::packet_text(packet, pointers, &mut []);
    let mut text = vec![0; bytes as usize];
    let (number, _) = raw::packet_text(packet, pointers, &mut text);
    match number {
        0 => Ok(String::from_utf8_lossy(&text).into_owned()),
        _ => Err(Refusal { number, place: 0 }),
    }
}

/// The library's answers of this module, as numbers.
///
/// ```
/// let mut pointers = [0; head::POINTERS];
/// assert_eq!(head::packet_text::exports::packet_text(&[], &mut pointers, &mut []), (26, 14));
/// ```
pub mod exports {
    pub use crate::raw::packet_text;
}
