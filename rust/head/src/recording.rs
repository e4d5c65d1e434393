//! Judging a recorded show.
//!
//! ```
//! // An empty packet, and its reply of no bytes.
//! assert_eq!(head::Card::new().judge(b"LB\0\0LB\0\0"), head::Verdict::Yes(1));
//! ```
#![forbid(unsafe_code)]

use crate::{Refusal, raw};

/// What is said of a recording. Packets and parts are counted from 0, and a part is a packet or a
/// reply.
///
/// ```
/// use head::{Card, Verdict};
///
/// assert_eq!(Card::new().judge(b"LB\x02\0\x81\x42LB\0\0"), Verdict::Packet(0));
/// assert_eq!(Card::new().judge(b"LB\0\0LB\x01\0\0"), Verdict::Length(0));
/// assert_eq!(Card::new().judge(b"LB\0\0LB"), Verdict::Cut(1));
/// assert_eq!(Card::new().judge(b"LB\0\0????"), Verdict::Unmarked(1));
/// ```
#[derive(Clone, Copy, Debug, PartialEq, Eq)]
pub enum Verdict {
    /// Every reply is what the rules give; the number of packets.
    Yes(u64),
    /// This packet is refused.
    Packet(u64),
    /// This packet's reply has a wrong length.
    Length(u64),
    /// This packet's reply has its first wrong byte at this place.
    Byte(u64, u64),
    /// The recording ends inside this part, or where it should begin.
    Cut(u64),
    /// This part has no mark.
    Unmarked(u64),
}

/// Judges a recording: packets and their replies in turn, each after a mark and its length.
///
/// `store` and `pointers` are those that it started from, as for [`run`](crate::run), and are then as
/// the packets accepted so far left them.
///
/// ```
/// // A packet that reads register 0 of a fresh card, and its reply.
/// let recording = [b'L', b'B', 4, 0, 0x81, 0x42, 0, 0, b'L', b'B', 4, 0, 0, 0, 0, 7];
/// let mut store = vec![0; head::STORE_BYTES];
/// let mut pointers = [0; head::POINTERS];
/// let verdict = head::judge(&recording, &mut store, &mut pointers)?;
/// assert_eq!(verdict, head::Verdict::Byte(0, 3));
/// # Ok::<(), head::Refusal>(())
/// ```
pub fn judge(recording: &[u8], store: &mut [u8], pointers: &mut [u32]) -> Result<Verdict, Refusal> {
    verdict(raw::judge(recording, store, pointers))
}

/// What an export's answer says of a recording.
pub(crate) fn verdict((number, index, place): (u32, u64, u64)) -> Result<Verdict, Refusal> {
    match number {
        0 => Ok(Verdict::Yes(index)),
        61 => Ok(Verdict::Packet(index)),
        62 => Ok(Verdict::Length(index)),
        63 => Ok(Verdict::Byte(index, place)),
        64 => Ok(Verdict::Cut(index)),
        65 => Ok(Verdict::Unmarked(index)),
        _ => Err(Refusal { number, place }),
    }
}

/// The library's answers of this module, as numbers.
///
/// ```
/// assert_eq!(head::recording::exports::judge(b"", &mut [], &mut []), (1, 0, 0));
/// ```
pub mod exports {
    pub use crate::raw::judge;
}
