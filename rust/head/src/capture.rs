//! Captures of a card's datagrams.
//!
//! ```
//! let refusal = head::capture(b"no capture", &mut [], &mut []).unwrap_err();
//! assert_eq!(refusal.number, 91);
//! ```
#![forbid(unsafe_code)]

use crate::refusal::written;
use crate::{Refusal, raw};

/// What was read from a capture.
///
/// ```
/// // A capture of no frames.
/// let mut file = vec![0xD4, 0xC3, 0xB2, 0xA1];
/// file.resize(24, 0);
/// assert_eq!(head::capture(&file, &mut [], &mut [])?, head::Captured { bytes: 0, packets: 0 });
/// # Ok::<(), head::Refusal>(())
/// ```
#[derive(Clone, Copy, Debug, PartialEq, Eq)]
pub struct Captured {
    /// The recording's length.
    pub bytes: usize,
    /// How many packets it holds, each with a frame number.
    pub packets: usize,
}

/// Writes the recording of the card in a capture to `out`, for [`judge`](crate::judge), and the number
/// of each packet's frame, counted from 1, to `frames`.
///
/// A capture is a classic pcap file of link type 0, 1, 12, 101, 113, 228 or 276. The card is the one
/// that the first datagram to port 27181 goes to. Refusal 91 is for what is no such capture; 92 for a
/// frame that is cut, 93 for a datagram of the card that isn't whole and 94 for a reply without a
/// request have the frame's number for their place. Where `out` or `frames` has too little room the
/// refusal is 26 or 27 and its place the bytes or the packets; a capture's length is always enough for
/// `out`, and a sixteenth of it for `frames`.
///
/// ```
/// // A packet of four bytes to the card at 10.0.0.2, captured without a link header, and no reply.
/// let mut file = vec![0xD4, 0xC3, 0xB2, 0xA1, 2, 0, 4, 0, 0, 0, 0, 0, 0, 0, 0, 0, 0, 0, 4, 0, 101, 0, 0, 0];
/// file.extend([0, 0, 0, 0, 0, 0, 0, 0, 32, 0, 0, 0, 32, 0, 0, 0]);
/// file.extend([0x45, 0, 0, 32, 0, 0, 0, 0, 64, 17, 0, 0, 10, 0, 0, 1, 10, 0, 0, 2]);
/// file.extend([0x9C, 0x40, 0x6A, 0x2D, 0, 12, 0, 0, 0x81, 0x42, 0, 0]);
/// let (mut out, mut frames) = (vec![0; file.len()], vec![0; file.len() / 16]);
/// let captured = head::capture(&file, &mut out, &mut frames)?;
/// assert_eq!(out[..captured.bytes], *b"LB\x04\0\x81\x42\0\0LB\0\0");
/// assert_eq!(frames[..captured.packets], [1]);
/// # Ok::<(), head::Refusal>(())
/// ```
pub fn capture(capture: &[u8], out: &mut [u8], frames: &mut [u32]) -> Result<Captured, Refusal> {
    let (bytes, packets) = written(raw::capture(capture, out, frames))?;
    Ok(Captured {
        bytes,
        packets: packets as usize,
    })
}

/// The library's answers of this module, as numbers.
///
/// ```
/// assert_eq!(head::capture::exports::capture(&[], &mut [], &mut []), (91, 0, 0));
/// ```
pub mod exports {
    pub use crate::raw::capture;
}
