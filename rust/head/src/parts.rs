//! Compiling a cue list that arrives in parts.
//!
//! ```
//! use head::parts::{Compiler, ROOM};
//!
//! // Each part is given until all of it is taken, and the last one until nothing is written.
//! let (mut compiler, mut out, mut packets) = (Compiler::new(), [0; ROOM], Vec::new());
//! for (part, last) in [(&b"RD\0\0\x04"[..], false), (&b"\0"[..], true)] {
//!     let mut rest = part;
//!     loop {
//!         let answer = compiler.part(rest, last, &mut out);
//!         let written = answer.written?;
//!         packets.extend_from_slice(&out[..written]);
//!         rest = &rest[answer.taken..];
//!         if rest.is_empty() && (!last || written == 0) {
//!             break;
//!         }
//!     }
//! }
//! assert_eq!(packets, head::Packets::compile(b"RD\0\0\x04\0")?.output());
//! # Ok::<(), head::Refusal>(())
//! ```
#![forbid(unsafe_code)]

use crate::refusal::accepted;
use crate::{Refusal, raw};

/// The bytes of a compiler's state, as the header has it.
///
/// ```
/// let mut state = vec![0; head::parts::STATE_BYTES];
/// let mut out = [0; head::parts::ROOM];
/// assert_eq!(head::parts::exports::part(&mut state, b"", 1, &mut out), (0, 0, 0));
/// ```
pub const STATE_BYTES: usize = defined(
    include_bytes!("../../../include/head.h"),
    b"#define HEAD_PART_BYTES",
);

/// The least room that a call needs: a packet with its mark and length.
///
/// ```
/// let answer = head::parts::Compiler::new().part(b"", true, &mut [0; head::parts::ROOM - 1]);
/// assert_eq!(answer.written.unwrap_err().number, 26);
/// ```
pub const ROOM: usize = 4 + crate::PACKET_BYTES;

/// A compiler that takes a list in parts.
///
/// ```
/// let mut compiler = head::parts::Compiler::new();
/// let answer = compiler.part(b"??", false, &mut [0; head::parts::ROOM]);
/// assert_eq!(answer.written.unwrap_err().number, 22);
/// ```
#[derive(Clone, Debug)]
pub struct Compiler {
    state: Box<[u8]>,
}

/// What a call took and handed out.
///
/// ```
/// let answer = head::parts::Compiler::new().part(b"RD", false, &mut [0; head::parts::ROOM]);
/// assert_eq!(answer, head::parts::Answer { taken: 2, written: Ok(0) });
/// ```
#[derive(Clone, Copy, Debug, PartialEq, Eq)]
pub struct Answer {
    /// The bytes of the part that were taken; the others are given again.
    pub taken: usize,
    /// The bytes of the packet that was written with its mark and length, or 0.
    pub written: Result<usize, Refusal>,
}

impl Compiler {
    /// One that has taken nothing.
    ///
    /// ```
    /// let answer = head::parts::Compiler::new().part(b"", true, &mut [0; head::parts::ROOM]);
    /// assert_eq!(answer.written, Ok(0));
    /// ```
    pub fn new() -> Compiler {
        Compiler {
            state: vec![0; STATE_BYTES].into(),
        }
    }

    /// Takes a part up to its end, or until one packet was written to `out`, which must have
    /// [`ROOM`]. `last` says that the list ends where the part does: repeat the call with what is
    /// left until nothing is written.
    ///
    /// ```
    /// use head::parts::{Compiler, ROOM};
    ///
    /// // A list of one read in two parts.
    /// let mut compiler = Compiler::new();
    /// let mut out = [0; ROOM];
    /// let answer = compiler.part(b"RD\0", false, &mut out);
    /// assert_eq!((answer.taken, answer.written), (3, Ok(0)));
    /// let answer = compiler.part(b"\0\x04\0", true, &mut out);
    /// assert_eq!((answer.taken, answer.written), (3, Ok(8)));
    /// assert_eq!(out[..8], [b'L', b'B', 4, 0, 0x81, 0x42, 4, 0]);
    /// assert_eq!(compiler.part(&[], true, &mut out).written, Ok(0));
    /// ```
    pub fn part(&mut self, part: &[u8], last: bool, out: &mut [u8]) -> Answer {
        let (number, taken, value) = raw::part(&mut self.state, part, last.into(), out);
        Answer {
            taken: taken as usize,
            written: accepted((number, value)).map(|bytes| bytes as usize),
        }
    }
}

impl Default for Compiler {
    fn default() -> Compiler {
        Compiler::new()
    }
}

/// The decimal number that stands behind a definition's name.
const fn defined(header: &[u8], name: &[u8]) -> usize {
    let mut at = 0;
    while !stands_at(header, at, name) {
        at += 1;
    }
    at += name.len();
    while header[at] == b' ' {
        at += 1;
    }
    let mut number = 0;
    while at < header.len() && header[at].is_ascii_digit() {
        number = 10 * number + (header[at] - b'0') as usize;
        at += 1;
    }
    assert!(number > 0, "no number is defined");
    number
}

const fn stands_at(text: &[u8], at: usize, name: &[u8]) -> bool {
    let mut k = 0;
    while k < name.len() && text[at + k] == name[k] {
        k += 1;
    }
    k == name.len()
}

/// The library's answers of this module, as numbers.
///
/// ```
/// assert_eq!(head::parts::exports::part(&mut [], b"", 1, &mut []), (26, 0, 1_476));
/// ```
pub mod exports {
    pub use crate::raw::part;
}
