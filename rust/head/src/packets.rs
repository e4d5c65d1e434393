//! Cue lists compiled to packets.
//!
//! ```
//! // Write register 4, and read it; the packets are run.
//! let packets = head::Packets::compile(b"WR\0\0\x04\0\x01\0\0\0RD\0\0\x04\0")?;
//! let (mut card, mut reply) = (head::Card::new(), head::Reply::new());
//! for packet in packets.iter() {
//!     assert_eq!(card.run(packet, &mut reply)?, [1, 0, 0, 0]);
//! }
//! # Ok::<(), head::Refusal>(())
//! ```
#![forbid(unsafe_code)]

use crate::refusal::written;
use crate::{Refusal, raw, tighten};

/// The packets of a cue list, each behind a mark and its length in [`Packets::output`].
///
/// ```
/// let packets = head::Packets::compile(b"RD\0\0\x04\0")?;
/// assert_eq!(packets.output(), b"LB\x04\0\x81\x42\x04\0");
/// assert_eq!(packets.iter().collect::<Vec<_>>(), [[0x81, 0x42, 4, 0]]);
/// # Ok::<(), head::Refusal>(())
/// ```
#[derive(Clone, Debug, PartialEq, Eq)]
pub struct Packets {
    output: Vec<u8>,
    count: u64,
}

impl Packets {
    /// Compiles a cue list, as [`compile()`] does, with room enough.
    ///
    /// ```
    /// assert_eq!(head::Packets::compile(b"RD\0\0\x04\0")?.len(), 1);
    /// assert_eq!(head::Packets::compile(b"RD\0\0\x03\0").unwrap_err().number, 23);
    /// # Ok::<(), head::Refusal>(())
    /// ```
    pub fn compile(list: &[u8]) -> Result<Packets, Refusal> {
        Packets::of(list, compile)
    }

    /// Compiles a cue list into fewer bytes where it can, as [`tighten`] does, with room enough.
    ///
    /// ```
    /// let list = b"RD\0\0\x04\0RD\0\0\x04\0";
    /// assert_eq!(head::Packets::compile(list)?.output().len(), 12);
    /// assert_eq!(head::Packets::tighten(list)?.output().len(), 8);
    /// # Ok::<(), head::Refusal>(())
    /// ```
    pub fn tighten(list: &[u8]) -> Result<Packets, Refusal> {
        Packets::of(list, tighten)
    }

    /// Twice the list is always room enough.
    fn of(
        list: &[u8],
        maker: fn(&[u8], &mut [u8]) -> Result<Compiled, Refusal>,
    ) -> Result<Packets, Refusal> {
        let mut output = vec![0; 2 * list.len()];
        let compiled = maker(list, &mut output)?;
        output.truncate(compiled.bytes);
        Ok(Packets {
            output,
            count: compiled.packets,
        })
    }

    /// All of them, each behind the mark "LB" and its length, two bytes, low byte first.
    ///
    /// ```
    /// assert_eq!(head::Packets::compile(b"")?.output(), b"");
    /// # Ok::<(), head::Refusal>(())
    /// ```
    pub fn output(&self) -> &[u8] {
        &self.output
    }

    /// How many there are.
    ///
    /// ```
    /// // One register more than a reply holds.
    /// let list: Vec<u8> = (0..369_u16).flat_map(|k| [b"RD\0\0", &(4 * k).to_le_bytes()[..]].concat()).collect();
    /// assert_eq!(head::Packets::compile(&list)?.len(), 2);
    /// # Ok::<(), head::Refusal>(())
    /// ```
    pub fn len(&self) -> u64 {
        self.count
    }

    /// Whether there are none, as for the empty list.
    ///
    /// ```
    /// assert!(head::Packets::compile(b"")?.is_empty());
    /// # Ok::<(), head::Refusal>(())
    /// ```
    pub fn is_empty(&self) -> bool {
        self.count == 0
    }

    /// The packets in order, to be sent or run.
    ///
    /// ```
    /// let packets = head::Packets::compile(b"RD\0\0\x04\0")?;
    /// assert_eq!(packets.iter().next(), Some(&[0x81, 0x42, 4, 0][..]));
    /// # Ok::<(), head::Refusal>(())
    /// ```
    pub fn iter(&self) -> impl Iterator<Item = &[u8]> {
        let mut rest = &self.output[..];
        std::iter::from_fn(move || {
            let [_, _, low, high, after @ ..] = rest else {
                return None;
            };
            let (packet, left) = after.split_at(u16::from_le_bytes([*low, *high]).into());
            rest = left;
            Some(packet)
        })
    }
}

/// What a compiled list came to.
///
/// ```
/// let compiled = head::compile(b"RD\0\0\x04\0", &mut [0; 12])?;
/// assert_eq!(compiled, head::Compiled { bytes: 8, packets: 1 });
/// # Ok::<(), head::Refusal>(())
/// ```
#[derive(Clone, Copy, Debug, PartialEq, Eq)]
pub struct Compiled {
    /// The output's length.
    pub bytes: usize,
    /// How many packets the output holds.
    pub packets: u64,
}

/// Compiles a cue list to packets in `out`, each after a mark and its length.
///
/// Where `out` is too short the refusal is 26 and its place is the length that is needed. What
/// lies in `out` beyond the answered bytes is left as it was.
///
/// ```
/// // Read register 4.
/// let list = [b'R', b'D', 0, 0, 4, 0];
/// let mut out = [0; 100];
/// let compiled = head::compile(&list, &mut out)?;
/// assert_eq!(compiled.packets, 1);
/// assert_eq!(out[..compiled.bytes], [b'L', b'B', 4, 0, 0x81, 0x42, 4, 0]);
/// # Ok::<(), head::Refusal>(())
/// ```
#[inline]
pub fn compile(list: &[u8], out: &mut [u8]) -> Result<Compiled, Refusal> {
    compiled(raw::compile(list, out))
}

/// What an export's answer says of a list's packets.
#[inline]
pub(crate) fn compiled(answer: (u32, u64, u64)) -> Result<Compiled, Refusal> {
    let (bytes, packets) = written(answer)?;
    Ok(Compiled { bytes, packets })
}
