//! The interlock: bytes of the store that no packet, burst or list may write.
//!
//! A guard is two numbers for each range of the store, its first byte and how many bytes it has. It
//! is sound if it has at most [`MOST_RANGES`] pairs, none past the store's end, and none with a
//! byte of the unlock cell or of the packet count, which every accepted packet changes.
//!
//! ```
//! let mut store = vec![0; head::STORE_BYTES];
//! let mut pointers = [0; head::POINTERS];
//! let mut reply = [0; head::PACKET_BYTES];
//!
//! // Registers 0x1000 to 0x1007, and the EEPROM.
//! let guard = [0x1000, 8, 65_536, 128];
//! assert_eq!(head::guard(&guard)?, 2);
//!
//! // Register 0x1004 is written behind another one.
//! let packet = [0x82, 0xC2, 0xFC, 0x0F, 1, 0, 0, 0, 2, 0, 0, 0];
//! let refusal = head::guarded_run(&packet, &mut store, &mut pointers, &mut reply, &guard);
//! assert_eq!(refusal.unwrap_err().number, head::guard::PROTECTED);
//! assert!(store.iter().all(|&byte| byte == 0));
//!
//! // Reading it is allowed.
//! let packet = [0x81, 0x42, 0x04, 0x10];
//! let ran = head::guarded_run(&packet, &mut store, &mut pointers, &mut reply, &guard)?;
//! assert_eq!(ran.length, 4);
//! # Ok::<(), head::Refusal>(())
//! ```

#![forbid(unsafe_code)]

use crate::card::ran;
use crate::refusal::accepted;
use crate::{Ran, Refusal, raw};
use std::ops::Range;

/// The number of a guard that is not sound. It comes before every other refusal; its place is the
/// first pair at fault.
///
/// ```
/// assert_eq!(head::guard(&[0x1000]).unwrap_err().number, head::guard::UNSOUND);
/// ```
pub const UNSOUND: u32 = 70;

/// The number of a packet, burst or list that is otherwise accepted and writes a protected byte.
///
/// ```
/// let refusal = head::guarded_list(b"WR\0\0\x04\0\x01\0\0\0", &[4, 4]).unwrap_err();
/// assert_eq!(refusal.number, head::guard::PROTECTED);
/// ```
pub const PROTECTED: u32 = 71;

/// The most ranges that a guard may have.
///
/// ```
/// assert!(head::Guard::new(vec![0..4; head::guard::MOST_RANGES]).is_ok());
/// assert!(head::Guard::new(vec![0..4; head::guard::MOST_RANGES + 1]).is_err());
/// ```
pub const MOST_RANGES: usize = 64;

/// A sound guard: ranges of the store's bytes that nothing may write.
///
/// ```
/// let guard = head::Guard::new([0x1000..0x1008, 65_536..65_664])?;
/// assert_eq!(guard.numbers(), [0x1000, 8, 65_536, 128]);
/// # Ok::<(), head::Refusal>(())
/// ```
#[derive(Clone, Debug, PartialEq, Eq)]
pub struct Guard {
    numbers: Vec<u32>,
}

impl Guard {
    /// The guard of these ranges, or [`UNSOUND`] with the first that is at fault.
    ///
    /// ```
    /// // The unlock cell, at 0x1A of space 6, can't be protected.
    /// let refusal = head::Guard::new([0..4, 65_690..65_692]).unwrap_err();
    /// assert_eq!((refusal.number, refusal.place), (head::guard::UNSOUND, 1));
    /// ```
    pub fn new(ranges: impl IntoIterator<Item = Range<u32>>) -> Result<Guard, Refusal> {
        let numbers: Vec<u32> = ranges
            .into_iter()
            .flat_map(|range| [range.start, range.len() as u32])
            .collect();
        guard(&numbers)?;
        Ok(Guard { numbers })
    }

    /// Two numbers for each range, as the functions of this module take them.
    ///
    /// ```
    /// let guard = head::Guard::new([8..12])?;
    /// assert_eq!(head::guarded_list(b"RD\0\0\x08\0", guard.numbers()), Ok(1));
    /// # Ok::<(), head::Refusal>(())
    /// ```
    #[inline]
    pub fn numbers(&self) -> &[u32] {
        &self.numbers
    }
}

/// Whether a guard is sound: answers how many ranges it has.
///
/// ```
/// // The packet count, at 0x0A of space 6, can't be protected.
/// let refusal = head::guard(&[0x1000, 8, 65_664, 32]).unwrap_err();
/// assert_eq!((refusal.number, refusal.place), (head::guard::UNSOUND, 1));
/// ```
pub fn guard(guard: &[u32]) -> Result<usize, Refusal> {
    Ok(accepted(raw::guard(guard))? as usize)
}

/// Checks one packet as [`crate::check`] does, and against a guard: what would be accepted and
/// would write a protected byte is refused with [`PROTECTED`] at the first command that does.
///
/// ```
/// let (store, pointers) = (vec![0; head::STORE_BYTES], [0; head::POINTERS]);
/// let packet = [0x81, 0xC2, 0x00, 0x10, 1, 0, 0, 0];
/// assert_eq!(head::guarded_check(&packet, &store, &pointers, &[0x1004, 4]), Ok(0));
/// assert!(head::guarded_check(&packet, &store, &pointers, &[0x1000, 4]).is_err());
/// ```
#[inline]
pub fn guarded_check(
    packet: &[u8],
    store: &[u8],
    pointers: &[u32],
    guard: &[u32],
) -> Result<usize, Refusal> {
    Ok(accepted(raw::guarded_check(packet, store, pointers, guard))? as usize)
}

/// Runs one packet as [`crate::run`] does, unless [`guarded_check`] refuses it. After any packets
/// and bursts that are run with the same guard, every protected byte is as it was.
///
/// ```
/// let (mut store, mut pointers) = (vec![0; head::STORE_BYTES], [0; head::POINTERS]);
/// let (mut reply, packet) = ([0; head::PACKET_BYTES], [0x81, 0xC2, 0x00, 0x10, 1, 0, 0, 0]);
/// let answer = head::guarded_run(&packet, &mut store, &mut pointers, &mut reply, &[0x1000, 4]);
/// assert_eq!(answer.unwrap_err().number, head::guard::PROTECTED);
/// assert_eq!(store[0x1000], 0);
/// ```
#[inline]
pub fn guarded_run(
    packet: &[u8],
    store: &mut [u8],
    pointers: &mut [u32],
    reply: &mut [u8],
    guard: &[u32],
) -> Result<Ran, Refusal> {
    ran(raw::guarded_run(packet, store, pointers, reply, guard))
}

/// Runs one SPI burst as [`crate::spi`] does, unless it would be accepted and promises to write a
/// protected byte, whether the word for it came or not.
///
/// ```
/// // Two words are promised, and one came.
/// let (mut store, mut answer) = (vec![0; head::STORE_BYTES], [0; 2]);
/// let refusal = head::guarded_spi(&[0x1000_B820, 1], &mut store, &mut answer, &[0x1004, 4]);
/// assert_eq!(refusal.unwrap_err().number, head::guard::PROTECTED);
/// ```
#[inline]
pub fn guarded_spi(
    words: &[u32],
    store: &mut [u8],
    answer: &mut [u32],
    guard: &[u32],
) -> Result<u64, Refusal> {
    accepted(raw::guarded_spi(words, store, answer, guard))
}

/// Whether a cue list is good and writes no protected byte: answers how many records it has. Then
/// every packet that [`crate::compile()`] makes of it passes the guard.
///
/// ```
/// // Read register 4, write register 8.
/// let list = b"RD\0\0\x04\0WR\0\0\x08\0\x01\0\0\0";
/// assert_eq!(head::guarded_list(list, &[4, 4]), Ok(2));
/// let refusal = head::guarded_list(list, &[4, 8]).unwrap_err();
/// assert_eq!((refusal.number, refusal.place), (head::guard::PROTECTED, 1));
/// ```
pub fn guarded_list(list: &[u8], guard: &[u32]) -> Result<u64, Refusal> {
    accepted(raw::guarded_list(list, guard))
}

/// The library's answers of this module, as numbers.
///
/// ```
/// assert_eq!(head::guard::exports::guard(&[0x1000, 4]), (0, 1));
/// ```
pub mod exports {
    pub use crate::raw::{guard, guarded_check, guarded_list, guarded_run, guarded_spi};
}
