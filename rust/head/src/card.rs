//! A card: packets checked and run on it, and SPI bursts.
//!
//! ```
//! // Register 0x1000 is written over SPI, and read by a packet.
//! let mut card = head::Card::new();
//! card.spi(&[0x1000_B810, 7])?;
//! assert_eq!(card.run(&[0x81, 0x42, 0x00, 0x10], &mut head::Reply::new())?, [7, 0, 0, 0]);
//! # Ok::<(), head::Refusal>(())
//! ```
#![forbid(unsafe_code)]

use crate::guard::{Guard, guarded_check, guarded_run, guarded_spi};
use crate::recording::verdict;
use crate::refusal::{accepted, written};
use crate::{PACKET_BYTES, POINTERS, Reason, Refusal, STORE_BYTES, Verdict, raw, why};
use std::fmt;

/// A card: a store of [`STORE_BYTES`] and [`POINTERS`] address pointers, none of them above the size of its space or
/// info area. So refusal 1, which is for these, is never given.
///
/// ```
/// let mut card = head::Card::new();
/// let mut reply = head::Reply::new();
/// // Write register 4; the packet reads nothing.
/// card.run(&[0x81, 0xC2, 4, 0, 1, 0, 0, 0], &mut reply)?;
/// assert!(reply.bytes().is_empty());
/// assert_eq!(card.store()[4..8], [1, 0, 0, 0]);
/// assert_eq!(card.pointers()[0], 8);
/// # Ok::<(), head::Refusal>(())
/// ```
#[derive(Clone, PartialEq, Eq)]
pub struct Card {
    store: Box<[u8; STORE_BYTES]>,
    pointers: [u32; POINTERS],
}

impl Card {
    /// A fresh card: all 0.
    ///
    /// ```
    /// assert!(head::Card::new().store().iter().all(|&byte| byte == 0));
    /// ```
    pub fn new() -> Card {
        let store = vec![0; STORE_BYTES].into_boxed_slice();
        Card::with_store(store.try_into().expect("as many bytes as were asked for"))
    }

    /// A card with this store, and pointers of 0.
    ///
    /// ```
    /// let card = head::Card::with_store(Box::new([7; head::STORE_BYTES]));
    /// assert_eq!(card.store()[0], 7);
    /// ```
    pub fn with_store(store: Box<[u8; STORE_BYTES]>) -> Card {
        Card {
            store,
            pointers: [0; POINTERS],
        }
    }

    /// A card with this store and these pointers. Pointers above the size of their space, or above 16 for an info
    /// area, are refused with 1.
    ///
    /// ```
    /// let (store, pointers) = head::Card::new().into_parts();
    /// assert!(head::Card::from_parts(store.clone(), pointers).is_ok());
    /// // Space 2 has 128 bytes.
    /// let refusal = head::Card::from_parts(store, [0, 129, 0, 0, 0, 0, 0, 0]).unwrap_err();
    /// assert_eq!(refusal.number, 1);
    /// ```
    pub fn from_parts(
        store: Box<[u8; STORE_BYTES]>,
        pointers: [u32; POINTERS],
    ) -> Result<Card, Refusal> {
        check(&[], &*store, &pointers)?;
        Ok(Card { store, pointers })
    }

    /// The store and the pointers, to keep them somewhere.
    ///
    /// ```
    /// let (store, pointers) = head::Card::new().into_parts();
    /// assert_eq!((store.len(), pointers), (head::STORE_BYTES, [0; head::POINTERS]));
    /// ```
    pub fn into_parts(self) -> (Box<[u8; STORE_BYTES]>, [u32; POINTERS]) {
        (self.store, self.pointers)
    }

    /// The store: space 0 from byte 0, space 2 from 65,536, space 6 from 65,664, space 7 from 65,696.
    ///
    /// ```
    /// assert_eq!(head::Card::new().store()[65_664 + 0x0A], 0); // packets run so far
    /// ```
    pub fn store(&self) -> &[u8; STORE_BYTES] {
        &self.store
    }

    /// The store, to be changed: cells may hold anything.
    ///
    /// ```
    /// let mut card = head::Card::new();
    /// card.store_mut()[65_696..65_700].copy_from_slice(b"7I92");
    /// assert_eq!(card.run(&[0x82, 0x5D, 0, 0], &mut head::Reply::new())?, b"7I92");
    /// # Ok::<(), head::Refusal>(())
    /// ```
    pub fn store_mut(&mut self) -> &mut [u8; STORE_BYTES] {
        &mut self.store
    }

    /// The pointers.
    ///
    /// ```
    /// assert_eq!(*head::Card::new().pointers(), [0; head::POINTERS]);
    /// ```
    pub fn pointers(&self) -> &[u32; POINTERS] {
        &self.pointers
    }

    /// Checks a packet: the length that its reply would have. Nothing is changed.
    ///
    /// ```
    /// let card = head::Card::new();
    /// assert_eq!(card.check(&[0x82, 0x42, 0, 0]), Ok(8));
    /// assert_eq!(card.check(&[0x82, 0x42]).unwrap_err().number, 3);
    /// ```
    #[inline]
    pub fn check(&self, packet: &[u8]) -> Result<usize, Refusal> {
        check(packet, &*self.store, &self.pointers)
    }

    /// Runs a packet: its reply, which has no bytes where the packet reads nothing. What [`Card::check`] refuses is
    /// refused alike, and changes nothing.
    ///
    /// ```
    /// let mut card = head::Card::new();
    /// let mut reply = head::Reply::new();
    /// assert_eq!(card.run(&[0x81, 0x42, 0, 0], &mut reply)?, [0; 4]);
    /// # Ok::<(), head::Refusal>(())
    /// ```
    #[inline]
    pub fn run<'r>(&mut self, packet: &[u8], reply: &'r mut Reply) -> Result<&'r [u8], Refusal> {
        reply.takes(|room| run(packet, &mut *self.store, &mut self.pointers, room))
    }

    /// Why a packet would be refused; nothing if it would be accepted.
    ///
    /// ```
    /// let reason = head::Card::new().why(&[0x81, 0x42, 0xFC, 0xFF, 0x81, 0x02]).expect("a refused packet");
    /// assert_eq!((reason.index, reason.refusal.number), (1, 8));
    /// ```
    pub fn why(&self, packet: &[u8]) -> Option<Reason> {
        why(packet, &*self.store, &self.pointers)
    }

    /// Runs an SPI burst: the answer, as many words as were sent, the first of them 0.
    ///
    /// ```
    /// let mut card = head::Card::new();
    /// assert_eq!(card.spi(&[0x1000_B820, 1, 2])?, [0, 0, 0]);
    /// assert_eq!(card.spi(&[0x1000_A820, 0, 0])?, [0, 1, 2]);
    /// assert_eq!(card.spi(&[0x1000_A020, 0, 0])?, [0, 1, 1]); // without increment
    /// assert_eq!(card.spi(&[]).unwrap_err().number, 31);
    /// # Ok::<(), head::Refusal>(())
    /// ```
    pub fn spi(&mut self, words: &[u32]) -> Result<Vec<u32>, Refusal> {
        answered(words, |answer| spi(words, &mut *self.store, answer))
    }

    /// Checks a packet as [`Card::check`] does, and against a guard.
    ///
    /// ```
    /// let (card, guard) = (head::Card::new(), head::Guard::new([0x1000..0x1004])?);
    /// let refusal = card.guarded_check(&[0x81, 0xC2, 0x00, 0x10, 1, 0, 0, 0], &guard).unwrap_err();
    /// assert_eq!(refusal.number, head::guard::PROTECTED);
    /// # Ok::<(), head::Refusal>(())
    /// ```
    #[inline]
    pub fn guarded_check(&self, packet: &[u8], guard: &Guard) -> Result<usize, Refusal> {
        guarded_check(packet, &*self.store, &self.pointers, guard.numbers())
    }

    /// Runs a packet as [`Card::run`] does, unless it writes a byte that the guard protects.
    ///
    /// ```
    /// let (mut card, guard) = (head::Card::new(), head::Guard::new([0x1000..0x1004])?);
    /// let mut reply = head::Reply::new();
    /// let packet = [0x81, 0xC2, 0x00, 0x10, 1, 0, 0, 0];
    /// assert!(card.guarded_run(&packet, &guard, &mut reply).is_err());
    /// assert_eq!(card, head::Card::new());
    /// assert!(card.run(&packet, &mut reply).is_ok());
    /// # Ok::<(), head::Refusal>(())
    /// ```
    #[inline]
    pub fn guarded_run<'r>(
        &mut self,
        packet: &[u8],
        guard: &Guard,
        reply: &'r mut Reply,
    ) -> Result<&'r [u8], Refusal> {
        reply.takes(|room| {
            guarded_run(
                packet,
                &mut *self.store,
                &mut self.pointers,
                room,
                guard.numbers(),
            )
        })
    }

    /// Runs an SPI burst as [`Card::spi`] does, unless it promises to write a byte that the guard protects.
    ///
    /// ```
    /// let (mut card, guard) = (head::Card::new(), head::Guard::new([0x1000..0x1004])?);
    /// assert_eq!(card.guarded_spi(&[0x1000_B810, 7], &guard).unwrap_err().number, head::guard::PROTECTED);
    /// assert_eq!(card.guarded_spi(&[0x1000_A810, 7], &guard)?, [0, 0]);
    /// # Ok::<(), head::Refusal>(())
    /// ```
    pub fn guarded_spi(&mut self, words: &[u32], guard: &Guard) -> Result<Vec<u32>, Refusal> {
        answered(words, |answer| {
            guarded_spi(words, &mut *self.store, answer, guard.numbers())
        })
    }

    /// Judges a recording that begins with this card, as [`judge`](crate::judge) does.
    ///
    /// ```
    /// // A packet that reads register 0 of a fresh card, and its reply.
    /// let verdict = head::Card::new().judge(b"LB\x04\0\x81\x42\0\0LB\x04\0\0\0\0\0");
    /// assert_eq!(verdict, head::Verdict::Yes(1));
    /// ```
    pub fn judge(&mut self, recording: &[u8]) -> Verdict {
        let answer = raw::judge(recording, &mut *self.store, &mut self.pointers);
        verdict(answer).expect("a card has a whole store, and pointers within their spaces")
    }
}

impl Default for Card {
    fn default() -> Card {
        Card::new()
    }
}

impl fmt::Debug for Card {
    fn fmt(&self, f: &mut fmt::Formatter) -> fmt::Result {
        f.debug_struct("Card")
            .field("pointers", &self.pointers)
            .finish_non_exhaustive()
    }
}

/// The answer's words of an accepted burst.
fn answered(
    words: &[u32],
    burst: impl FnOnce(&mut [u32]) -> Result<u64, Refusal>,
) -> Result<Vec<u32>, Refusal> {
    let mut answer = vec![0; words.len()];
    burst(&mut answer)?;
    Ok(answer)
}

/// The room for a packet's reply, with the reply of the last packet that was run with it; it holds none after a refusal.
///
/// ```
/// let (mut card, mut reply) = (head::Card::new(), head::Reply::new());
/// card.run(&[0x82, 0x42, 0, 0], &mut reply)?;
/// assert_eq!((reply.bytes(), reply.elements()), (&[0; 8][..], 2));
/// assert!(card.run(&[0], &mut reply).is_err());
/// assert_eq!((reply.bytes(), reply.elements()), (&[][..], 0));
/// # Ok::<(), head::Refusal>(())
/// ```
#[derive(Clone)]
pub struct Reply {
    room: [u8; PACKET_BYTES],
    ran: Ran,
}

impl Reply {
    /// A room without a reply.
    ///
    /// ```
    /// assert!(head::Reply::new().bytes().is_empty());
    /// ```
    pub fn new() -> Reply {
        Reply {
            room: [0; PACKET_BYTES],
            ran: NONE,
        }
    }

    /// The elements read, low byte first. Only a reply that has bytes is sent.
    ///
    /// ```
    /// let mut reply = head::Reply::new();
    /// head::Card::new().run(&[0x01, 0x59, 0x0A, 0], &mut reply)?;
    /// assert_eq!(reply.bytes(), [0, 0]);
    /// # Ok::<(), head::Refusal>(())
    /// ```
    #[inline]
    pub fn bytes(&self) -> &[u8] {
        &self.room[..self.ran.length]
    }

    /// How many elements the packet moved, read or written.
    ///
    /// ```
    /// let mut reply = head::Reply::new();
    /// head::Card::new().run(&[0x81, 0xC2, 0, 0, 1, 0, 0, 0], &mut reply)?;
    /// assert_eq!(reply.elements(), 1);
    /// # Ok::<(), head::Refusal>(())
    /// ```
    #[inline]
    pub fn elements(&self) -> u64 {
        self.ran.elements
    }

    /// Keeps what a run leaves in the room.
    #[inline]
    fn takes(
        &mut self,
        run: impl FnOnce(&mut [u8]) -> Result<Ran, Refusal>,
    ) -> Result<&[u8], Refusal> {
        self.ran = NONE;
        self.ran = run(&mut self.room)?;
        Ok(self.bytes())
    }
}

const NONE: Ran = Ran {
    length: 0,
    elements: 0,
};

impl Default for Reply {
    fn default() -> Reply {
        Reply::new()
    }
}

impl fmt::Debug for Reply {
    fn fmt(&self, f: &mut fmt::Formatter) -> fmt::Result {
        f.debug_tuple("Reply").field(&self.bytes()).finish()
    }
}

/// What an accepted packet came to.
///
/// ```
/// let (mut store, mut pointers) = (vec![0; head::STORE_BYTES], [0; head::POINTERS]);
/// let mut reply = [0; head::PACKET_BYTES];
/// let ran = head::run(&[0x82, 0x42, 0, 0], &mut store, &mut pointers, &mut reply)?;
/// assert_eq!(ran, head::Ran { length: 8, elements: 2 });
/// # Ok::<(), head::Refusal>(())
/// ```
#[derive(Clone, Copy, Debug, PartialEq, Eq)]
pub struct Ran {
    /// The reply's length.
    pub length: usize,
    /// How many elements were read or written: the sum of the commands' counts, at most 1,460.
    pub elements: u64,
}

/// Checks one packet against a card's state and answers the length that its reply would have.
///
/// `store` must have [`STORE_BYTES`]. `pointers` are the card's [`POINTERS`], none above the size
/// of its space, or above 16 for an info area; a fresh card's are 0. Nothing is changed.
///
/// ```
/// let (store, pointers) = (vec![0; head::STORE_BYTES], [0; head::POINTERS]);
/// assert_eq!(head::check(&[0x82, 0x42, 0, 0], &store, &pointers), Ok(8));
/// assert_eq!(head::check(&[], &store[1..], &pointers).unwrap_err().number, 1);
/// ```
#[inline]
pub fn check(packet: &[u8], store: &[u8], pointers: &[u32]) -> Result<usize, Refusal> {
    Ok(accepted(raw::check(packet, store, pointers))? as usize)
}

/// Runs one packet on a card and answers the reply's length and the number of elements moved.
///
/// What [`check`] refuses in the state that the run starts from is refused alike; it need not have
/// been called. `store` and `pointers` are as there, and are what the next packet starts from.
/// `reply` must have [`PACKET_BYTES`]; beyond the answered length it is left as it was. An accepted
/// packet clears the unlock cell at its end and then raises the packet count, the cell at 0x0A of
/// space 6, by one, from 65,535 to 0.
///
/// ```
/// let (mut store, mut pointers) = (vec![0; head::STORE_BYTES], [0; head::POINTERS]);
/// let mut reply = [9; head::PACKET_BYTES];
/// let ran = head::run(&[0x81, 0x42, 0, 0], &mut store, &mut pointers, &mut reply)?;
/// assert_eq!(reply[..ran.length], [0; 4]);
/// # Ok::<(), head::Refusal>(())
/// ```
#[inline]
pub fn run(
    packet: &[u8],
    store: &mut [u8],
    pointers: &mut [u32],
    reply: &mut [u8],
) -> Result<Ran, Refusal> {
    ran(raw::run(packet, store, pointers, reply))
}

/// What an export's answer says of a run.
#[inline]
pub(crate) fn ran(answer: (u32, u64, u64)) -> Result<Ran, Refusal> {
    let (length, elements) = written(answer)?;
    Ok(Ran { length, elements })
}

/// Runs one SPI burst on the registers of a card and answers the number of elements moved, at most
/// 127.
///
/// `words` are the header and as many words as its count says; of a burst that was cut short, those
/// that came. `store` must have [`STORE_BYTES`], and `answer` as many words as `words`.
///
/// ```
/// let (mut store, mut answer) = (vec![0; head::STORE_BYTES], [9; 3]);
/// assert_eq!(head::spi(&[0x1000_A820, 0, 0], &mut store, &mut answer), Ok(2));
/// assert_eq!(answer, [0; 3]);
/// ```
#[inline]
pub fn spi(words: &[u32], store: &mut [u8], answer: &mut [u32]) -> Result<u64, Refusal> {
    accepted(raw::spi(words, store, answer))
}
