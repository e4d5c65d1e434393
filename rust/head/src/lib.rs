//! The proved library `libhead.a` from Rust: LBP16 packets, SPI bursts and cue lists on a card.
//!
//! [`Card`] is a card: its store, its pointers, and what is done with them. No call on it can be lent a room of the
//! wrong length.
//!
//! ```
//! use head::{Card, Reply};
//!
//! let mut card = Card::new();
//! let mut reply = Reply::new();
//!
//! // Write 0x12345678 to register 0x1000, then read it back.
//! let packet = [0x81, 0xC2, 0x00, 0x10, 0x78, 0x56, 0x34, 0x12, 0x81, 0x42, 0x00, 0x10];
//! assert_eq!(card.run(&packet, &mut reply)?, [0x78, 0x56, 0x34, 0x12]);
//!
//! // A read with count 0 is refused.
//! let refusal = card.run(&[0x80, 0x02], &mut reply).unwrap_err();
//! assert_eq!(refusal.to_string(), "refused 7 at 0");
//! assert_eq!(format!("{refusal:#}"), "refused 7 at 0: count 0, no element is named");
//! # Ok::<(), head::Refusal>(())
//! ```
//!
//! Below it stand plain functions over slices, [`check`], [`run`], [`compile()`] and the others, for callers that keep
//! store, pointers and rooms themselves; a room of the wrong length is refused there. The modules `exports`
//! give each answer as the library gives it, as numbers.
//!
//! What is refused, and when, is said in `include/head.h` and `docs/RULES.md`.

#![deny(missing_docs)]
#![deny(unsafe_code)]
#![deny(unsafe_op_in_unsafe_fn)]
#![deny(rustdoc::broken_intra_doc_links)]

mod raw;

pub mod capture;
pub mod card;
pub mod guard;
pub mod header;
pub mod independent;
pub mod list_why;
pub mod packet_text;
pub mod packets;
pub mod panel;
pub mod parts;
pub mod recording;
pub mod refusal;
pub mod salvage;
pub mod sentence;
pub mod sserial;
pub mod text;
pub mod tight;
pub mod why;
pub mod word;

pub use capture::{Captured, capture};
pub use card::{Card, Ran, Reply, check, run, spi};
pub use guard::{Guard, guard, guarded_check, guarded_list, guarded_run, guarded_spi};
pub use header::{Header, header, header_word};
pub use independent::{Dependent, independent};
pub use list_why::{Fault, list_why};
pub use packet_text::packet_text;
pub use packets::{Compiled, Packets, compile};
pub use recording::{Verdict, judge};
pub use refusal::Refusal;
pub use salvage::{Salvaged, salvage};
pub use sentence::sentence;
pub use text::{Assembled, Written, assemble, list_text};
pub use tight::{tight_check, tighten};
pub use why::{Reason, why};
pub use word::{Fields, fields, word};

/// The length that a store must have.
///
/// ```
/// assert_eq!(head::Card::new().store().len(), head::STORE_BYTES);
/// ```
pub const STORE_BYTES: usize = 65_728;

/// The length that the room for a packet's reply must have, and the longest packet.
///
/// ```
/// let card = head::Card::new();
/// assert_eq!(card.check(&[0; head::PACKET_BYTES + 1]).unwrap_err().number, 2);
/// ```
pub const PACKET_BYTES: usize = 1_472;

/// How many address pointers a card has: those of spaces 0, 2, 6 and 7, then those of the same
/// spaces' info areas.
///
/// ```
/// assert_eq!(*head::Card::new().pointers(), [0; head::POINTERS]);
/// ```
pub const POINTERS: usize = 8;

/// The version of the library that this binding is made for, as `HEAD_VERSION` has it.
///
/// ```
/// assert!(head::VERSION.starts_with(|c: char| c.is_ascii_digit()));
/// ```
pub const VERSION: &str = env!("CARGO_PKG_VERSION");

/// The library's exports one for one, safe to call with slices of any length.
///
/// The first number of each answer is the refusal number, 0 if the call was accepted.
///
/// ```
/// // A word has seven fields, and six are given.
/// assert_eq!(head::exports::word(&[0, 1, 0, 0, 2, 1], &mut 0), 13);
/// ```
pub mod exports {
    pub use crate::raw::{check, compile, fields, run, spi, word};
}
