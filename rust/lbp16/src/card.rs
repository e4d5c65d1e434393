//! A card as it answers on the wire.

use crate::hostmot2;
use crate::shown::Hex;
use head::{Refusal, PACKET_BYTES, POINTERS};
use std::fmt;

/// A card's state, and the room for its replies.
pub struct Card {
    pub store: Vec<u8>,
    pointers: [u32; POINTERS],
    reply: [u8; PACKET_BYTES],
    guard: Vec<u32>,
    hostmot2: bool,
}

/// How a packet ended.
pub enum Ending<'a> {
    /// Accepted with this reply.
    Accepted(&'a [u8]),
    Refused(Refusal),
    /// Not given to the library, and answered with this.
    Outside(&'a [u8]),
}

impl Card {
    pub fn new(mut store: Vec<u8>, guard: Vec<u32>, hostmot2: bool) -> Card {
        if hostmot2 {
            hostmot2::fill(&mut store);
        }
        Card {
            store,
            pointers: [0; POINTERS],
            reply: [0; PACKET_BYTES],
            guard,
            hostmot2,
        }
    }

    pub fn ending(&mut self, packet: &[u8]) -> Ending<'_> {
        if self.hostmot2 && packet == hostmot2::FLASH_ID {
            return Ending::Outside(&hostmot2::FLASH_ANSWER);
        }
        let (store, pointers) = (&mut self.store, &mut self.pointers);
        match head::guarded_run(packet, store, pointers, &mut self.reply, &self.guard) {
            Ok(ran) => Ending::Accepted(&self.reply[..ran.length]),
            Err(refusal) => Ending::Refused(refusal),
        }
    }
}

impl Ending<'_> {
    /// What is sent back; nothing where it is empty.
    pub fn reply(&self) -> &[u8] {
        match self {
            Ending::Refused(_) => &[],
            Ending::Accepted(reply) | Ending::Outside(reply) => reply,
        }
    }
}

impl fmt::Display for Ending<'_> {
    fn fmt(&self, f: &mut fmt::Formatter) -> fmt::Result {
        match self {
            Ending::Accepted([]) => write!(f, "accepted, no reply"),
            Ending::Accepted(reply) => write!(f, "accepted, reply of {}", Bytes(reply)),
            Ending::Refused(refusal) => {
                write!(f, "{refusal}: {}", head::sentence(refusal.number))
            }
            Ending::Outside(reply) => {
                write!(f, "answered outside the library with {}", Bytes(reply))
            }
        }
    }
}

/// Bytes in a line: their number, and what a packet may have of them.
pub struct Bytes<'a>(pub &'a [u8]);

impl fmt::Display for Bytes<'_> {
    fn fmt(&self, f: &mut fmt::Formatter) -> fmt::Result {
        let shown = &self.0[..self.0.len().min(PACKET_BYTES)];
        match self.0.len() {
            1 => write!(f, "1 byte")?,
            length => write!(f, "{length} bytes")?,
        }
        if !shown.is_empty() {
            write!(f, ", {}", Hex(shown))?;
        }
        match shown.len() < self.0.len() {
            true => write!(f, " ..."),
            false => Ok(()),
        }
    }
}
