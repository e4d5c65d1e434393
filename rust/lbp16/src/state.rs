//! The card that packets are held against.

use crate::ending::Stop;
use crate::input::read_exactly;
use crate::words::Words;
use head::{Ran, Refusal, PACKET_BYTES, POINTERS, STORE_BYTES};
use std::ffi::OsString;

/// The bytes of a file of pointers.
const POINTER_BYTES: usize = 4 * POINTERS;

/// Where a card's state is read from.
#[derive(Default)]
pub struct From {
    store: Option<OsString>,
    pointers: Option<OsString>,
}

/// A card's state, and the reply to its last packet.
#[derive(Clone)]
pub struct State {
    pub store: Vec<u8>,
    pub pointers: [u32; POINTERS],
    pub reply: [u8; PACKET_BYTES],
}

impl From {
    pub fn take(&mut self, option: &str, words: &mut Words) -> Result<bool, Stop> {
        match option {
            "--store" => self.store = Some(words.value("a file")?),
            "--pointers" => self.pointers = Some(words.value("a file")?),
            _ => return Ok(false),
        }
        Ok(true)
    }

    /// The files' state, or a fresh card's.
    pub fn read(&self) -> Result<State, Stop> {
        let mut state = State {
            store: vec![0; STORE_BYTES],
            pointers: [0; POINTERS],
            reply: [0; PACKET_BYTES],
        };
        if let Some(file) = &self.store {
            state.store = read_exactly(file, STORE_BYTES, "a store")?;
        }
        if let Some(file) = &self.pointers {
            let bytes = read_exactly(file, POINTER_BYTES, "a file of 8 pointers")?;
            let (numbers, _) = bytes.as_chunks::<4>();
            state.pointers = std::array::from_fn(|k| u32::from_le_bytes(numbers[k]));
        }
        Ok(state)
    }
}

impl State {
    pub fn run(&mut self, packet: &[u8]) -> Result<Ran, Refusal> {
        head::run(packet, &mut self.store, &mut self.pointers, &mut self.reply)
    }
}
