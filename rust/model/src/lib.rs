//! LBP16 packets, SPI bursts and cue lists on a card store, in plain safe Rust.
//!
//! This is the yardstick that the library is held against. It is written for clearness: each
//! module follows one section of the scope document, and tests stand in the order in which the
//! table of refusals numbers them.

pub mod area;
pub mod capture;
pub mod cue;
pub mod guard;
pub mod independent;
pub mod list_why;
pub mod packet;
pub mod packet_text;
pub mod packing;
pub mod panel;
pub mod parts;
pub mod recording;
pub mod salvage;
pub mod sentence;
pub mod spi;
pub mod sserial;
pub mod store;
pub mod text;
pub mod tight;
pub mod why;
pub mod words;

/// Why a call was turned away. A refused call changes nothing that it was lent.
#[derive(Clone, Copy, Debug, PartialEq, Eq)]
pub struct Refusal {
    pub number: u32,
    pub place: u64,
}

impl Refusal {
    /// A refusal that has no place of its own.
    pub fn whole(number: u32) -> Refusal {
        Refusal { number, place: 0 }
    }
}

/// The most bytes that a packet or its reply may have: 1,500 less 28 of IP and UDP headers.
pub const PACKET_BYTES: usize = 1_472;

/// The highest count that a command word or a burst header can hold.
pub const HIGHEST_COUNT: u8 = 127;

/// Writes bytes to the front of a room, or refuses with 26 where it is too small.
fn put(bytes: &[u8], out: &mut [u8]) -> Result<(), Refusal> {
    let room = out.get_mut(..bytes.len()).ok_or(Refusal {
        number: 26,
        place: bytes.len() as u64,
    })?;
    room.copy_from_slice(bytes);
    Ok(())
}
