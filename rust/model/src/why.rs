//! Why a packet is refused.

use crate::packet::start;
use crate::words::Fields;
use crate::Refusal;

/// The refusal of a packet, and the command that is at fault.
#[derive(Clone, Copy, Debug, PartialEq, Eq)]
pub struct Reason {
    pub refusal: Refusal,
    /// The command's index from 0; 0 for refusals 1 and 2, which name no command.
    pub index: u64,
    /// The command's fields, all 0 where its word is cut off or no command is named.
    pub fields: Fields,
}

/// Why a packet would be refused in this state; nothing if it would be accepted.
pub fn why(packet: &[u8], store: &[u8], pointers: &[u32]) -> Option<Reason> {
    let unnamed = |refusal| Reason {
        refusal,
        index: 0,
        fields: Fields::from_word(0),
    };
    let mut walk = match start(packet, store, pointers) {
        Ok(walk) => walk,
        Err(refusal) => return Some(unnamed(refusal)),
    };
    let mut index = 0;
    while !walk.at_end() {
        if let Err(refusal) = walk.command() {
            return Some(Reason {
                refusal,
                index,
                fields: fields_at(packet, refusal.place as usize),
            });
        }
        index += 1;
    }
    None
}

fn fields_at(packet: &[u8], place: usize) -> Fields {
    let word = packet[place..].first_chunk();
    Fields::from_word(word.map_or(0, |word| u16::from_le_bytes(*word)))
}
