//! Judging a recorded show.

use crate::packet::{check, run};
use crate::{Refusal, PACKET_BYTES};

/// What is said of a recording. Packets and parts are counted from 0, and a part is a packet or a
/// reply.
#[derive(Clone, Copy, Debug, PartialEq, Eq)]
pub enum Verdict {
    /// Every reply is what our rules give; the number of packets.
    Yes(u64),
    /// This packet is refused.
    Packet(u64),
    /// This packet's reply has a wrong length.
    Length(u64),
    /// This packet's reply has its first wrong byte at this place.
    Byte(u64, u64),
    /// The recording ends inside this part, or where it should begin.
    Cut(u64),
    /// This part has no mark.
    Unmarked(u64),
}

/// Judges a recording. Store and pointers are then as the packets accepted so far left them.
pub fn judge(recording: &[u8], store: &mut [u8], pointers: &mut [u32]) -> Result<Verdict, Refusal> {
    // Only refusal 1 can turn an empty packet away.
    check(&[], store, pointers)?;
    let fault = judge_parts(recording, store, pointers);
    Ok(fault.unwrap_or_else(|fault| fault))
}

/// The verdict, also where it is a fault.
fn judge_parts(
    recording: &[u8],
    store: &mut [u8],
    pointers: &mut [u32],
) -> Result<Verdict, Verdict> {
    let mut parts = Parts {
        rest: recording,
        number: 0,
    };
    let mut index = 0;
    while !parts.rest.is_empty() {
        let packet = parts.next()?;
        let mut reply = [0; PACKET_BYTES];
        let ran = run(packet, store, pointers, &mut reply);
        let ran = ran.map_err(|_| Verdict::Packet(index))?;
        let expected = &reply[..ran.length];

        let recorded = parts.next()?;
        if recorded.len() != expected.len() {
            return Err(Verdict::Length(index));
        }
        let mut pairs = recorded.iter().zip(expected);
        if let Some(place) = pairs.position(|(recorded, expected)| recorded != expected) {
            return Err(Verdict::Byte(index, place as u64));
        }
        index += 1;
    }
    Ok(Verdict::Yes(index))
}

/// Takes a recording apart at its marks and lengths.
struct Parts<'a> {
    rest: &'a [u8],
    number: u64,
}

impl<'a> Parts<'a> {
    fn next(&mut self) -> Result<&'a [u8], Verdict> {
        let cut = Verdict::Cut(self.number);
        let behind = match self.rest {
            [] | [_] => return Err(cut),
            [b'L', b'B', behind @ ..] => behind,
            _ => return Err(Verdict::Unmarked(self.number)),
        };
        let (length, behind) = behind.split_first_chunk().ok_or(cut)?;
        let length = u16::from_le_bytes(*length);
        let (part, rest) = behind.split_at_checked(length.into()).ok_or(cut)?;
        self.rest = rest;
        self.number += 1;
        Ok(part)
    }
}
