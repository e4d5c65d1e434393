//! Compiling a cue list that arrives in parts.

use crate::cue::{first, MOST_RECORDS};
use crate::packing::Output;
use crate::{Refusal, PACKET_BYTES};

/// The least room that a call needs: a packet with its mark and length.
pub const ROOM: usize = 4 + PACKET_BYTES;

/// What is left from call to call.
#[derive(Default)]
pub struct Parts {
    /// The bytes of the record that is not yet wholly taken.
    record: Vec<u8>,
    records: u64,
    output: Output,
    ended: Option<Result<(), Refusal>>,
}

#[derive(Clone, Copy, Debug, PartialEq, Eq)]
pub struct Answer {
    pub taken: usize,
    /// The bytes of the packet handed out, 0 if there was none.
    pub written: Result<usize, Refusal>,
}

impl Parts {
    /// Takes a part, up to its end or until a packet was handed out. `last` says that the list
    /// ends where the part does.
    pub fn call(&mut self, part: &[u8], last: bool, out: &mut [u8]) -> Answer {
        let answer = |taken, written| Answer { taken, written };
        if out.len() < ROOM {
            let refusal = Refusal {
                number: 26,
                place: ROOM as u64,
            };
            return answer(0, Err(refusal));
        }
        if let Some(ended) = self.ended {
            return answer(0, ended.map(|()| 0));
        }
        for (before, &byte) in part.iter().enumerate() {
            if let Err(number) = self.take(byte) {
                return answer(before + 1, self.fault(number));
            }
            if !self.output.bytes.is_empty() {
                return answer(before + 1, Ok(self.hand_out(out)));
            }
        }
        if !last {
            return answer(part.len(), Ok(0));
        }
        if !self.record.is_empty() {
            return answer(part.len(), self.fault(22));
        }
        self.ended = Some(Ok(()));
        self.output.close();
        answer(part.len(), Ok(self.hand_out(out)))
    }

    /// Takes one byte, and packs the record if it is now whole.
    fn take(&mut self, byte: u8) -> Result<(), u32> {
        if self.records == MOST_RECORDS {
            return Err(21);
        }
        self.record.push(byte);
        match first(&self.record) {
            Ok((record, _)) => {
                self.output.add(&record);
                self.records += 1;
                self.record.clear();
                Ok(())
            }
            Err(22) if may_grow(&self.record) => Ok(()),
            Err(number) => Err(number),
        }
    }

    fn fault(&mut self, number: u32) -> Result<usize, Refusal> {
        let refusal = Refusal {
            number,
            place: self.records,
        };
        self.ended = Some(Err(refusal));
        Err(refusal)
    }

    fn hand_out(&mut self, out: &mut [u8]) -> usize {
        let packet = &mut self.output.bytes;
        let bytes = packet.len();
        out[..bytes].copy_from_slice(packet);
        packet.clear();
        bytes
    }
}

/// Whether more bytes may make a record of these. An unknown mark shows at its second byte.
fn may_grow(record: &[u8]) -> bool {
    record.len() < 2 || record.starts_with(b"RD") || record.starts_with(b"WR")
}
