//! The packing rule: compiling a cue list to packets.

use crate::cue::{Action, Record, Records};
use crate::store::Space;
use crate::words::Fields;
use crate::{put, Refusal, HIGHEST_COUNT, PACKET_BYTES};

/// Writes 0x5A02 to the unlock cell.
const UNLOCK: [u8; 6] = [0x01, 0xD9, 0x1A, 0x00, 0x02, 0x5A];

/// What a compiled list came to.
#[derive(Clone, Copy, Debug, PartialEq, Eq)]
pub struct Compiled {
    pub bytes: usize,
    pub packets: u64,
}

/// Compiles a cue list to `out`. What lies beyond the answered bytes stays as it is.
pub fn compile(list: &[u8], out: &mut [u8]) -> Result<Compiled, Refusal> {
    let output = packed(list)?;
    put(&output.bytes, out)?;
    Ok(Compiled {
        bytes: output.bytes.len(),
        packets: output.packets,
    })
}

/// The output for a good list.
pub(crate) fn packed(list: &[u8]) -> Result<Output, Refusal> {
    let mut output = Output::default();
    for record in Records::new(list) {
        output.add(&record?);
    }
    output.close();
    Ok(output)
}

/// The closed packets and the open one.
#[derive(Default)]
pub(crate) struct Output {
    pub(crate) bytes: Vec<u8>,
    pub(crate) packets: u64,
    open: Packet,
}

impl Output {
    pub(crate) fn add(&mut self, record: &Record) {
        if self.open.join(record) || self.open.start(record) {
            return;
        }
        self.close();
        let started = self.open.start(record);
        assert!(started, "a single record fits an empty packet");
    }

    pub(crate) fn close(&mut self) {
        if self.open.last.is_none() {
            return;
        }
        self.bytes.extend_from_slice(b"LB");
        let length = self.open.bytes.len() as u16;
        self.bytes.extend_from_slice(&length.to_le_bytes());
        self.bytes.extend_from_slice(&self.open.bytes);
        self.packets += 1;
        self.open.clear();
    }
}

#[derive(Default)]
struct Packet {
    bytes: Vec<u8>,
    reply: usize,
    unlocked: bool,
    last: Option<Last>,
}

/// The open packet's last command.
struct Last {
    /// Where its command word stands in the packet.
    place: usize,
    count: u8,
    /// Its last record.
    record: Record,
}

impl Packet {
    fn clear(&mut self) {
        self.bytes.clear();
        self.reply = 0;
        self.unlocked = false;
        self.last = None;
    }

    /// Adds the record to the last command, if it may join that.
    fn join(&mut self, record: &Record) -> bool {
        let fits = self.has_room(data_bytes(record), record);
        let Some(last) = &mut self.last else {
            return false;
        };
        if !fits || last.count == HIGHEST_COUNT || !follows(record, &last.record) {
            return false;
        }
        last.count += 1;
        last.record = *record;
        // The count is in the low bits of the word's first byte.
        self.bytes[last.place] += 1;
        self.put_data(record);
        true
    }

    /// Starts a new command with the record, if that fits.
    fn start(&mut self, record: &Record) -> bool {
        let needs_unlock = record.is_write() && record.space == Space::Eeprom && !self.unlocked;
        let unlock: &[u8] = if needs_unlock { &UNLOCK } else { &[] };
        if !self.has_room(unlock.len() + 4 + data_bytes(record), record) {
            return false;
        }
        self.bytes.extend_from_slice(unlock);
        self.unlocked |= needs_unlock;
        self.last = Some(Last {
            place: self.bytes.len(),
            count: 1,
            record: *record,
        });
        self.bytes
            .extend_from_slice(&first_word(record).to_le_bytes());
        let address = record.address as u16;
        self.bytes.extend_from_slice(&address.to_le_bytes());
        self.put_data(record);
        true
    }

    /// Whether `bytes` more of packet and what the record reads stay within both limits.
    fn has_room(&self, bytes: usize, record: &Record) -> bool {
        self.bytes.len() + bytes <= PACKET_BYTES && self.reply + reply_bytes(record) <= PACKET_BYTES
    }

    fn put_data(&mut self, record: &Record) {
        if let Action::Write(value) = record.action {
            let element = record.space.element() as usize;
            self.bytes
                .extend_from_slice(&value.to_le_bytes()[..element]);
        }
        self.reply += reply_bytes(record);
    }
}

/// Whether `record` takes the element after that of `before`, in the same manner.
fn follows(record: &Record, before: &Record) -> bool {
    record.is_write() == before.is_write()
        && record.space == before.space
        && record.address == before.address + before.space.element()
}

pub(crate) fn data_bytes(record: &Record) -> usize {
    match record.action {
        Action::Read => 0,
        Action::Write(_) => record.space.element() as usize,
    }
}

pub(crate) fn reply_bytes(record: &Record) -> usize {
    match record.action {
        Action::Read => record.space.element() as usize,
        Action::Write(_) => 0,
    }
}

/// The word of a command with address, increment and count 1.
fn first_word(record: &Record) -> u16 {
    let fields = Fields {
        write: record.is_write(),
        address: true,
        info: false,
        space: record.space.number(),
        size: record.space.size(),
        increment: true,
        count: 1,
    };
    fields.to_word().expect("the fields are in range")
}
