//! Outputs that are tighter than the packing rule's: a checker of proposed ones, and a planner.

use crate::area::POINTERS;
use crate::cue::{Action, Record, Records};
use crate::packet::{self, start_at, Command};
use crate::packing::{data_bytes, packed, reply_bytes, Compiled};
use crate::store::{Space, UNLOCK_ADDRESS, UNLOCK_VALUE};
use crate::words::Fields;
use crate::{Refusal, HIGHEST_COUNT, PACKET_BYTES};

/// The number of an output that is rejected. It is not one of the papers'.
pub const REJECTED: u32 = 50;

/// Checks an output that is proposed for a list and answers its packets. A bad list is refused with
/// its own number and place, any other fault with 50.
pub fn check(list: &[u8], output: &[u8]) -> Result<u64, Refusal> {
    let longest = packed(list)?.bytes.len();
    let packets = match output.len() <= longest {
        true => does_records(list, output),
        false => None,
    };
    packets.ok_or(Refusal::whole(REJECTED))
}

/// The number of packets, if they do the list's records in order and nothing else.
fn does_records(list: &[u8], mut output: &[u8]) -> Option<u64> {
    let mut records = Records::new(list).map_while(Result::ok);
    let mut packets = 0;
    while !output.is_empty() {
        let [b'L', b'B', low, high, rest @ ..] = output else {
            return None;
        };
        let length = u16::from_le_bytes([*low, *high]);
        let (packet, rest) = rest.split_at_checked(length.into())?;
        takes_records(packet, &mut records)?;
        packets += 1;
        output = rest;
    }
    records.next().is_none().then_some(packets)
}

/// Takes what a packet does off the front of the records, if it is accepted whatever the pointers
/// are at its start.
fn takes_records(packet: &[u8], records: &mut impl Iterator<Item = Record>) -> Option<()> {
    // A pointer is only used once it is set, so it doesn't matter where the pointers start.
    let mut walk = start_at(packet, [0; POINTERS]).ok()?;
    let mut set = [false; POINTERS];
    while !walk.at_end() {
        let command = walk.command().ok()?;
        let set = &mut set[command.area.index()];
        *set |= command.given;
        if !*set || command.area.info {
            return None;
        }
        for k in 0..command.count {
            // A list can't name the unlock cell, so nothing else may be done there.
            let done = element(&command, k);
            if done != UNLOCK && records.next() != Some(done) {
                return None;
            }
        }
    }
    Some(())
}

const UNLOCK: Record = Record {
    space: Space::Status,
    address: UNLOCK_ADDRESS,
    action: Action::Write(UNLOCK_VALUE as u32),
};

/// A command's element as a record.
fn element(command: &Command, k: u32) -> Record {
    let space = command.area.space;
    let step = if command.increment {
        space.element()
    } else {
        0
    };
    let action = match command.action {
        packet::Action::Write(data) => {
            let width = space.element() as usize;
            let data = &data[k as usize * width..][..width];
            let mut value = [0; 4];
            value[..width].copy_from_slice(data);
            Action::Write(u32::from_le_bytes(value))
        }
        _ => Action::Read,
    };
    Record {
        space,
        address: command.address + k * step,
        action,
    }
}

/// Plans packets for a list and writes them to `out`, which must have the room that the packing
/// rule's need. What lies beyond the answered bytes stays as it is.
pub fn tighten(list: &[u8], out: &mut [u8]) -> Result<Compiled, Refusal> {
    let rule = packed(list)?;
    if out.len() < rule.bytes.len() {
        return Err(Refusal {
            number: 26,
            place: rule.bytes.len() as u64,
        });
    }
    let mut plan = Plan::default();
    for record in Records::new(list).map_while(Result::ok) {
        plan.add(&record);
    }
    plan.close();

    let (bytes, packets) = match plan.bytes.len() <= rule.bytes.len() {
        true => (plan.bytes, plan.packets),
        false => (rule.bytes, rule.packets),
    };
    out[..bytes.len()].copy_from_slice(&bytes);
    Ok(Compiled {
        bytes: bytes.len(),
        packets,
    })
}

/// The closed packets and the open one.
#[derive(Default)]
struct Plan {
    bytes: Vec<u8>,
    packets: u64,
    open: Packet,
}

impl Plan {
    fn add(&mut self, record: &Record) {
        if !self.open.add(record) {
            self.close();
            let added = self.open.add(record);
            assert!(added, "a single record fits an empty packet");
        }
    }

    fn close(&mut self) {
        let packet = std::mem::take(&mut self.open).bytes;
        if packet.is_empty() {
            return;
        }
        self.bytes.extend(b"LB");
        self.bytes.extend((packet.len() as u16).to_le_bytes());
        self.bytes.extend(packet);
        self.packets += 1;
    }
}

#[derive(Default)]
struct Packet {
    bytes: Vec<u8>,
    reply: usize,
    unlocked: bool,
    last: Option<Last>,
    /// Where the pointers stand that the packet has set, by space.
    pointers: [Option<Pointer>; 4],
}

/// The last command.
struct Last {
    /// Where its word stands in the packet.
    place: usize,
    count: u8,
    /// Its last record.
    record: Record,
    /// How its addresses go on, once it has two elements.
    steps: Option<Steps>,
}

#[derive(Clone, Copy, PartialEq, Eq)]
enum Steps {
    Still,
    Rising,
}

#[derive(Clone, Copy)]
struct Pointer {
    address: u32,
    /// The place of a word of one element, where setting its increment would move the pointer on.
    movable: Option<usize>,
}

/// The most bytes that an unlock and an EEPROM write behind it take.
const UNLOCK_AND_WRITE: usize = 12;

impl Packet {
    /// Adds a record, with an unlock before it where it needs one, if that fits.
    fn add(&mut self, record: &Record) -> bool {
        if record.is_write() && record.space == Space::Eeprom && !self.unlocked {
            if self.bytes.len() + UNLOCK_AND_WRITE > PACKET_BYTES {
                return false;
            }
            self.unlocked = self.add_alone(&UNLOCK);
        }
        self.add_alone(record)
    }

    fn add_alone(&mut self, record: &Record) -> bool {
        self.reply + reply_bytes(record) <= PACKET_BYTES
            && (self.join(record) || self.start(record))
    }

    /// Adds the record to the last command, if it goes on there.
    fn join(&mut self, record: &Record) -> bool {
        let fits = self.bytes.len() + data_bytes(record) <= PACKET_BYTES;
        let Some(last) = &mut self.last else {
            return false;
        };
        let alike =
            record.is_write() == last.record.is_write() && record.space == last.record.space;
        let element = record.space.element();
        let steps = if record.address == last.record.address {
            Steps::Still
        } else if record.address == last.record.address + element {
            Steps::Rising
        } else {
            return false;
        };
        let goes_on = last.steps.is_none_or(|known| known == steps);
        if !fits || !alike || !goes_on || last.count == HIGHEST_COUNT {
            return false;
        }
        last.count += 1;
        last.record = *record;
        last.steps = Some(steps);
        self.bytes[last.place] += 1;
        if steps == Steps::Rising {
            self.bytes[last.place] |= INCREMENT;
        }
        let moved = if steps == Steps::Rising { element } else { 0 };
        self.pointers[record.space.index()] = Some(Pointer {
            address: record.address + moved,
            movable: None,
        });
        self.put_data(record);
        true
    }

    /// Starts a command with the record, if that fits; without an address where the pointer stands
    /// there, or can be made to.
    fn start(&mut self, record: &Record) -> bool {
        let pointer = self.pointers[record.space.index()];
        let moved = pointer.and_then(|pointer| {
            let next = pointer.address + record.space.element() == record.address;
            pointer.movable.filter(|_| next)
        });
        let stands = pointer.is_some_and(|pointer| pointer.address == record.address);
        let given = !stands && moved.is_none();
        let head = if given { 4 } else { 2 };
        if self.bytes.len() + head + data_bytes(record) > PACKET_BYTES {
            return false;
        }
        if let Some(word) = moved {
            self.bytes[word] |= INCREMENT;
        }
        let place = self.bytes.len();
        self.bytes.extend(first_word(record, given).to_le_bytes());
        if given {
            self.bytes.extend((record.address as u16).to_le_bytes());
        }
        self.last = Some(Last {
            place,
            count: 1,
            record: *record,
            steps: None,
        });
        self.pointers[record.space.index()] = Some(Pointer {
            address: record.address,
            movable: Some(place),
        });
        self.put_data(record);
        true
    }

    fn put_data(&mut self, record: &Record) {
        if let Action::Write(value) = record.action {
            self.bytes
                .extend(&value.to_le_bytes()[..data_bytes(record)]);
        }
        self.reply += reply_bytes(record);
    }
}

/// The increment bit, in a word's low byte.
const INCREMENT: u8 = 0x80;

/// The word of a command without increment and with count 1.
fn first_word(record: &Record, given: bool) -> u16 {
    let fields = Fields {
        write: record.is_write(),
        address: given,
        info: false,
        space: record.space.number(),
        size: record.space.size(),
        increment: false,
        count: 1,
    };
    fields.to_word().expect("the fields are in range")
}
