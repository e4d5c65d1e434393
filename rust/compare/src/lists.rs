//! Compares compiling: the output, its packet count, and every refusal.

use crate::call::{self, answered, room};
use crate::cues;
use crate::rng::Rng;
use crate::tally::Tally;
use crate::trace;
use crate::{hex, Answer, Outcome};
use head::exports;
use model::area::POINTERS;
use model::packing::compile;
use model::store::{Space, COUNT_ADDRESS, UNLOCK_ADDRESS};
use model::words::Fields;
use model::{HIGHEST_COUNT, PACKET_BYTES};

const ENDINGS: [u32; 6] = [0, 21, 22, 23, 24, 26];

const SITUATIONS: [&str; 14] = [
    EMPTY,
    HUNDRED_THOUSAND,
    SHORT_BY_ONE,
    EXACT_ROOM,
    LARGER_ROOM,
    FULL_COMMAND,
    FULL_PACKET,
    FULL_REPLY,
    UNLOCKS,
    NAMES_UNLOCK,
    NAMES_COUNT,
    LATER[0],
    LATER[1],
    LATER[2],
];
const EMPTY: &str = "empty list accepted";
const HUNDRED_THOUSAND: &str = "list of 100,000 records accepted";
const SHORT_BY_ONE: &str = "room too small by one byte";
const EXACT_ROOM: &str = "output that fills its room";
const LARGER_ROOM: &str = "room beyond the output";
const FULL_COMMAND: &str = "command of 127 elements";
const FULL_PACKET: &str = "packet of 1,472 bytes";
const FULL_REPLY: &str = "packet with a reply of 1,472 bytes";
const UNLOCKS: &str = "unlock in more than one packet";
const NAMES_UNLOCK: &str = "refused for a record that names the unlock cell";
const NAMES_COUNT: &str = "refused for a record that names the packet count";
/// Numbers 22 to 24 at a record that isn't the first.
const LATER: [&str; 3] = [
    "refused 22 past the first record",
    "refused 23 past the first record",
    "refused 24 past the first record",
];

/// Compares `count` lists, and the long ones besides.
pub fn compare(seed: u64, count: u64) -> Outcome {
    let mut part = Part {
        rng: Rng::new(seed),
        tally: Tally::new("lists", &ENDINGS, &SITUATIONS),
    };
    for case in 0..count {
        let list = cues::any(&mut part.rng);
        let room = room(&mut part.rng, bytes_needed(&list));
        let result = part.case(&list, room);
        result.map_err(|what| format!("list {case}: {what}"))?;
    }
    for variant in 0..cues::LONG_LISTS {
        let list = cues::long(&mut part.rng, variant);
        let needed = bytes_needed(&list);
        for room in [needed, needed - 1, needed + 1] {
            let result = part.case(&list, room);
            result.map_err(|what| format!("long list {variant}: {what}"))?;
        }
    }
    Ok(vec![part.tally])
}

struct Part {
    rng: Rng,
    tally: Tally,
}

impl Part {
    /// Compiles the list to a room of `room` bytes on both sides and compares.
    fn case(&mut self, list: &[u8], room: usize) -> Result<(), String> {
        let model = |list: &[u8], out: &mut [u8]| {
            answered(compile(list, out), |compiled| {
                (compiled.bytes, compiled.packets)
            })
        };
        let same = call::compare(
            &mut self.rng,
            list,
            room,
            "packets",
            exports::compile,
            model,
        );
        let ((number, value, _), out) =
            same.map_err(|what| format!("{what}\nlist of {}", hex(list)))?;
        self.count(list, room, (number, value), out.model());
        Ok(())
    }

    fn count(&mut self, list: &[u8], room: usize, (number, value): Answer, out: &[u8]) {
        self.tally.ending(number);
        let needed = value as usize;
        let tally = &mut self.tally;
        tally.situation(SHORT_BY_ONE, number == 26 && room + 1 == needed);
        if (22..=24).contains(&number) {
            tally.situation(LATER[number as usize - 22], value > 0);
        }
        if number == 23 {
            let record = from_record(list, value);
            tally.situation(NAMES_UNLOCK, names(record, UNLOCK_ADDRESS));
            tally.situation(NAMES_COUNT, names(record, COUNT_ADDRESS));
        }
        if number == 0 {
            tally.situation(EMPTY, list.is_empty());
            tally.situation(EXACT_ROOM, room == needed && needed > 0);
            tally.situation(LARGER_ROOM, room > needed);
            self.count_output(list, &out[..needed]);
        }
    }

    fn count_output(&mut self, list: &[u8], output: &[u8]) {
        let mut records = 0;
        let mut unlocks = 0;
        for packet in packets(output).expect("the implementation's own output") {
            let commands = trace::commands(packet, [0; POINTERS]);
            let commands: Vec<Fields> = commands.iter().map(|command| command.fields).collect();
            let unlock = |fields: &&Fields| fields.space == 6 && fields.write && !fields.increment;
            let reads = commands.iter().filter(|fields| !fields.write);
            let reply: usize = reads.map(|read| usize::from(read.count) << read.size).sum();
            let counts = commands.iter().map(|fields| u64::from(fields.count));
            let own_unlocks = commands.iter().filter(unlock).count() as u64;
            let full = |fields: &Fields| fields.count == HIGHEST_COUNT;
            records += counts.sum::<u64>() - own_unlocks;
            unlocks += own_unlocks;
            let tally = &mut self.tally;
            tally.situation(FULL_COMMAND, commands.iter().any(full));
            tally.situation(FULL_PACKET, packet.len() == PACKET_BYTES);
            tally.situation(FULL_REPLY, reply == PACKET_BYTES);
        }
        let hundred_thousand = records == 100_000 && !list.is_empty();
        self.tally.situation(HUNDRED_THOUSAND, hundred_thousand);
        self.tally.situation(UNLOCKS, unlocks > 1);
    }
}

/// The list's bytes from a record on.
fn from_record(list: &[u8], index: u64) -> &[u8] {
    let mut rest = list;
    for _ in 0..index {
        let bytes = if rest.starts_with(b"RD") { 6 } else { 10 };
        rest = &rest[bytes..];
    }
    rest
}

/// Whether a record names the cell at this address of the status space.
fn names(record: &[u8], address: u32) -> bool {
    let [low, high] = (address as u16).to_le_bytes();
    record[2] == Space::Status.number() && record[4..6] == [low, high]
}

/// The output's length if the list is good, 100 if not.
fn bytes_needed(list: &[u8]) -> usize {
    match compile(list, &mut []) {
        Ok(compiled) => compiled.bytes,
        Err(refusal) if refusal.number == 26 => refusal.place as usize,
        Err(_) => 100,
    }
}

/// Takes output apart at its marks and lengths.
pub fn packets(mut output: &[u8]) -> Result<Vec<&[u8]>, String> {
    let mut packets = Vec::new();
    while !output.is_empty() {
        let [b'L', b'B', low, high, rest @ ..] = output else {
            return Err(format!("no mark or length at: {}", hex(output)));
        };
        let length = u16::from_le_bytes([*low, *high]);
        let Some((packet, rest)) = rest.split_at_checked(length.into()) else {
            return Err(format!("packet of {length} bytes cut off"));
        };
        packets.push(packet);
        output = rest;
    }
    Ok(packets)
}
