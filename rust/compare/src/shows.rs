//! Plays whole shows: a list compiled and run by the library, beside its records done one by one.

use crate::cues;
use crate::lists::packets;
use crate::rng::Rng;
use crate::tally::Tally;
use crate::trace;
use crate::{hex, packet_count, same_count, status_cell, Outcome};
use model::area::{Area, POINTERS};
use model::cue::Records;
use model::store::{Space, COUNT_ADDRESS, STORE_BYTES, UNLOCK_ADDRESS};
use model::PACKET_BYTES;

const SITUATIONS: [&str; 5] = [EMPTY, SEVERAL, READ, EEPROM, COUNT_PAST_0];
const EMPTY: &str = "show without a packet";
const SEVERAL: &str = "show of several packets";
const READ: &str = "show that reads more than one reply holds";
const EEPROM: &str = "show that changes the EEPROM";
const COUNT_PAST_0: &str = "show whose packet count goes past 65,535";

pub fn compare(seed: u64, count: u64) -> Outcome {
    let mut rng = Rng::new(seed);
    let mut tally = Tally::new("shows", &[0], &SITUATIONS);
    for case in 0..count {
        let list = cues::good(&mut rng);
        play(&mut rng, &mut tally, list.bytes())
            .map_err(|what| format!("show {case}: {what}\nlist of {}", hex(list.bytes())))?;
    }
    Ok(vec![tally])
}

fn play(rng: &mut Rng, tally: &mut Tally, list: &[u8]) -> Result<(), String> {
    let output = compiled(list)?;
    let played = played(rng, list, &output)?;
    let Played { start, end, .. } = &played;
    let eeprom = Space::Eeprom.start()..Space::Status.start();
    tally.ending(0);
    tally.situation(EMPTY, played.packets == 0);
    tally.situation(SEVERAL, played.packets > 1);
    tally.situation(READ, played.values > PACKET_BYTES);
    tally.situation(EEPROM, end[eeprom.clone()] != start[eeprom]);
    tally.situation(COUNT_PAST_0, packet_count(end) < packet_count(start));
    Ok(())
}

/// A show that was played as its records one by one.
pub struct Played {
    /// The store before and after.
    pub start: Vec<u8>,
    pub end: Vec<u8>,
    pub packets: usize,
    /// The bytes read.
    pub values: usize,
}

/// Plays a list's output from a random card, which must come to the same as its records one by one.
pub fn played(rng: &mut Rng, list: &[u8], output: &[u8]) -> Result<Played, String> {
    let mut start = vec![0; STORE_BYTES];
    rng.fill(&mut start);
    if rng.one_in(4) {
        let count = 0xFFFF - rng.below(4) as u16;
        start[status_cell(COUNT_ADDRESS)].copy_from_slice(&count.to_le_bytes());
    }

    let mut one_by_one = start.clone();
    let mut values = Vec::new();
    for record in Records::new(list) {
        let record = record.map_err(|refusal| format!("a bad list was made: {refusal:?}"))?;
        record.run(&mut one_by_one, &mut values);
    }

    let mut end = start.clone();
    let packets = packets(output)?;
    let replies = run_all(rng, &packets, &mut end)?;

    if replies != values {
        return Err(format!(
            "replies of {}\nexpected {}",
            hex(&replies),
            hex(&values)
        ));
    }
    stores_agree(&end, one_by_one, packets.len())?;
    Ok(Played {
        start,
        end,
        packets: packets.len(),
        values: values.len(),
    })
}

/// The library's output for a good list.
pub fn compiled(list: &[u8]) -> Result<Vec<u8>, String> {
    // No record takes more than 16 bytes: mark and length, unlock, command and its data.
    let mut out = vec![0; 4 * list.len()];
    let compiled = head::compile(list, &mut out).map_err(|refusal| refusal.to_string())?;
    out.truncate(compiled.bytes);
    let found = packets(&out)?.len() as u64;
    if found != compiled.packets {
        return Err(format!(
            "{found} packets where {} are answered",
            compiled.packets
        ));
    }
    Ok(out)
}

/// Checks and runs the packets from random pointers and joins the replies.
pub fn run_all(rng: &mut Rng, packets: &[&[u8]], store: &mut [u8]) -> Result<Vec<u8>, String> {
    let mut pointers = Area::ALL.map(|area| rng.below(area.bytes() as usize + 1) as u32);
    let mut reply = [0; PACKET_BYTES];
    let mut replies = Vec::new();
    for (number, packet) in packets.iter().enumerate() {
        rng.fill(&mut reply);
        let checked = head::check(packet, store, &pointers);
        let ran = head::run(packet, store, &mut pointers, &mut reply);
        if ran.map(|ran| ran.length) != checked {
            return Err(format!("packet {number}: run {ran:?}, check {checked:?}"));
        }
        let ran = ran.map_err(|refusal| format!("packet {number} {refusal}"))?;
        let commands = trace::commands(packet, [0; POINTERS]);
        let counts = commands.iter().map(|command| command.fields.count);
        same_count("elements", ran.elements, counts.map(u64::from).sum())?;
        let answered = reply.get(..ran.length);
        let answered = answered.ok_or("a reply longer than its room")?;
        replies.extend_from_slice(answered);
    }
    Ok(replies)
}

/// The stores must agree but for the unlock cell, which a packet leaves at 0, and the packet count,
/// which goes up by the number of packets.
fn stores_agree(played: &[u8], mut expected: Vec<u8>, packets: usize) -> Result<(), String> {
    if packets > 0 {
        expected[status_cell(UNLOCK_ADDRESS)].fill(0);
    }
    let count = packet_count(&expected).wrapping_add(packets as u16);
    expected[status_cell(COUNT_ADDRESS)].copy_from_slice(&count.to_le_bytes());
    let mut pairs = played.iter().zip(&expected);
    match pairs.position(|(played, expected)| played != expected) {
        None => Ok(()),
        Some(at) => Err(format!(
            "store at {at}: played {:02X}, one by one {:02X}",
            played[at], expected[at]
        )),
    }
}
