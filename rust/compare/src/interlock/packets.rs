//! Packets checked and run with a guard.

use super::{beside_plain, protects, touches, Part};
use crate::guards;
use crate::rng::Rng;
use crate::state::Rooms;
use crate::tally::Tally;
use crate::trace::{self, Command};
use crate::{drafts, hex, numbers, same_answer, same_count, same_input, wrapped, Answer};
use head::guard::exports;
use model::area::{Area, POINTERS};
use model::guard::{check, run, MOST_RANGES, PROTECTED, UNSOUND};
use model::store::{Space, STORE_BYTES};
use model::{packet, PACKET_BYTES};
use std::ops::Range;

const ENDINGS: [u32; 15] = [0, 1, 2, 3, 4, 5, 6, 7, 8, 9, 10, 11, 12, UNSOUND, PROTECTED];

const SITUATIONS: [&str; 17] = [
    AT_ONCE,
    LATER,
    MIDDLE,
    LAST_BYTE,
    STILL,
    EEPROM,
    STATUS,
    SAME_VALUE,
    LAST_RANGE,
    BY_POINTER,
    READ,
    BESIDE,
    NO_BYTES,
    ALL_RANGES,
    OWN_FAULT,
    UNSOUND_FIRST,
    ROOM_FIRST,
];
const AT_ONCE: &str = "refused 71 at the first command";
const LATER: &str = "refused 71 past the first command";
const MIDDLE: &str = "refused 71 for a block whose first element is not protected";
const LAST_BYTE: &str = "refused 71 for the last byte of a block alone";
const STILL: &str = "refused 71 without increment";
const EEPROM: &str = "refused 71 for the EEPROM";
const STATUS: &str = "refused 71 for the status space";
const SAME_VALUE: &str = "refused 71 for the value that stands there";
const LAST_RANGE: &str = "refused 71 by the last of 64 ranges alone";
const BY_POINTER: &str = "refused 71 for a write without an address";
const READ: &str = "accepted, protected bytes read";
const BESIDE: &str = "accepted, written right beside a range";
const NO_BYTES: &str = "accepted, written over a range of no bytes";
const ALL_RANGES: &str = "accepted, written beside 64 ranges";
const OWN_FAULT: &str = "refused with its own number behind a write to a protected byte";
const UNSOUND_FIRST: &str = "refused 70 where the plain run refuses with 1";
const ROOM_FIRST: &str = "refused 1 for a reply room where the check refuses with 71";

pub fn tally_of_checks() -> Tally {
    Tally::new("guarded checks", &ENDINGS, &[])
}

pub fn tally_of_runs() -> Tally {
    Tally::new("guarded runs", &ENDINGS, &SITUATIONS)
}

impl Part {
    /// A packet with a guard that is often made for it.
    pub(super) fn packet(&mut self) -> Result<(), String> {
        let rng = &mut self.rng;
        self.card.change(rng);
        let pointers = self.card.card_pointers();
        let packet = match rng.one_in(24) {
            true => echo(rng, self.card.store.before()),
            false => drafts::packet(rng, pointers),
        };
        let mut guard = guards::any(rng);
        if rng.coin() {
            aim(rng, &mut guard, &packet, pointers);
        }
        self.packet_with(&packet, &guard)
    }

    /// Checks and runs a packet, and keeps what it leaves.
    pub(super) fn packet_with(&mut self, packet: &[u8], guard: &[u32]) -> Result<(), String> {
        let rng = &mut self.rng;
        let pointers = self.card.card_pointers();
        self.card.spoil_pointer(rng);
        let rooms = Rooms::any(rng);
        self.card.reply.change(|reply| rng.fill(reply));
        let (checked, ran) = self.check_and_run(packet, guard, &rooms).map_err(|what| {
            let what = self.card.describe(&what, &rooms);
            format!("{what}\nguard {guard:?}\npacket of {}", hex(packet))
        })?;
        self.checks.ending(checked.0);
        self.runs.ending(ran.0);
        self.count_run(packet, guard, checked, ran);
        self.card.keep(ran.0 != 0, pointers);
        Ok(())
    }

    /// Answers what both sides answered to the check and to the run.
    fn check_and_run(
        &mut self,
        packet: &[u8],
        guard: &[u32],
        rooms: &Rooms,
    ) -> Result<(Answer, Answer), String> {
        let checked = self.check(packet, guard, rooms);
        let checked = checked.map_err(|what| format!("check: {what}"))?;
        let ran = self.run(packet, guard, rooms)?;
        let answer = match (rooms.reply, checked.0) {
            (PACKET_BYTES, _) | (_, UNSOUND) => checked,
            _ => (1, 0),
        };
        same_answer(ran, answer).map_err(|what| format!("run after its check: {what}"))?;
        Ok((checked, ran))
    }

    fn check(&mut self, packet: &[u8], guard: &[u32], rooms: &Rooms) -> Result<Answer, String> {
        let (library_store, model_store) = self.card.store.lend(rooms.store);
        let (library_pointers, model_pointers) = self.card.pointers.lend(rooms.pointers);
        let (lent, lent_guard) = (packet.to_vec(), guard.to_vec());
        let answer = head::guarded_check(&lent, library_store, library_pointers, &lent_guard);
        let answer = wrapped(&answer, |&length| length as u64);
        let plain = head::check(&lent, library_store, library_pointers);
        let plain = wrapped(&plain, |&length| length as u64);
        let expected = check(packet, model_store, model_pointers, guard);
        let expected = numbers(&expected, |&length| length as u64);
        same_answer(answer, expected)?;
        beside_plain(answer, plain)?;
        same_input(&lent, packet)?;
        same_input(&lent_guard, guard)?;
        self.card.compare(true)?;
        Ok(expected)
    }

    fn run(&mut self, packet: &[u8], guard: &[u32], rooms: &Rooms) -> Result<Answer, String> {
        let (library_store, model_store) = self.card.store.lend(rooms.store);
        let (library_pointers, model_pointers) = self.card.pointers.lend(rooms.pointers);
        let (library_reply, model_reply) = self.card.reply.lend(rooms.reply);
        let (lent, lent_guard) = (packet.to_vec(), guard.to_vec());
        let (number, value, elements) = exports::guarded_run(
            &lent,
            library_store,
            library_pointers,
            library_reply,
            &lent_guard,
        );
        let result = run(packet, model_store, model_pointers, model_reply, guard);
        let expected = numbers(&result, |ran| ran.length as u64);
        same_answer((number, value), expected)?;
        same_count("elements", elements, result.map_or(0, |ran| ran.elements))?;
        same_input(&lent, packet)?;
        same_input(&lent_guard, guard)?;
        self.card.compare(expected.0 != 0)?;
        Ok(expected)
    }

    fn count_run(&mut self, packet: &[u8], guard: &[u32], checked: Answer, ran: Answer) {
        let pointers = self.card.pointers.before().first_chunk();
        let pointers: &[u32; POINTERS] = pointers.expect("eight pointers");
        let store = &self.card.store.before()[..STORE_BYTES];
        let (number, place) = ran;
        let runs = &mut self.runs;
        let guarded = |packet: &[u8], guard: &[u32]| check(packet, store, pointers, guard);
        runs.situation(ROOM_FIRST, number == 1 && checked.0 == PROTECTED);
        match number {
            0 => count_accepted(runs, &trace::commands(packet, *pointers), guard),
            3..=12 => {
                let front = guarded(&packet[..place as usize], guard);
                let protected = front.is_err_and(|refusal| refusal.number == PROTECTED);
                runs.situation(OWN_FAULT, protected);
            }
            UNSOUND => {
                let above = |area: &Area| pointers[area.index()] > area.bytes();
                runs.situation(UNSOUND_FIRST, Area::ALL.iter().any(above));
            }
            PROTECTED => {
                let all = guard.len() == 2 * MOST_RANGES;
                let last_alone = all && guarded(packet, &guard[..guard.len() - 2]).is_ok();
                runs.situation(LAST_RANGE, last_alone);
                runs.situation(AT_ONCE, place == 0);
                runs.situation(LATER, place > 0);
                let (front, rest) = packet.split_at(place as usize);
                let index = trace::commands(front, *pointers).len();
                let command = &trace::commands(packet, *pointers)[index];
                runs.situation(SAME_VALUE, place == 0 && same_value(command, rest, store));
                count_protected(runs, command, guard);
            }
            _ => {}
        }
    }
}

fn count_accepted(runs: &mut Tally, commands: &[Command], guard: &[u32]) {
    let written = || commands.iter().filter_map(Command::written);
    let read = |command: &Command| {
        let plain = !command.fields.write && !command.area.info;
        plain && protects(guard, &command.cells())
    };
    let over_none = |cells: Range<usize>| {
        guards::ranges(guard).any(|range| range.is_empty() && cells.contains(&range.start))
    };
    runs.situation(READ, commands.iter().any(read));
    runs.situation(BESIDE, written().any(|cells| touches(guard, &cells)));
    runs.situation(NO_BYTES, written().any(over_none));
    let all = guard.len() == 2 * MOST_RANGES;
    runs.situation(ALL_RANGES, all && written().next().is_some());
}

/// Counts a command that writes a protected byte.
fn count_protected(runs: &mut Tally, command: &Command, guard: &[u32]) {
    let cells = command.written().expect("a write");
    let first = cells.start..cells.start + command.area.element() as usize;
    let but_last = cells.start..cells.end - 1;
    let several = cells.len() > first.len();
    let fields = &command.fields;
    runs.situation(MIDDLE, several && !protects(guard, &first));
    runs.situation(LAST_BYTE, several && !protects(guard, &but_last));
    runs.situation(STILL, !fields.increment && fields.count > 1);
    runs.situation(EEPROM, command.area.space == Space::Eeprom);
    runs.situation(STATUS, command.area.space == Space::Status);
    runs.situation(BY_POINTER, !fields.address);
}

/// Whether the data of a write, which these bytes begin with, is what stands in the store.
fn same_value(command: &Command, bytes: &[u8], store: &[u8]) -> bool {
    let head = if command.fields.address { 4 } else { 2 };
    let cells = command.cells();
    let one = command.fields.increment || command.fields.count == 1;
    one && bytes[head..][..cells.len()] == store[cells]
}

/// A packet that writes some registers with what stands there.
fn echo(rng: &mut Rng, store: &[u8]) -> Vec<u8> {
    let count = rng.between(1, 8);
    let address = 4 * rng.below(64);
    let word = 0xC280 | count as u16;
    let mut packet = word.to_le_bytes().to_vec();
    packet.extend((address as u16).to_le_bytes());
    packet.extend(&store[address..address + 4 * count]);
    packet
}

/// Puts a range at one of the writes of a packet, or beside it, if the packet is accepted.
pub(crate) fn aim(rng: &mut Rng, guard: &mut Vec<u32>, packet: &[u8], pointers: [u32; POINTERS]) {
    if packet::check(packet, &[0; STORE_BYTES], &pointers).is_err() {
        return;
    }
    let commands = trace::commands(packet, pointers);
    let writes: Vec<Range<usize>> = commands.iter().filter_map(Command::written).collect();
    if !writes.is_empty() {
        let write = &writes[rng.below(writes.len())];
        guards::aimed(rng, guard, write);
    }
}
