//! Compares packets checked, asked why they are refused, and then run, on a card whose store and
//! pointers are carried from one to the next.

use crate::drafts;
use crate::info;
use crate::reasons::{Card, Reasons};
use crate::rng::Rng;
use crate::state::{Rooms, State};
use crate::tally::Tally;
use crate::{
    hex, numbers, packet_count, same_answer, same_count, same_input, status_cell, wrapped, Answer,
    Outcome,
};
use head::exports;
use model::area::{Area, POINTERS};
use model::packet::{check, run};
use model::store::{Space, UNLOCK_ADDRESS, UNLOCK_VALUE};
use model::PACKET_BYTES;

const ENDINGS: [u32; 13] = [0, 1, 2, 3, 4, 5, 6, 7, 8, 9, 10, 11, 12];

/// The most elements that a packet can move.
const MOST_ELEMENTS: u64 = 1_460;

const SITUATIONS: [&str; 24] = [
    EMPTY,
    FULL_PACKET,
    FULL_REPLY,
    EEPROM_WRITTEN,
    EEPROM_KEPT,
    STALE_UNLOCK,
    POINTER_AT_END,
    POINTER_ODD,
    TOO_LONG_BY_ONE,
    LATER[0],
    LATER[1],
    LATER[2],
    LATER[3],
    LATER[4],
    LATER[5],
    LATER[6],
    LATER[7],
    LATER[8],
    LATER[9],
    HUGE_POINTER,
    COUNT_TO_0,
    COUNT_WRITTEN,
    COUNT_WRITTEN_TO_0,
    ALL_ELEMENTS,
];
const EMPTY: &str = "empty packet accepted";
const FULL_PACKET: &str = "packet of 1,472 bytes accepted";
const FULL_REPLY: &str = "reply of 1,472 bytes";
const EEPROM_WRITTEN: &str = "EEPROM changed by an accepted packet";
const EEPROM_KEPT: &str = "EEPROM write refused with 0x5A02 earlier in the packet";
const STALE_UNLOCK: &str = "EEPROM write refused while the cell held 0x5A02 from before";
const POINTER_AT_END: &str = "pointer moved to its space's end";
const POINTER_ODD: &str = "packet accepted beside a misaligned pointer";
const TOO_LONG_BY_ONE: &str = "packet of 1,473 bytes refused";
const HUGE_POINTER: &str = "pointer of 4,294,967,295 refused";
const COUNT_TO_0: &str = "packet count from 65,535 to 0";
const COUNT_WRITTEN: &str = "packet count written by the packet";
const COUNT_WRITTEN_TO_0: &str = "packet count written as 65,535, and 0 afterwards";
const ALL_ELEMENTS: &str = "1,460 elements moved";
const CHECK_SITUATIONS: [&str; 2] = [ACCEPTED_BUT_ROOM, REFUSED_AFTER_ROOM];
const ACCEPTED_BUT_ROOM: &str = "accepted, and run with a wrong reply room";
const REFUSED_AFTER_ROOM: &str = "refused above 1, and run with a wrong reply room";
/// Numbers 3 to 12 at a command that isn't the first.
const LATER: [&str; 10] = [
    "refused 3 past the first command",
    "refused 4 past the first command",
    "refused 5 past the first command",
    "refused 6 past the first command",
    "refused 7 past the first command",
    "refused 8 past the first command",
    "refused 9 past the first command",
    "refused 10 past the first command",
    "refused 11 past the first command",
    "refused 12 past the first command",
];

pub fn compare(seed: u64, count: u64) -> Outcome {
    let mut part = Part {
        rng: Rng::new(seed),
        card: State::default(),
        tally: Tally::new("packets", &ENDINGS, &SITUATIONS),
        checks: Tally::new("checks", &ENDINGS, &CHECK_SITUATIONS),
        reasons: Reasons::default(),
        info: info::tally(),
    };
    for case in 0..count {
        if case % 4_096 == 0 {
            let rng = &mut part.rng;
            part.card.store.change(|store| rng.fill(store));
        }
        let result = part.case();
        result.map_err(|what| format!("packet {case}: {what}"))?;
    }
    Ok(vec![part.checks, part.tally, part.info, part.reasons.tally])
}

struct Part {
    rng: Rng,
    card: State,
    tally: Tally,
    checks: Tally,
    reasons: Reasons,
    info: Tally,
}

impl Part {
    fn case(&mut self) -> Result<(), String> {
        let rng = &mut self.rng;
        self.card.change(rng);
        let pointers = self.card.card_pointers();
        let packet = drafts::packet(rng, pointers);
        self.card.spoil_pointer(rng);
        let rooms = Rooms::any(rng);
        self.card.reply.change(|reply| rng.fill(reply));
        let (checked, ran) = self.check_and_run(&packet, &rooms).map_err(|what| {
            let what = self.card.describe(&what, &rooms);
            format!("{what}\npacket of {}", hex(&packet))
        })?;
        self.count_check(checked, &rooms);
        self.count(&packet, ran);
        if rooms == Rooms::RIGHT {
            let before = self.card.pointers.before().first_chunk();
            let before = *before.expect("eight pointers");
            info::count(&mut self.info, &packet, before, ran);
        }
        self.card.keep(ran.0 != 0, pointers);
        Ok(())
    }

    /// Answers what both sides answered to the check and to the run.
    fn check_and_run(&mut self, packet: &[u8], rooms: &Rooms) -> Result<(Answer, Answer), String> {
        let checked = self.check(packet, rooms)?;
        self.why(packet, rooms, checked)?;
        let ran = self.run(packet, rooms)?;
        let answer = match rooms.reply {
            PACKET_BYTES => checked,
            _ => (1, 0),
        };
        same_answer(ran, answer).map_err(|what| format!("run after its check: {what}"))?;
        Ok((checked, ran))
    }

    fn check(&mut self, packet: &[u8], rooms: &Rooms) -> Result<Answer, String> {
        let (library_store, model_store) = self.card.store.lend(rooms.store);
        let (library_pointers, model_pointers) = self.card.pointers.lend(rooms.pointers);
        let lent = packet.to_vec();
        let answer = head::check(&lent, library_store, library_pointers);
        let expected = check(packet, model_store, model_pointers);
        let expected = numbers(&expected, |&length| length as u64);
        let answer = wrapped(&answer, |&length| length as u64);
        same_answer(answer, expected)
            .and_then(|()| same_input(&lent, packet))
            .and_then(|()| self.card.compare(true))
            .map_err(|what| format!("check: {what}"))?;
        Ok(expected)
    }

    fn why(&mut self, packet: &[u8], rooms: &Rooms, checked: Answer) -> Result<(), String> {
        let (store, _) = self.card.store.lend(rooms.store);
        let (pointers, _) = self.card.pointers.lend(rooms.pointers);
        let card = Card { store, pointers };
        let reasons = &mut self.reasons;
        reasons
            .case(&mut self.rng, packet, &card, checked)
            .and_then(|()| self.card.compare(true))
            .map_err(|what| format!("why: {what}"))
    }

    fn run(&mut self, packet: &[u8], rooms: &Rooms) -> Result<Answer, String> {
        let (library_store, model_store) = self.card.store.lend(rooms.store);
        let (library_pointers, model_pointers) = self.card.pointers.lend(rooms.pointers);
        let (library_reply, model_reply) = self.card.reply.lend(rooms.reply);
        let lent = packet.to_vec();
        let (number, value, elements) =
            exports::run(&lent, library_store, library_pointers, library_reply);
        let result = run(packet, model_store, model_pointers, model_reply);
        let expected = numbers(&result, |ran| ran.length as u64);
        let expected_elements = result.map_or(0, |ran| ran.elements);
        same_answer((number, value), expected)?;
        same_count("elements", elements, expected_elements)?;
        if elements > MOST_ELEMENTS {
            return Err(format!("{elements} elements moved"));
        }
        same_input(&lent, packet)?;
        self.card.compare(expected.0 != 0)?;
        self.tally
            .situation(ALL_ELEMENTS, elements == MOST_ELEMENTS);
        Ok(expected)
    }

    fn count_check(&mut self, (number, _): Answer, rooms: &Rooms) {
        let wrong_room = rooms.reply != PACKET_BYTES;
        let checks = &mut self.checks;
        checks.ending(number);
        checks.situation(ACCEPTED_BUT_ROOM, wrong_room && number == 0);
        checks.situation(REFUSED_AFTER_ROOM, wrong_room && number > 1);
    }

    fn count(&mut self, packet: &[u8], (number, value): Answer) {
        self.tally.ending(number);
        if number == 0 {
            self.count_accepted(packet, value);
        } else {
            self.count_refused(packet, number, value);
        }
    }

    fn count_accepted(&mut self, packet: &[u8], length: u64) {
        let eeprom = Space::Eeprom.start()..Space::Status.start();
        let changed = self.card.store.before()[eeprom.clone()] != self.card.store.model()[eeprom];
        let count = packet_count(self.card.store.before());
        let count_after = packet_count(self.card.store.model());
        let before = self.card.pointers.before();
        let after = self.card.pointers.model();
        let at = |area: &Area| area.index();
        let moved_to_end =
            |area: &Area| after[at(area)] == area.bytes() && before[at(area)] != area.bytes();
        let odd = |area: &Area| !after[at(area)].is_multiple_of(area.element());
        let moved_to_end = Area::ALL.iter().any(moved_to_end);
        let odd = Area::ALL.iter().any(odd);
        let tally = &mut self.tally;
        tally.situation(EMPTY, packet.is_empty());
        tally.situation(FULL_PACKET, packet.len() == PACKET_BYTES);
        tally.situation(FULL_REPLY, length == PACKET_BYTES as u64);
        tally.situation(EEPROM_WRITTEN, changed);
        tally.situation(POINTER_AT_END, moved_to_end);
        tally.situation(POINTER_ODD, odd && !packet.is_empty());
        let written = count_after != count.wrapping_add(1);
        tally.situation(COUNT_TO_0, count == 0xFFFF && count_after == 0);
        tally.situation(COUNT_WRITTEN, written);
        tally.situation(COUNT_WRITTEN_TO_0, written && count_after == 0);
    }

    fn count_refused(&mut self, packet: &[u8], number: u32, place: u64) {
        let cell = &self.card.store.before()[status_cell(UNLOCK_ADDRESS)];
        let stale = cell == UNLOCK_VALUE.to_le_bytes();
        let unlock = UNLOCK_VALUE.to_le_bytes();
        let before_it = &packet[..place as usize];
        let unlocked = before_it.windows(2).any(|bytes| bytes == unlock);
        let huge = self.card.pointers.before()[..POINTERS].contains(&u32::MAX);
        let tally = &mut self.tally;
        tally.situation(STALE_UNLOCK, number == 10 && stale && !unlocked);
        tally.situation(EEPROM_KEPT, number == 10 && unlocked);
        tally.situation(TOO_LONG_BY_ONE, number == 2 && packet.len() == 1_473);
        tally.situation(HUGE_POINTER, number == 1 && huge);
        if (3..=12).contains(&number) {
            tally.situation(LATER[number as usize - 3], place > 0);
        }
    }
}
