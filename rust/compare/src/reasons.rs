//! Compares the reason why each packet is refused with the implementation's, with the check's answer
//! and with the run's.

use crate::lent::Lent;
use crate::rng::Rng;
use crate::tally::Tally;
use crate::words::{to_bytes, FIELDS};
use crate::{same_answer, same_count, same_input, Answer};
use head::why::exports;
use model::why::{why, Reason};
use model::words::Fields;
use std::ops::RangeInclusive;

const ENDINGS: [u32; 14] = [0, 1, 2, 3, 4, 5, 6, 7, 8, 9, 10, 11, 12, 13];

/// The refusals that name a command.
const NAMED: RangeInclusive<u32> = 3..=12;

const SITUATIONS: [&str; 8] = [
    EMPTY,
    SEVERAL,
    CUT_WORD,
    CUT_ADDRESS,
    LATER,
    MANY_BEFORE,
    ROOM_ACCEPTED,
    ROOM_POINTERS,
];
const EMPTY: &str = "empty packet, accepted";
const SEVERAL: &str = "packet of several commands, accepted";
const CUT_WORD: &str = "word cut off behind other commands, fields 0";
const CUT_ADDRESS: &str = "address cut off, the word's fields given";
const LATER: &str = "refused past the first command";
const MANY_BEFORE: &str = "refused with a hundred commands before it";
const ROOM_ACCEPTED: &str = "accepted packet with another room for fields";
const ROOM_POINTERS: &str = "another number of pointers and another room for fields";

pub struct Reasons {
    fields: Lent<u8>,
    pub tally: Tally,
}

/// What the packet is asked about with. Only the library's own are lent to it.
pub struct Card<'a> {
    pub store: &'a [u8],
    pub pointers: &'a [u32],
}

impl Default for Reasons {
    fn default() -> Reasons {
        Reasons {
            fields: Lent::new("fields", FIELDS, 0),
            tally: Tally::new("reasons", &ENDINGS, &SITUATIONS),
        }
    }
}

impl Reasons {
    /// Asks both sides why a packet is refused. The check has answered `checked`.
    pub fn case(
        &mut self,
        rng: &mut Rng,
        packet: &[u8],
        card: &Card,
        checked: Answer,
    ) -> Result<(), String> {
        let room = match rng.one_in(50) {
            true => rng.pick(&[0, 1, FIELDS - 1, FIELDS + 1, 2 * FIELDS]),
            false => FIELDS,
        };
        self.fields.change(|fields| rng.fill(fields));
        let (library, model) = self.fields.lend(room);
        let lent = packet.to_vec();
        let (number, place, index) = exports::why(&lent, card.store, card.pointers, library);
        let reason = why(packet, card.store, card.pointers);
        let expected = in_room(room, reason, model);
        same_answer((number, place), (expected.0, expected.1))?;
        same_count("commands before it", index, expected.2)?;
        same_input(&lent, packet)?;
        self.fields.compare(expected.0 == 13)?;
        if room == FIELDS {
            let checked = if checked.0 == 0 { (0, 0) } else { checked };
            same_answer((number, place), checked)
                .map_err(|what| format!("beside its check: {what}"))?;
        }
        if NAMED.contains(&number) {
            front_accepted(&packet[..place as usize], card)?;
        }
        self.count(packet, card, room, reason, number);
        Ok(())
    }

    fn count(
        &mut self,
        packet: &[u8],
        card: &Card,
        room: usize,
        reason: Option<Reason>,
        number: u32,
    ) {
        let tally = &mut self.tally;
        tally.ending(number);
        let other_count = card.pointers.len() != model::area::POINTERS;
        tally.situation(ROOM_ACCEPTED, number == 13 && reason.is_none());
        tally.situation(ROOM_POINTERS, number == 13 && other_count);
        if room != FIELDS {
            return;
        }
        let Some(reason) = reason else {
            tally.situation(EMPTY, packet.is_empty());
            tally.situation(SEVERAL, packet.len() >= 8);
            return;
        };
        let rest = packet.len() - reason.refusal.place as usize;
        let none = reason.fields == Fields::from_word(0);
        tally.situation(CUT_WORD, number == 3 && rest == 1 && reason.index > 0);
        tally.situation(CUT_ADDRESS, number == 3 && rest >= 2 && !none);
        tally.situation(LATER, reason.index > 0);
        tally.situation(MANY_BEFORE, reason.index >= 100);
    }
}

/// The implementation's answer as the library's numbers, its fields written to the room.
fn in_room(room: usize, reason: Option<Reason>, fields: &mut [u8]) -> (u32, u64, u64) {
    if room != FIELDS {
        return (13, 0, 0);
    }
    match reason {
        None => {
            fields.fill(0);
            (0, 0, 0)
        }
        Some(reason) => {
            fields.copy_from_slice(&to_bytes(reason.fields));
            (reason.refusal.number, reason.refusal.place, reason.index)
        }
    }
}

/// The bytes before the refused command alone must be an accepted packet in the same state.
fn front_accepted(front: &[u8], card: &Card) -> Result<(), String> {
    head::check(front, card.store, card.pointers)
        .map(drop)
        .map_err(|refusal| format!("the {} bytes before it: {refusal}", front.len()))?;
    match head::why(front, card.store, card.pointers) {
        None => Ok(()),
        Some(reason) => Err(format!("the reason for the bytes before it: {reason}")),
    }
}
