//! Cue lists held against a guard, and what becomes of their packets.

use super::{protects, Part};
use crate::rng::Rng;
use crate::shows::compiled;
use crate::state::good_pointer;
use crate::tally::Tally;
use crate::{cues, guards, hex, lists, numbers, same_answer, same_input, wrapped, Answer};
use head::Refusal;
use model::area::{Area, POINTERS};
use model::cue::{Record, Records};
use model::guard::{list, PROTECTED, UNSOUND};
use model::store::{Space, STORE_BYTES};
use model::PACKET_BYTES;

const ENDINGS: [u32; 7] = [0, 21, 22, 23, 24, UNSOUND, PROTECTED];

const SITUATIONS: [&str; 10] = [
    EMPTY,
    READ,
    SEVERAL,
    TIGHTER,
    LATER,
    EEPROM,
    LATER_PACKET,
    OWN_FAULT,
    UNSOUND_FIRST,
    HUNDRED_THOUSAND,
];
const EMPTY: &str = "empty list let pass";
const READ: &str = "let pass, protected bytes read";
const SEVERAL: &str = "let pass, and several packets run with the guard";
const TIGHTER: &str = "let pass, and tighter packets run with the guard";
const LATER: &str = "refused 71 past the first record";
const EEPROM: &str = "refused 71 for the EEPROM";
const LATER_PACKET: &str = "refused 71, and so is a packet that is not the first";
const OWN_FAULT: &str = "refused with its own number behind a write to a protected byte";
const UNSOUND_FIRST: &str = "bad list refused with 70";
const HUNDRED_THOUSAND: &str = "100,000 records let pass";

pub fn tally() -> Tally {
    Tally::new("guarded lists", &ENDINGS, &SITUATIONS)
}

impl Part {
    /// A list with a guard that is often made for it.
    pub(super) fn list(&mut self) -> Result<(), String> {
        let rng = &mut self.rng;
        let list = cues::any(rng);
        let mut guard = guards::any(rng);
        if rng.coin() {
            aim(rng, &mut guard, &list);
        }
        self.list_with(&list, &guard)
    }

    /// Lists about the limit of a hundred thousand records.
    pub(super) fn long_lists(&mut self) -> Result<(), String> {
        for variant in 0..cues::LONG_LISTS {
            let list = cues::long(&mut self.rng, variant);
            // Information cells are read only, and so in no write's way.
            let guard = [Space::Information.start() as u32, 32];
            self.list_with(&list, &guard)
                .map_err(|what| format!("long list {variant}: {what}"))?;
        }
        Ok(())
    }

    fn list_with(&mut self, bytes: &[u8], guard: &[u32]) -> Result<(), String> {
        let context = |what: String| format!("{what}\nguard {guard:?}\nlist of {}", hex(bytes));
        let (lent, lent_guard) = (bytes.to_vec(), guard.to_vec());
        let answer = wrapped(&head::guarded_list(&lent, &lent_guard), |&records| records);
        let expected = numbers(&list(bytes, guard), |&records| records);
        same_answer(answer, expected)
            .and_then(|()| same_input(&lent, bytes))
            .and_then(|()| same_input(&lent_guard, guard))
            .map_err(context)?;
        self.lists.ending(expected.0);
        self.count_list(bytes, guard, expected);
        match expected.0 {
            0 => self.vetted(bytes, guard).map_err(context),
            PROTECTED => self.held_back(bytes, guard).map_err(context),
            _ => Ok(()),
        }
    }

    /// Of a list that was let pass, every packet must run with the guard as it does without.
    fn vetted(&mut self, list: &[u8], guard: &[u32]) -> Result<(), String> {
        let output = compiled(list)?;
        let packets = run_all(&mut self.rng, &output, guard)?;
        self.lists.situation(SEVERAL, packets > 1);
        let mut tighter = vec![0; output.len()];
        let planned = head::tighten(list, &mut tighter).map_err(|refusal| refusal.to_string())?;
        tighter.truncate(planned.bytes);
        run_all(&mut self.rng, &tighter, guard).map_err(|what| format!("tighter: {what}"))?;
        self.lists.situation(TIGHTER, tighter != output);
        Ok(())
    }

    /// Of a list that was refused with 71, some packet must be.
    fn held_back(&mut self, list: &[u8], guard: &[u32]) -> Result<(), String> {
        let output = compiled(list)?;
        let mut card = Card::new(&mut self.rng);
        for (index, packet) in lists::packets(&output)?.iter().enumerate() {
            match card.run(packet, guard) {
                Ok(_) => {}
                Err(refusal) if refusal.number == PROTECTED => {
                    self.lists.situation(LATER_PACKET, index > 0);
                    return Ok(());
                }
                Err(refusal) => return Err(format!("packet {index} {refusal}")),
            }
        }
        Err("no packet is refused".to_string())
    }

    fn count_list(&mut self, list: &[u8], guard: &[u32], (number, value): Answer) {
        let tally = &mut self.lists;
        let good = || Records::new(list).map_while(Result::ok);
        let protected = |record: &Record| protects(guard, &record.cell());
        let written = |record: &Record| record.is_write() && protected(record);
        match number {
            0 => {
                tally.situation(EMPTY, list.is_empty());
                tally.situation(READ, good().any(|record| protected(&record)));
                tally.situation(HUNDRED_THOUSAND, value == 100_000);
            }
            UNSOUND => {
                let bad = Records::new(list).any(|record| record.is_err());
                tally.situation(UNSOUND_FIRST, bad);
            }
            PROTECTED => {
                let record = good().nth(value as usize).expect("the record");
                tally.situation(LATER, value > 0);
                tally.situation(EEPROM, record.space == Space::Eeprom);
            }
            _ => tally.situation(OWN_FAULT, good().any(|record| written(&record))),
        }
    }
}

/// A card that the library alone runs packets on.
#[derive(Clone)]
struct Card {
    store: Vec<u8>,
    pointers: [u32; POINTERS],
    reply: [u8; PACKET_BYTES],
}

impl Card {
    fn new(rng: &mut Rng) -> Card {
        let mut store = vec![0; STORE_BYTES];
        rng.fill(&mut store);
        Card {
            store,
            pointers: Area::ALL.map(|area| good_pointer(rng, area)),
            reply: [0xEE; PACKET_BYTES],
        }
    }

    fn run(&mut self, packet: &[u8], guard: &[u32]) -> Result<head::Ran, Refusal> {
        let (store, pointers) = (&mut self.store, &mut self.pointers);
        head::guarded_run(packet, store, pointers, &mut self.reply, guard)
    }
}

/// Runs the packets of an output with the guard, and on another card without it. All must be
/// accepted, and leave both cards the same. Answers how many there are.
fn run_all(rng: &mut Rng, output: &[u8], guard: &[u32]) -> Result<usize, String> {
    let mut card = Card::new(rng);
    let mut plain = card.clone();
    let packets = lists::packets(output)?;
    for (index, packet) in packets.iter().enumerate() {
        let ran = card.run(packet, guard);
        let (store, pointers) = (&mut plain.store, &mut plain.pointers);
        let expected = head::run(packet, store, pointers, &mut plain.reply);
        if ran.is_err() || ran != expected {
            return Err(format!(
                "packet {index}: with the guard {ran:?}, without it {expected:?}"
            ));
        }
        if card.reply != plain.reply {
            return Err(format!("packet {index}: another reply with the guard"));
        }
    }
    match card.store == plain.store && card.pointers == plain.pointers {
        true => Ok(packets.len()),
        false => Err("another card with the guard".to_string()),
    }
}

/// Puts a range at the cell of a record, or beside it.
pub(crate) fn aim(rng: &mut Rng, guard: &mut Vec<u32>, list: &[u8]) {
    let records: Vec<Record> = Records::new(list).map_while(Result::ok).collect();
    if !records.is_empty() {
        let record = &records[rng.below(records.len())];
        guards::aimed(rng, guard, &record.cell());
    }
}
