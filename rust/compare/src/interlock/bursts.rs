//! Bursts run with a guard.

use super::{protects, touches, Part};
use crate::rng::Rng;
use crate::tally::Tally;
use crate::{bursts, guards, numbers, same_answer, same_input, wrapped, Answer};
use head::guard::exports;
use model::guard::{burst, MOST_RANGES, PROTECTED, UNSOUND};
use model::spi::Header;
use model::store::STORE_BYTES;
use std::ops::Range;

const ENDINGS: [u32; 9] = [0, 1, 31, 32, 33, 34, 35, UNSOUND, PROTECTED];

/// The most words that are sent, and some more.
pub const MOST_WORDS: usize = 320;

const SITUATIONS: [&str; 10] = [
    DID_NOT_COME,
    HEADER_ALONE,
    STILL,
    LAST_BYTE,
    LAST_RANGE,
    READ,
    BESIDE,
    OWN_FAULT,
    UNSOUND_FIRST,
    ROOM_FIRST,
];
const DID_NOT_COME: &str = "refused 71 for a promised register whose word did not come";
const HEADER_ALONE: &str = "refused 71 for a header alone";
const STILL: &str = "refused 71 without increment";
const LAST_BYTE: &str = "refused 71 for the last byte of several registers alone";
const LAST_RANGE: &str = "refused 71 with 64 ranges";
const READ: &str = "accepted, protected registers read";
const BESIDE: &str = "accepted, written right beside a range";
const OWN_FAULT: &str = "refused 34 where a protected register would be written";
const UNSOUND_FIRST: &str = "refused 70 without a word";
const ROOM_FIRST: &str = "refused 1 where a protected register would be written";

pub fn tally() -> Tally {
    Tally::new("guarded bursts", &ENDINGS, &SITUATIONS)
}

impl Part {
    /// A burst with a guard that is often made for it.
    pub(super) fn burst(&mut self) -> Result<(), String> {
        let rng = &mut self.rng;
        let mut words = bursts::any(rng);
        if rng.one_in(4) && words.len() > 2 {
            words.truncate(rng.between(1, words.len() - 1));
        }
        let mut guard = guards::any(rng);
        if rng.coin() {
            aim(rng, &mut guard, &words);
        }
        self.burst_with(&words, &guard)
    }

    /// Runs a burst and keeps what it leaves.
    pub(super) fn burst_with(&mut self, words: &[u32], guard: &[u32]) -> Result<(), String> {
        let rng = &mut self.rng;
        let (store, room) = rooms(rng, words.len());
        let value = rng.word();
        self.answer.change(|answer| bursts::vary(answer, value));
        let expected = self.run_burst(words, guard, (store, room));
        let expected = expected.map_err(|what| {
            format!(
                "{what}\nstore of {store} bytes, answer room of {room}\nguard {guard:?}\n\
                 {} words: {words:08X?}",
                words.len()
            )
        })?;
        self.card.store.keep();
        self.count_burst(words, guard, expected);
        Ok(())
    }

    fn run_burst(
        &mut self,
        words: &[u32],
        guard: &[u32],
        (store, room): (usize, usize),
    ) -> Result<Answer, String> {
        let (library_store, model_store) = self.card.store.lend(store);
        let (library_answer, model_answer) = self.answer.lend(room);
        let (lent, lent_guard) = (words.to_vec(), guard.to_vec());
        let answer = match self.rng.one_in(8) {
            true => {
                let ran = head::guarded_spi(&lent, library_store, library_answer, &lent_guard);
                wrapped(&ran, |&elements| elements)
            }
            false => exports::guarded_spi(&lent, library_store, library_answer, &lent_guard),
        };
        let result = burst(words, model_store, model_answer, guard);
        let expected = numbers(&result, |&elements| elements);
        same_answer(answer, expected)?;
        same_input(&lent, words)?;
        same_input(&lent_guard, guard)?;
        self.card.store.compare(expected.0 != 0)?;
        self.answer.compare(expected.0 != 0)?;
        Ok(expected)
    }

    fn count_burst(&mut self, words: &[u32], guard: &[u32], (number, _): Answer) {
        let tally = &mut self.bursts;
        tally.ending(number);
        tally.situation(UNSOUND_FIRST, number == UNSOUND && words.is_empty());
        let Some(&first) = words.first() else {
            return;
        };
        let header = Header::from_word(first);
        let promised = promised(header);
        let came = promised.start..promised.end.min(promised.start + 4 * (words.len() - 1));
        let but_last = promised.start..promised.end.saturating_sub(1);
        let refused = number == PROTECTED;
        let short = came.end < promised.end;
        let several = header.increment && header.count > 1;
        let write = header.command == 0xB;
        let would = number != UNSOUND && write && protects(guard, &promised);
        let none_came = refused && short && !protects(guard, &came);
        tally.situation(DID_NOT_COME, none_came && words.len() > 1);
        tally.situation(HEADER_ALONE, refused && words.len() == 1);
        tally.situation(STILL, refused && !header.increment && header.count > 1);
        let last_byte = refused && several && !protects(guard, &but_last);
        tally.situation(LAST_BYTE, last_byte);
        tally.situation(LAST_RANGE, refused && guard.len() == 2 * MOST_RANGES);
        let accepted = number == 0;
        let read = accepted && !write && protects(guard, &promised);
        tally.situation(READ, read);
        tally.situation(BESIDE, accepted && write && touches(guard, &promised));
        tally.situation(OWN_FAULT, number == 34 && would);
        tally.situation(ROOM_FIRST, number == 1 && would);
    }
}

/// The bytes of the store that a burst's promised registers stand in.
fn promised(header: Header) -> Range<usize> {
    let first = usize::from(header.address);
    let registers = if header.increment { header.count } else { 1 };
    first..first + 4 * usize::from(registers)
}

/// The lengths of the store and of the answer room: now and then a wrong one.
fn rooms(rng: &mut Rng, words: usize) -> (usize, usize) {
    let wrong_store = [0, 65_536, STORE_BYTES - 1, STORE_BYTES + 1];
    let wrong_answer = [0, words.saturating_sub(1), words + 1, words + 4];
    match rng.below(40) {
        0 => (rng.pick(&wrong_store), words),
        1 => (STORE_BYTES, rng.pick(&wrong_answer)),
        _ => (STORE_BYTES, words),
    }
}

/// Puts a range at the promised registers, or beside them.
pub(crate) fn aim(rng: &mut Rng, guard: &mut Vec<u32>, words: &[u32]) {
    let Some(&first) = words.first() else {
        return;
    };
    let promised = promised(Header::from_word(first));
    if !promised.is_empty() && promised.end <= 65_536 {
        guards::aimed(rng, guard, &promised);
    }
}
