//! Compares the sentence of every number.

use crate::lent::Lent;
use crate::rng::Rng;
use crate::tally::Tally;
use crate::{same_answer, Outcome};
use head::sentence::exports;
use model::sentence::{sentence, MOST_BYTES, NUMBERS};

const ENDINGS: [u32; 2] = [0, 26];

const SITUATIONS: [&str; 5] = [EVERY, NONE, EXACT, SHORT_BY_ONE, NO_ROOM];
const EVERY: &str = "number that means something";
const NONE: &str = "number that means nothing";
const EXACT: &str = "sentence that fills its room";
const SHORT_BY_ONE: &str = "room too small by one byte";
const NO_ROOM: &str = "no room at all";

/// Compares the sentences of all numbers to 199, and of `count` others, each in some rooms.
pub fn compare(seed: u64, count: u64) -> Outcome {
    let mut part = Part {
        rng: Rng::new(seed),
        out: Lent::new("output", 2 * MOST_BYTES, 0),
        tally: Tally::new("sentences", &ENDINGS, &SITUATIONS),
    };
    for number in (0..200).chain([u32::MAX]) {
        part.number(number)?;
    }
    for _ in 0..count {
        let number = part.rng.word() >> part.rng.below(32);
        part.number(number)?;
    }
    Ok(vec![part.tally])
}

struct Part {
    rng: Rng,
    out: Lent<u8>,
    tally: Tally,
}

impl Part {
    fn number(&mut self, number: u32) -> Result<(), String> {
        let bytes = sentence(number).len();
        let other = self.rng.below(2 * MOST_BYTES);
        for room in [bytes - 1, bytes, bytes + 1, MOST_BYTES, 0, other] {
            self.case(number, room)
                .map_err(|what| format!("number {number}, room of {room}: {what}"))?;
        }
        Ok(())
    }

    fn case(&mut self, number: u32, room: usize) -> Result<(), String> {
        let rng = &mut self.rng;
        self.out.change(|out| rng.fill(out));
        let text = sentence(number).as_bytes();
        let (library, model) = self.out.lend(room);
        let refused = room < text.len();
        if !refused {
            model[..text.len()].copy_from_slice(text);
        }
        let returned = if refused { 26 } else { 0 };
        let answer = exports::sentence(number, library);
        same_answer(answer, (returned, text.len() as u64))?;
        self.out.compare(refused)?;

        self.tally.ending(returned);
        let known = NUMBERS.contains(&number);
        self.tally.situation(EVERY, known);
        self.tally.situation(NONE, !known);
        self.tally.situation(EXACT, room == text.len());
        self.tally.situation(SHORT_BY_ONE, room + 1 == text.len());
        self.tally.situation(NO_ROOM, room == 0);
        Ok(())
    }
}
