//! Compares SPI bursts.

use crate::lent::Lent;
use crate::rng::Rng;
use crate::tally::Tally;
use crate::{numbers, same_answer, same_input, wrapped, Answer, Outcome};
use head::exports;
use model::spi::{burst, Header};
use model::store::STORE_BYTES;
use model::HIGHEST_COUNT;

const ENDINGS: [u32; 7] = [0, 1, 31, 32, 33, 34, 35];
const MOST_WORDS: usize = 300;

const SITUATIONS: [&str; 11] = [
    READ_127,
    WRITE_127,
    READ_STILL,
    WRITE_STILL,
    LAST_REGISTER,
    ONE_TOO_MANY,
    SHORT_READ,
    SHORT_WRITE,
    HEADER_ALONE,
    SHORT_PAST_THE_END,
    ONE_WORD_MORE,
];
const READ_127: &str = "read of 127 words";
const WRITE_127: &str = "write of 127 words";
const READ_STILL: &str = "read of several words without increment";
const WRITE_STILL: &str = "write of several words without increment";
const LAST_REGISTER: &str = "accepted up to the last register, with increment";
const ONE_TOO_MANY: &str = "refused with one element past the last register";
const SHORT_READ: &str = "read of fewer words than promised";
const SHORT_WRITE: &str = "write of fewer words than promised";
const HEADER_ALONE: &str = "header alone accepted";
const SHORT_PAST_THE_END: &str = "refused for a promised element that did not come";
const ONE_WORD_MORE: &str = "refused with one word more than promised";

/// Compares `count` random bursts, and bursts of every length besides.
pub fn compare(seed: u64, count: u64) -> Outcome {
    let mut part = Part {
        rng: Rng::new(seed),
        store: Lent::new("store", STORE_BYTES, 0),
        answer: Lent::new("answer", MOST_WORDS, 0),
        tally: Tally::new("bursts", &ENDINGS, &SITUATIONS),
    };
    let rng = &mut part.rng;
    part.store.change(|store| rng.fill(store));
    for case in 0..count {
        let words = any(&mut part.rng);
        let rooms = part.rooms(words.len());
        part.case(&words, rooms)
            .map_err(|what| format!("burst {case}: {what}"))?;
    }
    for count in 1..=HIGHEST_COUNT.into() {
        part.every_length(count)
            .map_err(|what| format!("every length of {count} elements: {what}"))?;
    }
    Ok(vec![part.tally])
}

struct Part {
    rng: Rng,
    store: Lent<u8>,
    answer: Lent<u32>,
    tally: Tally,
}

impl Part {
    /// Good headers for `count` elements, each with every number of words up to two too many.
    fn every_length(&mut self, count: usize) -> Result<(), String> {
        let kinds = [(0xA, true), (0xA, false), (0xB, true), (0xB, false)];
        for (command, increment) in kinds {
            for length in 0..=1 + count + 2 {
                let mut draft = Draft::good(&mut self.rng, command, increment, count);
                draft.length = length;
                let words = draft.words(&mut self.rng);
                self.case(&words, (STORE_BYTES, length))?;
            }
        }
        Ok(())
    }

    fn case(&mut self, words: &[u32], rooms: (usize, usize)) -> Result<(), String> {
        let (store_bytes, answer_words) = rooms;
        let value = self.rng.word();
        self.answer.change(|answer| vary(answer, value));

        let context = |what: String| {
            format!(
                "{what}\nstore of {store_bytes} bytes, answer room of {answer_words}\n\
                 {} words: {words:08X?}",
                words.len()
            )
        };
        let (library_store, model_store) = self.store.lend(store_bytes);
        let (library_answer, model_answer) = self.answer.lend(answer_words);
        let expected = numbers(&burst(words, model_store, model_answer), |&elements| {
            elements
        });
        let lent = words.to_vec();
        let answer = exports::spi(&lent, library_store, library_answer);
        self.equal(answer, expected).map_err(context)?;
        same_input(&lent, words).map_err(context)?;

        // A burst done twice ends as it did once, so the wrapper may repeat it.
        if self.rng.one_in(8) {
            let (library_store, _) = self.store.lend(store_bytes);
            let (library_answer, _) = self.answer.lend(answer_words);
            let answer = head::spi(words, library_store, library_answer);
            let answer = wrapped(&answer, |&elements| elements);
            self.equal(answer, expected).map_err(context)?;
        }
        self.store.keep();
        self.count(words, expected);
        Ok(())
    }

    /// The lengths of the store and of the answer room: now and then a wrong one.
    fn rooms(&mut self, words: usize) -> (usize, usize) {
        let rng = &mut self.rng;
        let wrong_store = [
            0,
            4,
            65_536,
            STORE_BYTES - 1,
            STORE_BYTES + 1,
            STORE_BYTES + 32,
        ];
        let wrong_answer = [0, 1, words.saturating_sub(1), words + 1, words + 4, 128];
        match rng.below(40) {
            0 => (rng.pick(&wrong_store), words),
            1 => (STORE_BYTES, rng.pick(&wrong_answer)),
            2 if rng.one_in(4) => (rng.pick(&wrong_store), rng.pick(&wrong_answer)),
            _ => (STORE_BYTES, words),
        }
    }

    fn equal(&mut self, answer: Answer, expected: Answer) -> Result<(), String> {
        same_answer(answer, expected)?;
        let (number, elements) = answer;
        if number == 0 && elements > HIGHEST_COUNT.into() {
            return Err(format!("{elements} elements moved"));
        }
        let refused = expected.0 != 0;
        self.store.compare(refused)?;
        self.answer.compare(refused)
    }

    fn count(&mut self, words: &[u32], (number, _): Answer) {
        self.tally.ending(number);
        let Some(&first) = words.first() else {
            return;
        };
        let header = Header::from_word(first);
        let promised = usize::from(header.count);
        let came = words.len() - 1;
        let accepted = number == 0;
        let read = header.command == 0xA;
        let full = accepted && came == HIGHEST_COUNT.into();
        let still = accepted && !header.increment && came > 1;
        let end = usize::from(header.address) + 4 * promised;
        self.tally.situation(READ_127, full && read);
        self.tally.situation(WRITE_127, full && !read);
        self.tally.situation(READ_STILL, still && read);
        self.tally.situation(WRITE_STILL, still && !read);
        let last = accepted && header.increment && end == 65_536 && came == promised;
        self.tally.situation(LAST_REGISTER, last);
        let beyond = number == 35 && header.increment && end == 65_540;
        self.tally.situation(ONE_TOO_MANY, beyond);
        let short = accepted && 0 < came && came < promised;
        self.tally.situation(SHORT_READ, short && read);
        self.tally.situation(SHORT_WRITE, short && !read);
        self.tally.situation(HEADER_ALONE, accepted && came == 0);
        let in_space = usize::from(header.address) + 4 * came <= 65_536;
        let past_the_end = beyond && came < promised && in_space;
        self.tally.situation(SHORT_PAST_THE_END, past_the_end);
        let more = number == 34 && came == promised + 1;
        self.tally.situation(ONE_WORD_MORE, more);
    }
}

/// Fills words so that neighbours differ.
pub(crate) fn vary(words: &mut [u32], start: u32) {
    let mut value = start;
    for word in words {
        *word = value;
        value = value.wrapping_mul(0x9E37_79B1).wrapping_add(1);
    }
}

/// The words of a burst of any kind.
pub(crate) fn any(rng: &mut Rng) -> Vec<u32> {
    Draft::any(rng).words(rng)
}

/// A burst that may have faults.
struct Draft {
    address: usize,
    command: u32,
    increment: bool,
    count: usize,
    /// How many words are sent.
    length: usize,
}

impl Draft {
    fn good(rng: &mut Rng, command: u32, increment: bool, count: usize) -> Draft {
        Draft {
            address: address(rng, if increment { count } else { 1 }),
            command,
            increment,
            count,
            length: 1 + count,
        }
    }

    /// About half of them good, the others with another length, or one or more faults.
    fn any(rng: &mut Rng) -> Draft {
        let count = match rng.below(4) {
            0 => rng.between(1, 3),
            1 => 127,
            _ => rng.between(1, 127),
        };
        let (command, increment) = (rng.pick(&[0xA, 0xB]), rng.coin());
        let mut draft = Draft::good(rng, command, increment, count);
        let faults = if rng.coin() { 0 } else { rng.between(1, 2) };
        for _ in 0..faults {
            match rng.below(6) {
                0 => draft.command = rng.below(16) as u32,
                1 => draft.count = 0,
                2 => draft.length = other_length(rng, draft.length),
                3 => draft.address += rng.between(1, 3),
                4 => draft.address = past_the_end(rng, draft.count),
                _ => draft.length = rng.pick(&[0, 1, draft.length]),
            }
        }
        draft
    }

    fn words(&self, rng: &mut Rng) -> Vec<u32> {
        let mut words: Vec<u32> = (0..self.length).map(|_| rng.word()).collect();
        if let Some(header) = words.first_mut() {
            *header = (self.address as u32 & 0xFFFF) << 16
                | self.command << 12
                | u32::from(self.increment) << 11
                | (self.count as u32) << 4
                | rng.below(16) as u32;
        }
        words
    }
}

/// An address from which `elements` registers are in the space.
fn address(rng: &mut Rng, elements: usize) -> usize {
    let highest = 65_536 - 4 * elements;
    match rng.below(6) {
        0 => highest,
        1 => 0,
        2 | 3 => 4 * rng.below(64),
        _ => 4 * rng.between(0, highest / 4),
    }
}

/// An address from which `count` registers are not in the space, where there is one.
fn past_the_end(rng: &mut Rng, count: usize) -> usize {
    let lowest = 65_536 - 4 * count.max(1) + 4;
    match rng.below(3) {
        0 => lowest,
        1 => 65_532,
        _ => 4 * rng.between(lowest / 4, 65_536 / 4),
    }
}

fn other_length(rng: &mut Rng, length: usize) -> usize {
    match rng.below(4) {
        0 => (length + 1).min(MOST_WORDS),
        1 => length.saturating_sub(1),
        2 => rng.below(MOST_WORDS),
        _ => (length + 127).min(MOST_WORDS),
    }
}
