//! Compares the interlock: guards, and packets, bursts and lists that are checked or run with one.

pub(crate) mod bursts;
pub(crate) mod lists;
pub(crate) mod packets;
mod sequences;

use crate::guards;
use crate::lent::Lent;
use crate::rng::Rng;
use crate::state::State;
use crate::tally::Tally;
use crate::{numbers, same_answer, same_input, wrapped, Answer, Outcome};
use model::guard::{sound, MOST_RANGES, PROTECTED, UNSOUND};
use model::store::STORE_BYTES;
use std::ops::Range;

const SITUATIONS: [&str; 14] = [
    NO_RANGE,
    ALL_RANGES,
    ONE_BYTE,
    FIRST_BYTE,
    LAST_BYTE,
    WHOLE_SPACE,
    EMPTY_AT_END,
    EMPTY_IN_CELL,
    TOUCHING,
    OVERLAPPING,
    HALF,
    ONE_MORE,
    WRAPPED,
    LATER,
];
const NO_RANGE: &str = "sound, without a range";
const ALL_RANGES: &str = "sound, of 64 ranges";
const ONE_BYTE: &str = "sound, with a range of one byte";
const FIRST_BYTE: &str = "sound, with the store's first byte";
const LAST_BYTE: &str = "sound, with the store's last byte";
const WHOLE_SPACE: &str = "sound, with all registers";
const EMPTY_AT_END: &str = "sound, with a range of no bytes at the store's end";
const EMPTY_IN_CELL: &str = "sound, with a range of no bytes in the unlock cell or the count";
const TOUCHING: &str = "sound, with ranges right behind each other";
const OVERLAPPING: &str = "sound, with ranges that have bytes in common";
const HALF: &str = "refused for a half pair";
const ONE_MORE: &str = "refused for the 65th pair";
const WRAPPED: &str = "refused for an end that has more than 32 bits";
const LATER: &str = "refused past the first pair";

/// Compares `count` guards, packets and bursts, and some lists and sequences.
pub fn compare(seed: u64, count: u64) -> Outcome {
    let mut part = Part {
        rng: Rng::new(seed),
        card: State::default(),
        answer: Lent::new("answer", bursts::MOST_WORDS, 0),
        guards: Tally::new("guards", &[0, UNSOUND], &SITUATIONS),
        checks: packets::tally_of_checks(),
        runs: packets::tally_of_runs(),
        bursts: bursts::tally(),
        lists: lists::tally(),
        sequences: sequences::tally(),
    };
    for case in 0..count {
        part.case(case)
            .map_err(|what| format!("case {case}: {what}"))?;
    }
    part.long_lists()?;
    Ok(vec![
        part.guards,
        part.checks,
        part.runs,
        part.bursts,
        part.lists,
        part.sequences,
    ])
}

struct Part {
    rng: Rng,
    card: State,
    answer: Lent<u32>,
    guards: Tally,
    checks: Tally,
    runs: Tally,
    bursts: Tally,
    lists: Tally,
    sequences: Tally,
}

impl Part {
    fn case(&mut self, case: u64) -> Result<(), String> {
        if case.is_multiple_of(4_096) {
            let rng = &mut self.rng;
            self.card.store.change(|store| rng.fill(store));
        }
        self.guard()?;
        self.packet()?;
        self.burst()?;
        if case.is_multiple_of(8) {
            self.list()?;
        }
        if case.is_multiple_of(64) {
            self.sequence()?;
        }
        Ok(())
    }

    fn guard(&mut self) -> Result<(), String> {
        let guard = guards::any(&mut self.rng);
        let lent = guard.clone();
        let answer = wrapped(&head::guard(&lent), |&ranges| ranges as u64);
        let expected = numbers(&sound(&guard), |&ranges| ranges);
        same_answer(answer, expected)
            .and_then(|()| same_input(&lent, &guard))
            .map_err(|what| format!("{what}\nguard {guard:?}"))?;
        self.count_guard(&guard, expected);
        Ok(())
    }

    fn count_guard(&mut self, guard: &[u32], (number, value): Answer) {
        let tally = &mut self.guards;
        tally.ending(number);
        if number == UNSOUND {
            let pair = &guard[2 * value as usize..];
            let wraps = |pair: &[u32; 2]| pair[0].checked_add(pair[1]).is_none();
            tally.situation(HALF, pair.len() == 1);
            tally.situation(ONE_MORE, value == MOST_RANGES as u64);
            tally.situation(WRAPPED, pair.first_chunk().is_some_and(wraps));
            tally.situation(LATER, value > 0);
            return;
        }
        let ranges: Vec<Range<usize>> = guards::ranges(guard).collect();
        let empty_at = |places: Range<usize>| {
            let mut empty = ranges.iter().filter(|range| range.is_empty());
            empty.any(|range| places.contains(&range.start))
        };
        let pairs = || ranges.windows(2).map(|pair| (&pair[0], &pair[1]));
        let touching = |(one, other): (&Range<usize>, &Range<usize>)| {
            one.end == other.start && !one.is_empty() && !other.is_empty()
        };
        let own_cells = guards::own_cells();
        tally.situation(NO_RANGE, ranges.is_empty());
        tally.situation(ALL_RANGES, ranges.len() == MOST_RANGES);
        tally.situation(ONE_BYTE, ranges.iter().any(|range| range.len() == 1));
        tally.situation(FIRST_BYTE, protects(guard, &(0..1)));
        tally.situation(LAST_BYTE, protects(guard, &(STORE_BYTES - 1..STORE_BYTES)));
        tally.situation(WHOLE_SPACE, ranges.contains(&(0..65_536)));
        tally.situation(EMPTY_AT_END, empty_at(STORE_BYTES..STORE_BYTES + 1));
        tally.situation(EMPTY_IN_CELL, own_cells.into_iter().any(empty_at));
        tally.situation(TOUCHING, pairs().any(touching));
        let overlapping = pairs().any(|(one, other)| meet(one, other));
        tally.situation(OVERLAPPING, overlapping);
    }
}

/// Whether two ranges have a byte in common.
fn meet(one: &Range<usize>, other: &Range<usize>) -> bool {
    one.start.max(other.start) < one.end.min(other.end)
}

/// Whether one of these bytes is protected.
fn protects(guard: &[u32], bytes: &Range<usize>) -> bool {
    guards::ranges(guard).any(|range| meet(&range, bytes))
}

/// Whether a range ends right before these bytes, or begins right behind them.
fn touches(guard: &[u32], bytes: &Range<usize>) -> bool {
    guards::ranges(guard)
        .any(|range| !range.is_empty() && (range.end == bytes.start || range.start == bytes.end))
}

/// The library's answer with a guard beside its plain one: the same, but for 70, and for 71 where
/// the plain call accepts.
fn beside_plain(guarded: Answer, plain: Answer) -> Result<(), String> {
    let fits = match guarded.0 {
        UNSOUND => true,
        PROTECTED => plain.0 == 0,
        _ => guarded == plain,
    };
    match fits {
        true => Ok(()),
        false => Err(format!("with the guard {guarded:?}, without it {plain:?}")),
    }
}
