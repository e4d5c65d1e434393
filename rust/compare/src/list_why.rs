//! Compares what is wrong with cue lists, with the compiler's own refusal too.

use crate::rng::Rng;
use crate::tally::Tally;
use crate::{cues, hex, salvage, same_answer, same_count, same_input, Outcome};
use head::list_why::exports;
use model::list_why::list_why;

const ENDINGS: [u32; 5] = [0, 21, 22, 23, 24];

const SITUATIONS: [&str; 14] = [
    EMPTY,
    LATER,
    UNMARKED,
    FIRST_UNMARKED,
    CUT,
    ONE_BYTE,
    "23: no such space",
    "23: misaligned",
    "23: past the end",
    "23: read-only",
    "23: the unlock cell",
    "23: the packet count",
    "24: spare byte not 0",
    "24: value too wide",
];
const EMPTY: &str = "empty list";
const LATER: &str = "a hundred records before the one at fault";
const UNMARKED: &str = "22: mark unknown, behind other records";
const FIRST_UNMARKED: &str = "22: mark unknown, in the first record";
const CUT: &str = "22: record cut behind its mark";
const ONE_BYTE: &str = "22: one byte left";

/// Compares `count` lists, and those about the limit of a hundred thousand records.
pub fn compare(seed: u64, count: u64) -> Outcome {
    let mut rng = Rng::new(seed);
    let mut tally = Tally::new("list_why", &ENDINGS, &SITUATIONS);
    for case in 0..count {
        let list = match rng.coin() {
            true => cues::any(&mut rng),
            false => salvage::list(&mut rng),
        };
        one(&mut tally, &list)
            .map_err(|what| format!("list {case}: {what}\nlist of {}", hex(&list)))?;
    }
    for variant in 0..cues::LONG_LISTS {
        let list = cues::long(&mut rng, variant);
        one(&mut tally, &list).map_err(|what| format!("long list {variant}: {what}"))?;
    }
    Ok(vec![tally])
}

fn one(tally: &mut Tally, list: &[u8]) -> Result<(), String> {
    let lent = list.to_vec();
    let (number, place, offset, cause) = exports::list_why(&lent);
    let (refused, expected) = match list_why(list) {
        None => ((0, 0), (0, 0)),
        Some(fault) => (
            (fault.refusal.number, fault.refusal.place),
            (fault.offset, fault.cause),
        ),
    };
    same_answer((number, place), refused)?;
    same_count("bytes before it", offset, expected.0)?;
    same_count("as its cause", cause, expected.1)?;
    same_input(&lent, list)?;
    beside_compiler(list, (number, place))?;
    if number != 0 {
        front_accepted(&list[..offset as usize], place)?;
    }
    met(tally, list, number, place, offset, cause);
    Ok(())
}

/// The compiler refuses the list alike, or with 26, or not at all.
fn beside_compiler(list: &[u8], answer: (u32, u64)) -> Result<(), String> {
    let expected = match head::exports::compile(list, &mut []) {
        (0 | 26, ..) => (0, 0),
        (number, place, _) => (number, place),
    };
    same_answer(answer, expected).map_err(|what| format!("beside the compiler: {what}"))
}

/// The bytes before the record at fault must be a list of so many records that nothing is wrong with.
fn front_accepted(front: &[u8], place: u64) -> Result<(), String> {
    let records = model::cue::Records::new(front);
    let good = records.map_while(Result::ok).count() as u64;
    match head::list_why(front) {
        None if good == place => Ok(()),
        None => Err(format!("{good} records before the one at {place}")),
        Some(fault) => Err(format!("of the records before it: {}", fault.refusal)),
    }
}

fn met(tally: &mut Tally, list: &[u8], number: u32, place: u64, offset: u64, cause: u64) {
    tally.ending(number);
    let left = list.len() - offset as usize;
    tally.situation(EMPTY, list.is_empty());
    tally.situation(LATER, place >= 100);
    tally.situation(UNMARKED, number == 22 && cause == 1 && place > 0);
    tally.situation(FIRST_UNMARKED, number == 22 && cause == 1 && place == 0);
    tally.situation(CUT, number == 22 && cause == 2 && left > 1);
    tally.situation(ONE_BYTE, number == 22 && left == 1);
    for (at, name) in SITUATIONS.iter().skip(6).enumerate() {
        let (of, which) = if at < 6 { (23, at + 1) } else { (24, at - 5) };
        tally.situation(name, number == of && cause == which as u64);
    }
}
