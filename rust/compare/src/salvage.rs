//! Compares the salvage of damaged cue lists, and compiles what was saved.

use crate::cues;
use crate::lent::Lent;
use crate::rng::Rng;
use crate::tally::Tally;
use crate::{hex, numbers, same_answer, same_input, Answer, Outcome};
use head::salvage::exports;
use model::cue::first;
use model::salvage::salvage;

const ENDINGS: [u32; 3] = [0, 26, 27];

const SITUATIONS: [&str; 12] = [
    EMPTY,
    UNCHANGED,
    NOTHING_KEPT,
    AT_THE_START,
    AT_THE_END,
    SEVERAL,
    INSIDE,
    SHORT_BY_ONE,
    EXACT_LOG,
    ODD_LOG,
    SHORT_LOG,
    TOO_MANY,
];
const EMPTY: &str = "empty list";
const UNCHANGED: &str = "list of several records that comes out unchanged";
const NOTHING_KEPT: &str = "list of which nothing is kept";
const AT_THE_START: &str = "stretch at the list's start, something kept";
const AT_THE_END: &str = "stretch at the list's end, something kept";
const SEVERAL: &str = "three stretches or more";
const INSIDE: &str = "record kept that stands inside a bad one";
const SHORT_BY_ONE: &str = "output room too small by one byte";
const EXACT_LOG: &str = "log that fills its room";
const ODD_LOG: &str = "log room with half an entry over";
const SHORT_LOG: &str = "log room for one entry too few";
const TOO_MANY: &str = "result of more than 100,000 records, refused with 21";

/// Compares `count` lists, and one that keeps too many records besides.
pub fn compare(seed: u64, count: u64) -> Outcome {
    let mut part = Part {
        rng: Rng::new(seed),
        tally: Tally::new("salvage", &ENDINGS, &SITUATIONS),
    };
    for case in 0..count {
        let list = list(&mut part.rng);
        let result = part.case(&list);
        result.map_err(|what| format!("list {case}: {what}\nlist of {}", hex(&list)))?;
    }
    let list = too_many(&mut part.rng);
    let result = part.case_in(&list, list.len(), 100);
    result.map_err(|what| format!("list of too many records: {what}"))?;
    Ok(vec![part.tally])
}

struct Part {
    rng: Rng,
    tally: Tally,
}

impl Part {
    fn case(&mut self, list: &[u8]) -> Result<(), String> {
        let entries = entries_needed(list);
        let rng = &mut self.rng;
        let room = match rng.below(10) {
            0 => list.len().saturating_sub(1),
            1 => rng.below(list.len() + 1),
            2..=5 => list.len(),
            _ => list.len() + rng.between(1, 40),
        };
        let log_room = match rng.below(8) {
            0 => (2 * entries).saturating_sub(1),
            1 => rng.below(2 * entries + 1),
            2 => 2 * entries + 1,
            3..=5 => 2 * entries,
            _ => 2 * entries + rng.between(1, 20),
        };
        self.case_in(list, room, log_room)
    }

    /// Salvages the list to rooms of these lengths on both sides and compares.
    fn case_in(&mut self, list: &[u8], room: usize, log_room: usize) -> Result<(), String> {
        let rng = &mut self.rng;
        let mut out = Lent::new("output", room, 0);
        out.change(|out| rng.fill(out));
        let mut log = Lent::new("log", log_room, 0);
        log.change(|log| log.iter_mut().for_each(|number| *number = rng.number()));

        let (library_out, model_out) = out.lend(room);
        let (library_log, model_log) = log.lend(log_room);
        let result = salvage(list, model_out, model_log);
        let expected = numbers(&result, |saved| saved.bytes as u64);
        let expected_entries = result.map_or(0, |saved| saved.entries as u64);
        let lent = list.to_vec();
        let (number, bytes, entries) = exports::salvage(&lent, library_out, library_log);
        let refused = expected.0 != 0;
        same_answer((number, bytes), expected)
            .and_then(|()| match entries == expected_entries {
                true => Ok(()),
                false => Err(format!("{entries} entries, expected {expected_entries}")),
            })
            .and_then(|()| same_input(&lent, list))
            .and_then(|()| out.compare(refused))
            .and_then(|()| log.compare(refused))
            .map_err(|what| format!("{what}\nrooms of {room} bytes, {log_room} numbers"))?;

        self.count_rooms(list, room, log_room, expected);
        if let Ok(saved) = result {
            let kept = &out.model()[..saved.bytes];
            let (entries, _) = log.model()[..2 * saved.entries].as_chunks();
            covered(list, kept, entries)?;
            let too_many = playable(kept)?;
            self.count(list, kept, entries, too_many);
        }
        Ok(())
    }

    fn count_rooms(&mut self, list: &[u8], room: usize, log_room: usize, (number, place): Answer) {
        self.tally.ending(number);
        let short = number == 26 && room + 1 == list.len();
        self.tally.situation(SHORT_BY_ONE, short);
        let short = number == 27 && (log_room / 2) as u64 + 1 == place;
        self.tally.situation(SHORT_LOG, short);
        let entries = entries_needed(list);
        let accepted = number == 0 && entries > 0;
        let exact = accepted && log_room == 2 * entries;
        self.tally.situation(EXACT_LOG, exact);
        let odd = accepted && log_room == 2 * entries + 1;
        self.tally.situation(ODD_LOG, odd);
    }

    fn count(&mut self, list: &[u8], kept: &[u8], entries: &[[u64; 2]], too_many: bool) {
        let tally = &mut self.tally;
        tally.situation(EMPTY, list.is_empty());
        tally.situation(UNCHANGED, kept == list && list.len() > 10);
        tally.situation(NOTHING_KEPT, kept.is_empty() && !list.is_empty());
        let at_start = entries.iter().any(|[start, _]| *start == 0);
        let to_end = |[start, length]: &[u64; 2]| start + length == list.len() as u64;
        tally.situation(AT_THE_START, at_start && !kept.is_empty());
        tally.situation(AT_THE_END, entries.iter().any(to_end) && !kept.is_empty());
        tally.situation(SEVERAL, entries.len() > 2);
        let inside = |[start, length]: &[u64; 2]| {
            let from = *start as usize;
            let mark = list[from..].starts_with(b"WR");
            mark && *length < 10 && from + *length as usize + 6 <= list.len()
        };
        tally.situation(INSIDE, entries.iter().any(inside));
        tally.situation(TOO_MANY, too_many);
    }
}

fn entries_needed(list: &[u8]) -> usize {
    let mut out = vec![0; list.len()];
    match salvage(list, &mut out, &mut []) {
        Ok(saved) => saved.entries,
        Err(refusal) => refusal.place as usize,
    }
}

/// Kept records and skipped stretches must cover the list once, in order, and no two stretches
/// touch.
fn covered(list: &[u8], mut kept: &[u8], entries: &[[u64; 2]]) -> Result<(), String> {
    let mut at = 0;
    let mut take_kept = |at: &mut usize, end: usize| {
        let (part, rest) = kept.split_at_checked(end - *at).ok_or("too little kept")?;
        kept = rest;
        let same = part == &list[*at..end];
        *at = end;
        same.then_some(()).ok_or("bytes kept that stand elsewhere")
    };
    for (number, [start, length]) in entries.iter().enumerate() {
        let (start, end) = (*start as usize, (start + length) as usize);
        if start >= end || end > list.len() || start < at || start == at && number > 0 {
            return Err(format!("entry {number} is empty, touches or runs back"));
        }
        take_kept(&mut at, start)?;
        at = end;
    }
    take_kept(&mut at, list.len())?;
    match kept.is_empty() {
        true => Ok(()),
        false => Err("more kept than the list has".to_string()),
    }
}

/// What was saved must compile, and stay as it is if salvaged again. Answers whether it has more
/// records than a list may have, which alone may keep it from compiling.
fn playable(kept: &[u8]) -> Result<bool, String> {
    let mut out = vec![0; 4 * kept.len()];
    let too_many = match head::compile(kept, &mut out) {
        Ok(_) => false,
        Err(refusal) if refusal.number == 21 => true,
        Err(refusal) => return Err(format!("the result doesn't compile: {refusal}")),
    };
    let mut again = vec![0; kept.len()];
    let saved = head::salvage(kept, &mut again, &mut []).map_err(|refusal| refusal.to_string())?;
    match saved.bytes == kept.len() && saved.entries == 0 && again == kept {
        true => Ok(too_many),
        false => Err("the result changes if salvaged again".to_string()),
    }
}

/// A list, most of them with damage at several places.
pub(crate) fn list(rng: &mut Rng) -> Vec<u8> {
    let mut list = match rng.coin() {
        true => cues::any(rng),
        false => cues::good(rng).bytes().to_vec(),
    };
    for _ in 0..rng.pick(&[0, 1, 1, 2, 3, 5, 9]) {
        damage(rng, &mut list);
    }
    list
}

/// Puts bytes in, takes some out or changes one.
fn damage(rng: &mut Rng, list: &mut Vec<u8>) {
    let at = rng.below(list.len() + 1);
    let end = list.len().min(at + rng.between(1, 12));
    match rng.below(8) {
        0 => drop(list.drain(at..end)),
        1 if at < list.len() => list[at] = rng.byte(),
        2 if at < list.len() => list[at] ^= 1 << rng.below(8),
        3 => list.insert(at, rng.pick(b"RWD\0")),
        4 => {
            let mark = rng.pick(&[*b"RD", *b"WR"]);
            list.splice(at..at, mark);
        }
        5 => {
            // A write with a misaligned address, in whose last six bytes a whole read stands.
            let read = [b'R', b'D', 0, 0, 4 * rng.below(64) as u8, 0];
            let write = [b"WR\0\0".as_slice(), &read].concat();
            let at = record_before(list, at);
            list.splice(at..at, write);
        }
        6 => {
            let at = record_before(list, at);
            list.splice(at..at, rng.pick(&[*b"WR\x02\x00", *b"RD\x00\x01"]));
        }
        _ => {
            let some: Vec<u8> = (at..end).map(|_| rng.byte()).collect();
            list.splice(at..end, some);
        }
    }
}

/// Where a record starts at or before a place, if there is one.
fn record_before(list: &[u8], place: usize) -> usize {
    let starts = |at: &usize| first(&list[*at..]).is_ok();
    (0..=place).rev().find(starts).unwrap_or(place)
}

/// More good records than a list may have, with a stretch among them.
fn too_many(rng: &mut Rng) -> Vec<u8> {
    let mut list: Vec<u8> = Vec::new();
    let damaged = rng.below(100_001);
    for record in 0..100_001 {
        if record == damaged {
            list.extend(b"WR\0");
        }
        list.extend([b'R', b'D', 0, 0, 4 * rng.below(64) as u8, 0]);
    }
    list
}
