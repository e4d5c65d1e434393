//! Compares the test of two lists for independence, and runs independent ones in both orders.

use crate::cues::{self, List};
use crate::lists::packets;
use crate::rng::Rng;
use crate::shows::{compiled, run_all};
use crate::tally::Tally;
use crate::{hex, packet_count, same_input, Outcome};
use head::independent::exports;
use model::cue::{Record, Records};
use model::independent::{independent, CLASH};
use model::store::{Space, STORE_BYTES};
use std::collections::HashSet;

const ENDINGS: [u32; 6] = [0, 21, 22, 23, 24, CLASH];

const SITUATIONS: [&str; 11] = [
    ONE_EMPTY,
    BOTH_READ,
    OTHER_SPACE,
    WRITE_WRITE,
    WRITE_READ,
    READ_WRITE,
    LATE_CLASH,
    FIRST_REFUSED,
    SECOND_REFUSED,
    REFUSED_AND_CLASH,
    SEVERAL,
];
const ONE_EMPTY: &str = "independent, one of them empty";
const BOTH_READ: &str = "independent, a cell that both read";
const OTHER_SPACE: &str = "independent, the same address in two spaces, written";
const WRITE_WRITE: &str = "clash in a cell that both write";
const WRITE_READ: &str = "clash in a cell that the first only writes and the second reads";
const READ_WRITE: &str = "clash in a cell that the first only reads and the second writes";
const LATE_CLASH: &str = "clash past the second list's first record";
const FIRST_REFUSED: &str = "both refused, the first named";
const SECOND_REFUSED: &str = "second list refused";
const REFUSED_AND_CLASH: &str = "second list refused behind a record that would clash";
const SEVERAL: &str = "independent, each of several packets";

/// Compares `count` pairs, and two long lists besides.
pub fn compare(seed: u64, count: u64) -> Outcome {
    let mut part = Part {
        rng: Rng::new(seed),
        tally: Tally::new("independent", &ENDINGS, &SITUATIONS),
    };
    for case in 0..count {
        let [first, second] = pair(&mut part.rng);
        part.case(&first, &second).map_err(|what| {
            let (first, second) = (hex(&first), hex(&second));
            format!("pair {case}: {what}\nfirst list of {first}\nsecond list of {second}")
        })?;
    }
    for variant in [1, 0] {
        let long = cues::long(&mut part.rng, variant);
        part.case(&long, b"")
            .and_then(|()| part.case(b"", &long))
            .map_err(|what| format!("long list: {what}"))?;
    }
    Ok(vec![part.tally])
}

struct Part {
    rng: Rng,
    tally: Tally,
}

impl Part {
    fn case(&mut self, first: &[u8], second: &[u8]) -> Result<(), String> {
        let lent = [first.to_vec(), second.to_vec()];
        let answer = exports::independent(&lent[0], &lent[1]);
        let result = independent(first, second);
        let expected = match result {
            Ok(()) => (0, 0, 0),
            Err(clash) => (clash.refusal.number, clash.list, clash.refusal.place),
        };
        if answer != expected {
            return Err(format!("the library: {answer:?}; expected: {expected:?}"));
        }
        same_input(&lent[0], first)?;
        same_input(&lent[1], second)?;
        let (number, list, place) = expected;
        self.tally.ending(number);
        match number {
            0 => self.either_order(first, second),
            CLASH => {
                self.count_clash(first, second, place as usize);
                Ok(())
            }
            _ => {
                let tally = &mut self.tally;
                let bad = |list| Records::new(list).any(|record| record.is_err());
                tally.situation(FIRST_REFUSED, list == 0 && bad(second));
                tally.situation(SECOND_REFUSED, list == 1);
                let clashing = list == 1 && clash_before(first, second);
                tally.situation(REFUSED_AND_CLASH, clashing);
                Ok(())
            }
        }
    }

    /// Compiles the lists apart and runs them in both orders from the same state.
    fn either_order(&mut self, first: &[u8], second: &[u8]) -> Result<(), String> {
        let mut start = vec![0; STORE_BYTES];
        self.rng.fill(&mut start);
        let outputs = [compiled(first)?, compiled(second)?];
        let [first_packets, second_packets] = [packets(&outputs[0])?, packets(&outputs[1])?];
        let [first_values, second_values] = [first, second].map(|list| values(list, &start));

        let mut one = start.clone();
        let order = [&first_packets[..], &second_packets].concat();
        let replies = run_all(&mut self.rng, &order, &mut one)?;
        let expected = [&first_values[..], &second_values].concat();
        if replies != expected {
            return Err(format!("first then second: replies of {}", hex(&replies)));
        }
        let mut other = start.clone();
        let order = [&second_packets[..], &first_packets].concat();
        let replies = run_all(&mut self.rng, &order, &mut other)?;
        let expected = [&second_values[..], &first_values].concat();
        if replies != expected {
            return Err(format!("second then first: replies of {}", hex(&replies)));
        }
        if let Some(at) = (0..STORE_BYTES).find(|&at| one[at] != other[at]) {
            let (one, other) = (one[at], other[at]);
            return Err(format!("store at {at}: {one:02X} or {other:02X}"));
        }
        let risen = packet_count(&one).wrapping_sub(packet_count(&start));
        if risen != order.len() as u16 {
            return Err(format!("{} packets, counted {risen}", order.len()));
        }

        let tally = &mut self.tally;
        tally.situation(ONE_EMPTY, first.is_empty() || second.is_empty());
        let several = first_packets.len() > 1 && second_packets.len() > 1;
        tally.situation(SEVERAL, several);
        let [first, second] = [first, second].map(Cells::new);
        tally.situation(BOTH_READ, first.share(&second));
        tally.situation(OTHER_SPACE, first.near(&second));
        Ok(())
    }

    fn count_clash(&mut self, first: &[u8], second: &[u8], place: usize) {
        let record = Records::new(second).nth(place).expect("the record");
        let record = record.expect("a good list");
        let write = record.is_write();
        let [read, written] = Cells::new(first).named(&record);
        let tally = &mut self.tally;
        tally.situation(WRITE_WRITE, write && written);
        tally.situation(WRITE_READ, !write && written && !read);
        tally.situation(READ_WRITE, write && read && !written);
        tally.situation(LATE_CLASH, place > 0);
    }
}

/// What a list's records read, each done alone.
fn values(list: &[u8], start: &[u8]) -> Vec<u8> {
    let mut store = start.to_vec();
    let mut values = Vec::new();
    for record in Records::new(list).map_while(Result::ok) {
        record.run(&mut store, &mut values);
    }
    values
}

/// The cells that a list reads, and those that it writes.
struct Cells([HashSet<(Space, u32)>; 2]);

impl Cells {
    fn new(list: &[u8]) -> Cells {
        let mut cells = Cells([HashSet::new(), HashSet::new()]);
        for record in Records::new(list).map_while(Result::ok) {
            let which = usize::from(record.is_write());
            cells.0[which].insert((record.space, record.address));
        }
        cells
    }

    /// Whether a record's cell is read, and whether it is written.
    fn named(&self, record: &Record) -> [bool; 2] {
        let cell = (record.space, record.address);
        [0, 1].map(|which| self.0[which].contains(&cell))
    }

    /// Whether both read a cell.
    fn share(&self, other: &Cells) -> bool {
        !self.0[0].is_disjoint(&other.0[0])
    }

    /// Whether one writes an address that the other names in another space.
    fn near(&self, other: &Cells) -> bool {
        let near = |written: &HashSet<(Space, u32)>, other: &Cells| {
            let elsewhere = |&(space, address): &(Space, u32)| {
                let others = Space::ALL.iter().filter(|&&other| other != space);
                let mut cells = others.map(|&other| (other, address));
                cells.any(|cell| other.0.iter().any(|named| named.contains(&cell)))
            };
            written.iter().any(elsewhere)
        };
        near(&self.0[1], other) || near(&other.0[1], self)
    }
}

/// Whether the good records of a refused list already clash with another's.
fn clash_before(first: &[u8], second: &[u8]) -> bool {
    let cells = Cells::new(first);
    let mut good = Records::new(second).map_while(Result::ok);
    good.any(|record| {
        let [read, written] = cells.named(&record);
        written || read && record.is_write()
    })
}

/// Two lists: apart, apart but for one record, any two good ones, or with a bad one among them.
pub(crate) fn pair(rng: &mut Rng) -> [Vec<u8>; 2] {
    let bytes = |list: List| list.bytes().to_vec();
    match rng.below(10) {
        0 => [bytes(cues::good(rng)), bytes(cues::good(rng))],
        1 => [cues::any(rng), cues::any(rng)],
        2 => [bytes(cues::good(rng)), cues::any(rng)],
        _ => {
            let mut lists = apart(rng);
            if rng.coin() {
                clash(rng, &mut lists);
            }
            if rng.one_in(8) {
                let which = rng.below(2);
                lists[which].extend(b"RD");
            }
            lists
        }
    }
}

/// Cells of each space by turns: a third for the first list, a third for the second, and a third
/// that both may read.
fn apart(rng: &mut Rng) -> [Vec<u8>; 2] {
    let most = rng.pick(&[0, 3, 12, 40, 700]);
    let block = rng.coin();
    [0, 1].map(|own| {
        let mut list = List::default();
        for _ in 0..rng.between(0, most) {
            let write = rng.coin();
            let space = rng.pick(&[
                Space::Registers,
                Space::Registers,
                Space::Eeprom,
                Space::Status,
                Space::Information,
            ]);
            if block && space == Space::Registers {
                rising(rng, &mut list, own, write);
                continue;
            }
            let third = if write || rng.coin() { own } else { 2 };
            let cells = (space.bytes() / space.element()).min(48) as usize;
            let cell = 3 * rng.below(cells / 3) as u32 + third;
            access(rng, &mut list, space, cell * space.element(), write);
        }
        list.bytes().to_vec()
    })
}

/// Neighbouring registers, the first list's from 0x1000 and the second's from 0x2000.
fn rising(rng: &mut Rng, list: &mut List, own: u32, write: bool) {
    let first = 0x1000 * (own + 1) + 4 * rng.below(64) as u32;
    for k in 0..rng.between(1, 20) as u32 {
        access(rng, list, Space::Registers, first + 4 * k, write);
    }
}

/// Adds an access, if a list may make it.
fn access(rng: &mut Rng, list: &mut List, space: Space, address: u32, write: bool) {
    if space.kept_from_lists(address) || write && space.read_only_at(address) {
        return;
    }
    match write {
        true => list.write(space, address, rng.word() & 0xFFFF),
        false => list.read(space, address),
    }
}

/// Puts one record that clashes into one of the lists.
fn clash(rng: &mut Rng, lists: &mut [Vec<u8>; 2]) {
    let from = rng.below(2);
    let records = Records::new(&lists[from]).map_while(Result::ok);
    let records: Vec<Record> = records.collect();
    if records.is_empty() {
        return;
    }
    let other = rng.pick(&records);
    let mut record = List::default();
    let write = !other.is_write() || rng.coin();
    access(rng, &mut record, other.space, other.address, write);
    let target = &mut lists[1 - from];
    let mut starts = vec![0];
    for record in Records::new(target).map_while(Result::ok) {
        let bytes = if record.is_write() { 10 } else { 6 };
        starts.push(starts[starts.len() - 1] + bytes);
    }
    let at = rng.pick(&starts);
    target.splice(at..at, record.bytes().iter().copied());
}
