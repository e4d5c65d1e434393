//! Cue lists: compiled, tightened, checked, held against guards, what is wrong with them, salvaged, in pairs and in parts.
//!
//! Two things are the library's own, as it was made for this machine: the planner's output, which the implementation's
//! checker must accept, since the planner is free in its method; and the state between parts, whose bytes only the library
//! knows.

use super::{interlock, File, Lent, Room};
use crate::proposals::CHANGES;
use crate::{cues, independent, numbers, salvage};
use head::parts::{exports, STATE_BYTES};
use model::packing::compile;
use model::parts::{Parts, ROOM};
use model::{tight, Refusal};

/// The longest list that is often taken.
pub(super) const SHORT: usize = 2_000;

pub fn some(file: &mut File, count: usize) -> Result<(), String> {
    for _ in 0..count {
        let list = list(file);
        compiled(file, &list);
        tightened(file, &list)?;
        checked(file, &list);
        interlock::vetted(file, &list);
        wrong(file, &list);
        pair(file, &list, &[]);
        salvaged(file);
        let [first, second] = independent::pair(&mut file.rng);
        if first.len() + second.len() < SHORT {
            pair(file, &first, &second);
        }
    }
    for _ in 0..count / 3 {
        let list = list(file);
        in_parts(file, &list)?;
    }
    Ok(())
}

/// Lists about the limit of a hundred thousand records.
pub fn long(file: &mut File) -> Result<(), String> {
    let record = [b'R', b'D', 0, 0, 4, 0];
    for records in [100_000, 100_001] {
        let list = record.repeat(records);
        let mut rule = vec![0; 4 * list.len()];
        let bytes = compile(&list, &mut rule).map_or(100, |compiled| compiled.bytes);
        compile_to(file, &list, bytes);
        tighten_to(file, &list, bytes)?;
        check(file, &list, &rule[..bytes]);
        pair(file, &list, &record);
        pair(file, &record, &list);
        interlock::vet(file, &list, &[0, 8]);
        wrong(file, &list);
    }
    long_in_parts(file, &record)
}

fn list(file: &mut File) -> Vec<u8> {
    loop {
        let list = cues::any(&mut file.rng);
        if list.len() < SHORT || file.rng.one_in(40) {
            return list;
        }
    }
}

/// The bytes that the packing rule needs for a good list.
fn needed(list: &[u8]) -> usize {
    match compile(list, &mut []) {
        Err(refusal) if refusal.number == 26 => refusal.place as usize,
        _ => 0,
    }
}

fn filled(file: &mut File, length: usize) -> Vec<u8> {
    let mut bytes = vec![0; length];
    file.rng.fill(&mut bytes[..length.min(4_000)]);
    bytes
}

fn compiled(file: &mut File, list: &[u8]) {
    let needed = needed(list);
    let room = file
        .rng
        .pick(&[needed, needed, needed + 9, needed.saturating_sub(1)]);
    compile_to(file, list, room);
}

fn compile_to(file: &mut File, list: &[u8], room: usize) {
    let before = filled(file, room);
    let mut after = before.clone();
    let result = compile(list, &mut after);
    let (number, bytes) = numbers(&result, |compiled| compiled.bytes as u64);
    let packets = result.map_or(0, |compiled| compiled.packets);
    let lent = vec![
        Lent::kept(Room::Input, list),
        Lent::changed(Room::Output, &before, &after),
    ];
    file.call("head_compile", number, &[], &[bytes, packets], lent);
}

fn tightened(file: &mut File, list: &[u8]) -> Result<(), String> {
    let needed = needed(list);
    let room = file
        .rng
        .pick(&[needed, needed, needed + 9, needed.saturating_sub(1)]);
    tighten_to(file, list, room)
}

fn tighten_to(file: &mut File, list: &[u8], room: usize) -> Result<(), String> {
    let before = filled(file, room);
    let mut after = before.clone();
    let (number, bytes, packets) = head::tight::exports::tighten(list, &mut after);
    let rule = compile(list, &mut vec![0; room]);
    let good = match rule {
        Err(refusal) => {
            (number, bytes, packets) == (refusal.number, refusal.place, 0) && after == before
        }
        Ok(rule) => {
            let output = after.get(..bytes as usize).unwrap_or(&[]);
            let beyond = after.get(bytes as usize..) == before.get(bytes as usize..);
            number == 0
                && beyond
                && bytes <= rule.bytes as u64
                && tight::check(list, output) == Ok(packets)
        }
    };
    if !good {
        return Err(format!(
            "the library tightens a list wrongly: {number}, {bytes}, {packets}"
        ));
    }
    let lent = vec![
        Lent::kept(Room::Input, list),
        Lent::changed(Room::Output, &before, &after),
    ];
    file.call("head_tighten", number, &[], &[bytes, packets], lent);
    Ok(())
}

/// Outputs by the packing rule and the implementation's planner, and one of them changed.
fn checked(file: &mut File, list: &[u8]) {
    let mut rule = vec![0; needed(list)];
    let mut plan = rule.clone();
    let bytes = tight::tighten(list, &mut plan).map_or(0, |planned| planned.bytes);
    plan.truncate(bytes);
    if compile(list, &mut rule).is_err() {
        rule.clear();
    }
    check(file, list, &rule);
    check(file, list, &plan);
    let change = &CHANGES[file.rng.below(CHANGES.len())];
    if let Some(changed) = change.of(&mut file.rng, &plan) {
        check(file, list, &changed);
    }
}

fn check(file: &mut File, list: &[u8], output: &[u8]) {
    let (number, value) = numbers(&tight::check(list, output), |&packets| packets);
    let lent = vec![
        Lent::kept(Room::Input, list),
        Lent::kept(Room::Second, output),
    ];
    file.call("head_tight_check", number, &[], &[value], lent);
}

fn wrong(file: &mut File, list: &[u8]) {
    let (number, answers) = match model::list_why::list_why(list) {
        None => (0, [0; 3]),
        Some(fault) => (
            fault.refusal.number,
            [fault.refusal.place, fault.offset, fault.cause],
        ),
    };
    let lent = vec![Lent::kept(Room::Input, list)];
    file.call("head_list_why", number, &[], &answers, lent);
}

fn salvaged(file: &mut File) {
    let list = salvage::list(&mut file.rng);
    if list.len() > SHORT {
        return;
    }
    let room = list.len() - usize::from(!list.is_empty() && file.rng.one_in(8));
    let entries = match model::salvage::salvage(&list, &mut vec![0; list.len()], &mut []) {
        Ok(_) => 0,
        Err(refusal) => refusal.place as usize,
    };
    let log_room = 2 * entries - usize::from(entries > 0 && file.rng.one_in(4));
    let before = filled(file, room);
    let log: Vec<u64> = (0..log_room).map(|_| file.rng.number()).collect();
    let (mut after, mut log_after) = (before.clone(), log.clone());
    let result = model::salvage::salvage(&list, &mut after, &mut log_after);
    let (number, bytes) = numbers(&result, |saved| saved.bytes as u64);
    let entries = result.map_or(0, |saved| saved.entries as u64);
    let lent = vec![
        Lent::kept(Room::Input, &list),
        Lent::changed(Room::Output, &before, &after),
        Lent::numbers(Room::Numbers, &log, &log_after),
    ];
    file.call("head_salvage", number, &[], &[bytes, entries], lent);
}

fn pair(file: &mut File, first: &[u8], second: &[u8]) {
    let (number, list, place) = match model::independent::independent(first, second) {
        Ok(()) => (0, 0, 0),
        Err(clash) => (clash.refusal.number, clash.list, clash.refusal.place),
    };
    let lent = vec![
        Lent::kept(Room::Input, first),
        Lent::kept(Room::Second, second),
    ];
    file.call("head_independent", number, &[], &[list, place], lent);
}

/// Both sides of a list that is being fed.
struct Feed {
    model: Parts,
    state: Vec<u8>,
}

impl Feed {
    fn new() -> Feed {
        Feed {
            model: Parts::default(),
            state: vec![0; STATE_BYTES],
        }
    }

    /// One call on both sides, put into the file if there is one. Answers the bytes taken, and those written.
    fn call(
        &mut self,
        file: Option<&mut File>,
        part: &[u8],
        last: u32,
        room: usize,
    ) -> Result<(usize, Result<usize, Refusal>), String> {
        let before = vec![0x77; room];
        let (mut out, mut own) = (before.clone(), before.clone());
        let expected = self.model.call(part, last != 0, &mut out);
        let (number, value) = numbers(&expected.written, |&written| written as u64);
        let old = self.state.clone();
        let answer = exports::part(&mut self.state, part, last, &mut own);
        let taken = expected.taken as u64;
        if answer != (number, taken, value) || own != out {
            return Err(format!("the library compiles a part wrongly: {answer:?}"));
        }
        if let Some(file) = file {
            let lent = vec![
                Lent::changed(Room::State, &old, &self.state),
                Lent::kept(Room::Input, part),
                Lent::changed(Room::Reply, &before, &out),
            ];
            file.call("head_part", number, &[last.into()], &[taken, value], lent);
        }
        Ok((expected.taken, expected.written))
    }
}

/// Feeds a list until nothing more comes out, and once more; now and then with a room or a state that is refused.
fn in_parts(file: &mut File, list: &[u8]) -> Result<(), String> {
    let mut feed = Feed::new();
    let most = file.rng.pick(&[1, 7, 400, list.len().max(1)]);
    // At most so many calls.
    if list.len() > 200 * most {
        return Ok(());
    }
    let mut at = 0;
    loop {
        if file.rng.one_in(20) {
            let (_, written) = feed.call(Some(file), &list[at..], 0, ROOM - 1)?;
            written.expect_err("a room that is too small");
            refused_state(file, &feed.state);
        }
        let end = list.len().min(at + file.rng.between(1, most));
        let last = if end == list.len() {
            file.rng.pick(&[1, 2, u32::MAX])
        } else {
            0
        };
        let (taken, written) = feed.call(Some(file), &list[at..end], last, ROOM)?;
        at += taken;
        match written {
            Ok(0) if last != 0 => break,
            Ok(_) => {}
            Err(_) => break,
        }
    }
    feed.call(Some(file), b"RD", 0, ROOM).map(drop)
}

/// A state of another length, or with a number that is out of its range.
fn refused_state(file: &mut File, state: &[u8]) {
    let mut state = state.to_vec();
    match file.rng.below(3) {
        0 => drop(state.pop()),
        1 => state[0] = file.rng.pick(&[2, 20, 25, 255]),
        _ => state[1] = file.rng.pick(&[10, 255]),
    }
    let out = vec![0x55; ROOM];
    let lent = vec![
        Lent::kept(Room::State, &state),
        Lent::kept(Room::Input, b"RD"),
        Lent::kept(Room::Reply, &out),
    ];
    file.call("head_part", 1, &[0], &[0, 0], lent);
}

/// The byte behind the hundred-thousandth record.
fn long_in_parts(file: &mut File, record: &[u8]) -> Result<(), String> {
    let list = record.repeat(100_000);
    let mut feed = Feed::new();
    let mut at = 0;
    while at < list.len() {
        let (taken, written) = feed.call(None, &list[at..], 0, ROOM)?;
        at += taken;
        written.map_err(|refusal| format!("a good list is refused: {refusal:?}"))?;
    }
    for last in [0, 1] {
        let (_, written) = feed.call(Some(file), record, last, ROOM)?;
        if written.is_ok() {
            return Err("a hundred thousand records and a byte are accepted".to_string());
        }
    }
    Ok(())
}
