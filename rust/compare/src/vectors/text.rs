//! Texts that are assembled, and lists that are written as text.

use super::lists::SHORT;
use super::{File, Lent, Room};
use crate::call::{answered, room, Answered};
use crate::{cues, lines};
use model::text::{assemble, list_text, MOST_NAMES};

pub fn some(file: &mut File, count: usize) {
    for _ in 0..count {
        let text = short(|| lines::any(&mut file.rng).text);
        any_room(file, "head_assemble", assembled, &text);
        let list = short(|| cues::any(&mut file.rng));
        any_room(file, "head_list_text", written, &list);
    }
}

/// Texts and lists about the limits of a hundred thousand records and a thousand names.
pub fn long(file: &mut File) {
    for names in [MOST_NAMES, MOST_NAMES + 1] {
        let text = lines::names(&mut file.rng, names).text;
        any_room(file, "head_assemble", assembled, &text);
    }
    let line = b"read 0 4\n";
    call(
        file,
        "head_assemble",
        assembled,
        &line.repeat(100_001),
        600_000,
    );
    let last = [line.repeat(100_000), b"name a 0 4".to_vec()].concat();
    for room in [600_000, 599_999] {
        call(file, "head_assemble", assembled, &last, room);
    }
    let record = b"RD\0\0\x04\0";
    for records in [100_000, 100_001] {
        let list = record.repeat(records);
        call(file, "head_list_text", written, &list, 600_000);
    }
}

fn assembled(text: &[u8], out: &mut [u8]) -> Answered {
    answered(assemble(text, out), |done| (done.bytes, done.records))
}

fn written(list: &[u8], out: &mut [u8]) -> Answered {
    answered(list_text(list, out), |done| (done.bytes, done.lines))
}

/// The first of some bytes that are few.
fn short(mut bytes: impl FnMut() -> Vec<u8>) -> Vec<u8> {
    loop {
        let bytes = bytes();
        if bytes.len() < SHORT {
            return bytes;
        }
    }
}

type Call = fn(&[u8], &mut [u8]) -> Answered;

/// The call with a room that is exact, larger or too small.
fn any_room(file: &mut File, export: &str, of: Call, input: &[u8]) {
    let needed = match of(input, &mut []) {
        (26, needed, _) => needed as usize,
        _ => 0,
    };
    let room = room(&mut file.rng, needed);
    call(file, export, of, input, room);
}

fn call(file: &mut File, export: &str, of: Call, input: &[u8], room: usize) {
    let before = vec![file.rng.byte(); room];
    let mut after = before.clone();
    let (number, bytes, count) = of(input, &mut after);
    let lent = vec![
        Lent::kept(Room::Input, input),
        Lent::changed(Room::Output, &before, &after),
    ];
    file.call(export, number, &[], &[bytes, count], lent);
}
