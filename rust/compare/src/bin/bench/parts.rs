//! A season's list in one call, and fed in parts.

use super::Case;
use compare::cues::List;
use head::parts::Compiler;
use model::packing;
use model::parts::{Parts, ROOM};
use model::store::Space;
use std::hint::black_box;

pub const RECORDS: u32 = 90_000;

pub fn cases() -> Vec<Case> {
    let list = season(RECORDS);
    let mut cases = vec![whole(&list)];
    cases.extend([1, 64, 4_096, 65_536].map(|bytes| fed(&list, bytes)));
    cases
}

/// Blocks of rising writes, each with a status read behind it.
pub fn season(records: u32) -> Vec<u8> {
    let mut list = List::default();
    for k in 0..records {
        match k % 30 {
            29 => list.read(Space::Status, 2 * (k % 5)),
            _ => list.write(Space::Registers, 4 * k % 65_536, k),
        }
    }
    list.bytes().to_vec()
}

fn whole(list: &[u8]) -> Case {
    let list = list.to_vec();
    let mut out = vec![0; 2 * list.len()];
    let compiled = packing::compile(&list, &mut out).expect("a good list");
    let (other, mut other_out) = (list.clone(), out.clone());
    Case {
        name: "season".to_string(),
        what: format!("list of {RECORDS}: in one call"),
        bytes: compiled.bytes,
        library: Box::new(move || {
            let answer = head::compile(black_box(&list), &mut out);
            assert_eq!(answer.map(|answer| answer.bytes), Ok(compiled.bytes));
        }),
        model: Box::new(move || {
            let answer = packing::compile(black_box(&other), &mut other_out);
            assert_eq!(answer, Ok(compiled));
        }),
    }
}

fn fed(list: &[u8], bytes: usize) -> Case {
    let (list, mut room) = (list.to_vec(), [0; ROOM]);
    let written = feed_model(&list, bytes, &mut room);
    let (other, mut other_room) = (list.clone(), room);
    Case {
        name: format!("season{bytes}"),
        what: format!("list of {RECORDS}: in parts of {bytes}"),
        bytes: written,
        library: Box::new(move || {
            let output = feed_library(black_box(&list), bytes, &mut room);
            assert_eq!(output, written);
        }),
        model: Box::new(move || {
            let output = feed_model(black_box(&other), bytes, &mut other_room);
            assert_eq!(output, written);
        }),
    }
}

fn feed_library(list: &[u8], bytes: usize, room: &mut [u8]) -> usize {
    let mut compiler = Compiler::new();
    feed(list, bytes, |part, last| {
        let answer = compiler.part(part, last, room);
        (answer.taken, answer.written.expect("a good list"))
    })
}

fn feed_model(list: &[u8], bytes: usize, room: &mut [u8]) -> usize {
    let mut parts = Parts::default();
    feed(list, bytes, |part, last| {
        let answer = parts.call(part, last, room);
        (answer.taken, answer.written.expect("a good list"))
    })
}

/// Feeds a list in parts of so many bytes by a call that answers the bytes taken and written.
/// Answers all bytes written.
fn feed(list: &[u8], bytes: usize, mut call: impl FnMut(&[u8], bool) -> (usize, usize)) -> usize {
    let (mut start, mut output) = (0, 0);
    loop {
        let end = list.len().min(start + bytes);
        let last = end == list.len();
        let (taken, written) = call(&list[start..end], last);
        start += taken;
        output += written;
        if last && written == 0 {
            return output;
        }
    }
}
