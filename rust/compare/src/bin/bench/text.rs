//! A season's list assembled from text, without names and with them, and written as text; packets written as text.

use super::parts::{season, RECORDS};
use super::{commands, Case};
use head::packet_text::exports::packet_text;
use model::area::POINTERS;
use model::packet_text::put_packet_text;
use model::store::Space;
use model::text::{assemble, list_text};
use std::fmt::Write;
use std::hint::black_box;

/// A tenth of the records, to see that time grows with them.
const FEW: u32 = RECORDS / 10;

pub fn cases() -> Vec<Case> {
    let plain = |records| text_of(&season(records));
    let writes = |counts: &[usize]| commands(true, Space::Registers.into(), 0, true, counts);
    vec![
        assembled("assemble", "no names", &plain(RECORDS)),
        assembled("assemblefew", "no names", &plain(FEW)),
        assembled("assemblenames", "1000 names used alike", &named(1_000, 4)),
        assembled("assemblenames10", "10 names used alike", &named(10, 4)),
        assembled(
            "assemblepadded",
            "10 names used alike, each address of 10000 digits",
            &named(10, 10_000),
        ),
        written("listtext", &season(RECORDS)),
        written("listtextfew", &season(FEW)),
        packet_written(
            "packettext",
            "365 writes of 4 bytes",
            &writes(&[127, 127, 111]),
        ),
        packet_written(
            "packettextsmall",
            "184 commands of one 4-byte write",
            &writes(&[1; 184]),
        ),
    ]
}

/// The list as the implementation writes it.
fn text_of(list: &[u8]) -> Vec<u8> {
    let mut text = vec![0; 4 * list.len()];
    let written = list_text(list, &mut text).expect("a good list");
    text.truncate(written.bytes);
    text
}

/// Names of registers, their addresses with so many digits, and then writes and reads of them in an order that goes to and fro.
fn named(names: u32, digits: usize) -> Vec<u8> {
    let mut text = String::new();
    for k in 0..names {
        writeln!(text, "name lamp.{k:04} registers 0x{:0digits$X}", 4 * k).expect("a string");
    }
    for k in 0..RECORDS {
        let lamp = k * 7_919 % names;
        let line = match k % 30 {
            29 => writeln!(text, "read lamp.{lamp:04}"),
            _ => writeln!(text, "write lamp.{lamp:04} 0x{k:08X}"),
        };
        line.expect("a string");
    }
    text.into_bytes()
}

fn assembled(name: &str, what: &str, text: &[u8]) -> Case {
    let (text, other) = (text.to_vec(), text.to_vec());
    let mut out = vec![0; text.len()];
    let mut other_out = out.clone();
    let list = assemble(&text, &mut out).expect("a good text");
    Case {
        name: name.to_string(),
        what: format!("text of {} records assembled: {what}", list.records),
        bytes: list.bytes,
        library: Box::new(move || {
            let answer = head::assemble(black_box(&text), &mut out);
            assert_eq!(answer.map(|answer| answer.bytes), Ok(list.bytes));
        }),
        model: Box::new(move || {
            let answer = assemble(black_box(&other), &mut other_out);
            assert_eq!(answer, Ok(list));
        }),
    }
}

fn written(name: &str, list: &[u8]) -> Case {
    let (list, other) = (list.to_vec(), list.to_vec());
    let mut out = vec![0; 4 * list.len()];
    let mut other_out = out.clone();
    let text = list_text(&list, &mut out).expect("a good list");
    Case {
        name: name.to_string(),
        what: format!("list of {} written as text", text.lines),
        bytes: text.bytes,
        library: Box::new(move || {
            let answer = head::list_text(black_box(&list), &mut out);
            assert_eq!(answer.map(|answer| answer.bytes), Ok(text.bytes));
        }),
        model: Box::new(move || {
            let answer = list_text(black_box(&other), &mut other_out);
            assert_eq!(answer, Ok(text));
        }),
    }
}

fn packet_written(name: &str, what: &str, packet: &[u8]) -> Case {
    let (packet, other) = (packet.to_vec(), packet.to_vec());
    let mut out = vec![0; 64 * packet.len()];
    let mut other_out = out.clone();
    let bytes = put_packet_text(&packet, &mut [0; POINTERS], &mut out).expect("room for the text");
    Case {
        name: name.to_string(),
        what: format!("packet written as text: {what}"),
        bytes,
        library: Box::new(move || {
            let answer = packet_text(black_box(&packet), &mut [0; POINTERS], &mut out);
            assert_eq!(answer, (0, bytes as u64));
        }),
        model: Box::new(move || {
            let answer = put_packet_text(black_box(&other), &mut [0; POINTERS], &mut other_out);
            assert_eq!(answer, Ok(bytes));
        }),
    }
}
