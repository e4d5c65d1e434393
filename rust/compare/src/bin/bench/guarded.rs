//! Packets run with guards of some ranges, to be held beside the plain run of the same packets.

use super::{card, commands, Case};
use model::guard;
use model::store::Space;
use std::hint::black_box;

/// How many ranges the guards have.
const RANGES: [usize; 2] = [4, 64];

pub fn cases() -> Vec<Case> {
    let packet =
        |write, counts: &[usize]| commands(write, Space::Registers.into(), 0, true, counts);
    let packets = [
        (
            "reads368",
            "368 reads of 4 bytes",
            1_472,
            packet(false, &[127, 127, 114]),
        ),
        (
            "writes365",
            "365 writes of 4 bytes",
            1_460,
            packet(true, &[127, 127, 111]),
        ),
        (
            "small368",
            "368 commands of one 4-byte read",
            1_472,
            packet(false, &[1; 368]),
        ),
        (
            "small184",
            "184 commands of one 4-byte write",
            736,
            packet(true, &[1; 184]),
        ),
    ];
    let mut cases = Vec::new();
    for (name, what, bytes, packet) in packets {
        cases.extend(RANGES.map(|ranges| case(name, what, bytes, &packet, ranges)));
    }
    cases
}

/// Registers that no packet here writes, none beside another.
fn guard_of(ranges: usize) -> Vec<u32> {
    (0..ranges as u32)
        .flat_map(|k| [0x8000 + 8 * k, 4])
        .collect()
}

fn case(name: &str, what: &str, bytes: usize, packet: &[u8], ranges: usize) -> Case {
    let (packet, other) = (packet.to_vec(), packet.to_vec());
    let (guard, other_guard) = (guard_of(ranges), guard_of(ranges));
    let (mut store, mut pointers, mut reply) = card();
    let library = move || {
        let packet = black_box(&packet);
        let answer = head::guarded_run(packet, &mut store, &mut pointers, &mut reply, &guard);
        assert!(answer.is_ok());
    };
    let (mut store, mut pointers, mut reply) = card();
    let model = move || {
        let packet = black_box(&other);
        let answer = guard::run(packet, &mut store, &mut pointers, &mut reply, &other_guard);
        assert!(answer.is_ok());
    };
    Case {
        name: format!("{name}guard{ranges}"),
        what: format!("{what}, guard of {ranges} ranges"),
        bytes,
        library: Box::new(library),
        model: Box::new(model),
    }
}
