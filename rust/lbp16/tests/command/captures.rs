//! The captures of `tests/captures`, judged from the store that the card began with.

use crate::common::{file, run};
use head::{Refusal, Verdict, POINTERS};
use std::fs;
use std::process::Command;

/// A recording and its packets' frames.
fn read(capture: &[u8]) -> (Vec<u8>, Vec<u32>) {
    let (mut out, mut frames) = (vec![0; capture.len()], vec![0; capture.len() / 16]);
    let captured = head::capture(capture, &mut out, &mut frames).expect("a good capture");
    out.truncate(captured.bytes);
    frames.truncate(captured.packets);
    (out, frames)
}

/// The store that a HostMot2 card begins with.
fn store(name: &str) -> Vec<u8> {
    let path = file(name);
    let mut command = Command::new(env!("CARGO_BIN_EXE_lbp16"));
    let command = command
        .args(["serve", "--hostmot2", "--save-start"])
        .arg(&path);
    assert!(run(command).status.success());
    fs::read(path).expect("the store")
}

#[test]
fn flash_is_refused() {
    let capture = include_bytes!("../../../../tests/captures/mesaflash-readhmid.pcap");
    let (recording, frames) = read(capture);
    assert_eq!(frames.len(), 191);
    let (mut store, mut pointers) = (store("captures-flash"), [0; POINTERS]);
    let verdict = head::judge(&recording, &mut store, &mut pointers);
    assert_eq!(verdict, Ok(Verdict::Packet(2)));
    assert_eq!(frames[2], 5);
    // In the state that the card then has.
    let refused = head::check(&[0x01, 0x4E, 0x08, 0x00], &store, &pointers);
    let five = Refusal {
        number: 5,
        place: 0,
    };
    assert_eq!(refused, Err(five));
}

#[test]
fn all_the_rest_is_accepted() {
    let capture = include_bytes!("../../../../tests/captures/mesaflash-188.pcap");
    let (recording, frames) = read(capture);
    assert_eq!(frames.len(), 188);
    let (mut store, mut pointers) = (store("captures-rest"), [0; POINTERS]);
    let verdict = head::judge(&recording, &mut store, &mut pointers);
    assert_eq!(verdict, Ok(Verdict::Yes(188)));
    // The register that the tool wrote.
    assert_eq!(store[0x1004..0x1008], 0x1234_5678_u32.to_le_bytes());
}
