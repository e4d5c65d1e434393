//! Recorded shows, by order 14 of the change requests.

use model::area::POINTERS;
use model::recording::{judge, Verdict};
use model::store::STORE_BYTES;
use model::Refusal;

/// Writes 0x01020304 to register 0x10.
const WRITE: &[u8] = &[0x81, 0xC2, 0x10, 0x00, 0x04, 0x03, 0x02, 0x01];
/// Reads it.
const READ: &[u8] = &[0x81, 0x42, 0x10, 0x00];
const VALUE: &[u8] = &[0x04, 0x03, 0x02, 0x01];
const REFUSED: &[u8] = &[0x80, 0x02];

fn recording(parts: &[&[u8]]) -> Vec<u8> {
    let part = |part: &&[u8]| {
        let length = (part.len() as u16).to_le_bytes();
        [b"LB", &length[..], part].concat()
    };
    parts.iter().flat_map(part).collect()
}

/// The verdict, and whether the write was run.
fn judged(recording: &[u8]) -> (Verdict, bool) {
    let mut store = vec![0; STORE_BYTES];
    let mut pointers = [0; POINTERS];
    let verdict = judge(recording, &mut store, &mut pointers).expect("a good card");
    let ran = store[0x10..0x14] == *VALUE;
    assert_eq!(pointers[0] >= 0x14, ran);
    (verdict, ran)
}

#[test]
fn yes() {
    assert_eq!(judged(&[]), (Verdict::Yes(0), false));
    let whole = recording(&[WRITE, &[], READ, VALUE, &[], &[]]);
    assert_eq!(judged(&whole), (Verdict::Yes(3), true));
}

#[test]
fn packet_length_or_byte() {
    let refused = recording(&[WRITE, &[], REFUSED, VALUE]);
    assert_eq!(judged(&refused), (Verdict::Packet(1), true));
    let short = recording(&[WRITE, &[], READ, &[9, 9, 9]]);
    assert_eq!(judged(&short), (Verdict::Length(1), true));
    let wrong = recording(&[WRITE, &[], READ, &[4, 3, 9, 9]]);
    assert_eq!(judged(&wrong), (Verdict::Byte(1, 2), true));
    let wrong = recording(&[WRITE, &[0], REFUSED]);
    assert_eq!(judged(&wrong), (Verdict::Length(0), true));
}

#[test]
fn cut_at_every_byte() {
    let whole = recording(&[WRITE, &[], READ, VALUE]);
    let starts = [0, 12, 16, 24, 32];
    for end in 0..whole.len() {
        let part = starts.iter().rposition(|&start| start <= end).unwrap();
        let expected = match end {
            0 => Verdict::Yes(0),
            16 => Verdict::Yes(1),
            _ => Verdict::Cut(part as u64),
        };
        assert_eq!(judged(&whole[..end]), (expected, end >= 12));
    }
}

#[test]
fn unmarked_or_cut() {
    let mut packet = recording(&[WRITE]);
    packet.extend(b"LC");
    assert_eq!(judged(&packet), (Verdict::Unmarked(1), true));
    packet.pop();
    assert_eq!(judged(&packet), (Verdict::Cut(1), true));
    assert_eq!(judged(b"BL"), (Verdict::Unmarked(0), false));
    assert_eq!(judged(b"B"), (Verdict::Cut(0), false));
}

#[test]
fn a_missing_reply_hides_no_refusal() {
    let refused = recording(&[REFUSED]);
    assert_eq!(judged(&refused), (Verdict::Packet(0), false));
}

#[test]
fn a_bad_card_first() {
    let mut pointers = [0; POINTERS];
    pointers[1] = 129;
    let mut store = vec![0; STORE_BYTES];
    let refused = Err(Refusal::whole(1));
    assert_eq!(judge(b"?", &mut store, &mut pointers), refused);
    assert_eq!(judge(b"?", &mut store[1..], &mut [0; POINTERS]), refused);
}
