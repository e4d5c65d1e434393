//! Lists in parts, by order 4 of the change requests.

use model::packing::compile;
use model::parts::{Answer, Parts, ROOM};
use model::Refusal;

/// Feeds a list in parts of some bytes until nothing more comes out. Answers what came out and
/// how it ended.
fn fed(list: &[u8], bytes: usize) -> (Vec<u8>, Result<(), Refusal>) {
    let mut parts = Parts::default();
    let mut output = Vec::new();
    let mut at = 0;
    loop {
        let end = list.len().min(at + bytes);
        let last = end == list.len();
        let mut out = [0xEE; ROOM + 1];
        let answer = parts.call(&list[at..end], last, &mut out);
        at += answer.taken;
        let written = answer.written.unwrap_or(0);
        assert!(out[written..].iter().all(|&byte| byte == 0xEE));
        output.extend(&out[..written]);
        match answer.written {
            Err(refusal) => return (output, Err(refusal)),
            Ok(0) if last => return (output, Ok(())),
            Ok(_) => {}
        }
    }
}

/// Rising reads of registers from 0 on.
fn reads(count: u16) -> Vec<u8> {
    let read = |k: u16| {
        let [low, high] = (4 * k).to_le_bytes();
        [b'R', b'D', 0, 0, low, high]
    };
    (0..count).flat_map(read).collect()
}

#[test]
fn however_it_is_cut() {
    let list = reads(800);
    let mut whole = vec![0; list.len()];
    let bytes = compile(&list, &mut whole).unwrap().bytes;
    whole.truncate(bytes);
    for bytes in [1, 2, 5, 6, 7, 64, 4_799, 4_800, 10_000] {
        assert_eq!(fed(&list, bytes), (whole.clone(), Ok(())));
    }
    assert_eq!(fed(b"", 1), (vec![], Ok(())));
}

#[test]
fn packet_at_the_record_that_opens_the_next() {
    let list = reads(369);
    let mut parts = Parts::default();
    let mut out = [0; ROOM];
    let answer = |taken, written| Answer { taken, written };
    // All but the last byte: the packet is full and still open.
    let front = &list[..list.len() - 1];
    assert_eq!(
        parts.call(front, false, &mut out),
        answer(front.len(), Ok(0))
    );
    let rest = &list[front.len()..];
    assert_eq!(parts.call(rest, true, &mut out), answer(1, Ok(16)));
    assert_eq!(out[..8], [0x4C, 0x42, 12, 0, 0xFF, 0x42, 0, 0]);
    assert_eq!(parts.call(&[], true, &mut out), answer(0, Ok(8)));
    assert_eq!(out[..8], [0x4C, 0x42, 4, 0, 0x81, 0x42, 0xC0, 0x05]);
    assert_eq!(parts.call(b"RD", true, &mut out), answer(0, Ok(0)));
}

#[test]
fn faults_at_their_byte() {
    let mut room = [0; ROOM];
    let mut taken = |list: &[u8], last: bool| {
        let mut parts = Parts::default();
        let answer = parts.call(list, last, &mut room);
        let again = parts.call(b"RD", last, &mut room);
        assert_eq!(again.taken, 0);
        assert_eq!(again.written, answer.written);
        let refusal = answer.written.unwrap_err();
        (answer.taken, refusal.number, refusal.place)
    };
    let good = reads(1);
    let list = |bad: &[u8]| [good.clone(), bad.to_vec()].concat();
    assert_eq!(taken(&list(b"RWRD"), false), (8, 22, 1));
    assert_eq!(taken(&list(b"?"), true), (7, 22, 1));
    assert_eq!(taken(&list(b"RD\x01\x00\x00\x00R"), false), (12, 23, 1));
    assert_eq!(taken(&list(b"RD\x00\x01\x00\x00"), false), (12, 24, 1));
    assert_eq!(taken(&list(b"WR\x01\x00\x00"), true), (11, 22, 1));
}

#[test]
fn one_record_too_many() {
    let list = [b'R', b'D', 0, 0, 0, 0].repeat(100_000);
    assert_eq!(fed(&list, 4_096).1, Ok(()));
    let more = [list, vec![0]].concat();
    let refusal = Refusal {
        number: 21,
        place: 100_000,
    };
    assert_eq!(fed(&more, 4_096).1, Err(refusal));
}

#[test]
fn too_little_room_comes_first() {
    let mut parts = Parts::default();
    let refused = Answer {
        taken: 0,
        written: Err(Refusal {
            number: 26,
            place: 1_476,
        }),
    };
    assert_eq!(parts.call(b"??", false, &mut [0; 1_475]), refused);
    assert_eq!(parts.call(b"??", false, &mut [0; 1_476]).taken, 2);
    assert_eq!(parts.call(b"??", false, &mut [0; 1_475]), refused);
}
