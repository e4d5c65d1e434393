//! Damaged lists, by order 11 of the change requests.

use model::salvage::{salvage, Salvaged};
use model::Refusal;

const READ: &[u8] = b"RD\x00\x00\x04\x00";
const WRITE: &[u8] = b"WR\x00\x00\x08\x00\x01\x02\x03\x04";

/// What a list comes out as with room enough, and the log's entries.
fn saved(list: &[u8]) -> (Vec<u8>, Vec<[u64; 2]>) {
    let mut out = vec![0xEE; list.len() + 3];
    let mut log = vec![0xEE; 2 * list.len() + 3];
    let Salvaged { bytes, entries } = salvage(list, &mut out, &mut log).expect("room enough");
    assert!(out[bytes..].iter().all(|&byte| byte == 0xEE));
    assert!(log[2 * entries..].iter().all(|&number| number == 0xEE));
    out.truncate(bytes);
    log.truncate(2 * entries);
    (out, log.as_chunks().0.to_vec())
}

#[test]
fn good_list_unchanged() {
    let list = [READ, WRITE, READ].concat();
    assert_eq!(saved(&list), (list, vec![]));
    assert_eq!(saved(b""), (vec![], vec![]));
}

#[test]
fn stretches_before_between_and_behind() {
    let list = [b"\0\0".as_slice(), READ, b"R", WRITE, b"WR\0"].concat();
    let kept = [READ, WRITE].concat();
    assert_eq!(saved(&list), (kept, vec![[0, 2], [8, 1], [19, 3]]));
}

#[test]
fn touching_stretches_are_one_entry() {
    // Two bad records, one with space 1 and one with a spare byte of 1.
    let list = [b"RD\x01\x00\x04\x00RD\x00\x01\x04\x00", READ].concat();
    assert_eq!(saved(&list), (READ.to_vec(), vec![[0, 12]]));
}

#[test]
fn goes_on_one_byte_behind_a_bad_mark() {
    // A write of a misaligned address with a whole read inside.
    let list = [b"WR\x00\x00".as_slice(), READ].concat();
    assert_eq!(saved(&list), (READ.to_vec(), vec![[0, 4]]));
    let list = [b"R".as_slice(), READ].concat();
    assert_eq!(saved(&list), (READ.to_vec(), vec![[0, 1]]));
}

#[test]
fn a_record_that_24_refuses_is_skipped() {
    let list = b"WR\x02\x00\x20\x00\x01\x00\x01\x00";
    assert_eq!(saved(list), (vec![], vec![[0, 10]]));
}

#[test]
fn refusals_in_their_order_write_nothing() {
    let list = [READ, b"?", READ, b"?"].concat();
    let refused = |room: usize, log_room: usize| {
        let (mut out, mut log) = (vec![0xEE; room], vec![0xEE; log_room]);
        let refusal = salvage(&list, &mut out, &mut log).unwrap_err();
        assert!(out.iter().all(|&byte| byte == 0xEE));
        assert!(log.iter().all(|&number| number == 0xEE));
        refusal
    };
    let refusal = |number, place| Refusal { number, place };
    assert_eq!(refused(13, 0), refusal(26, 14));
    assert_eq!(refused(14, 0), refusal(27, 2));
    assert_eq!(refused(14, 3), refusal(27, 2));
    assert!(salvage(&list, &mut [0; 14], &mut [0; 4]).is_ok());
}
