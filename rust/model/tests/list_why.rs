//! What is wrong with lists, cause by cause.

use model::list_why::{list_why, Fault};
use model::Refusal;

const READ: &[u8] = b"RD\x00\x00\x04\x00";
const WRITE: &[u8] = b"WR\x00\x00\x08\x00\x01\x02\x03\x04";

/// Behind a read and a write, these bytes are at fault with this number and cause.
fn behind_two(bytes: &[u8], number: u32, cause: u64) {
    let list = [READ, WRITE, bytes].concat();
    let fault = Fault {
        refusal: Refusal { number, place: 2 },
        offset: 16,
        cause,
    };
    assert_eq!(list_why(&list), Some(fault));
}

#[test]
fn good_lists() {
    assert_eq!(list_why(b""), None);
    assert_eq!(list_why(&[READ, WRITE].concat()), None);
    assert_eq!(list_why(&READ.repeat(100_000)), None);
}

#[test]
fn marks_and_ends() {
    behind_two(b"DR\x00\x00\x04\x00", 22, 1);
    behind_two(b"RR", 22, 1);
    behind_two(b"RD", 22, 2);
    behind_two(&WRITE[..9], 22, 2);
    behind_two(b"W", 22, 2);
    behind_two(b"\0", 22, 2);
}

#[test]
fn elements() {
    behind_two(b"RD\x01\x00\x01\x00", 23, 1);
    behind_two(b"RD\x00\x00\x02\x00", 23, 2);
    behind_two(b"RD\x02\x00\x81\x00", 23, 2);
    behind_two(b"RD\x02\x00\x80\x00", 23, 3);
    behind_two(b"WR\x02\x00\x1E\x00\x00\x00\x00\x00", 23, 4);
    behind_two(b"WR\x07\x00\x00\x00\x00\x00\x00\x00", 23, 4);
    behind_two(b"RD\x06\x00\x1A\x00", 23, 5);
    behind_two(b"RD\x06\x00\x0A\x00", 23, 6);
}

#[test]
fn spare_bytes_and_values() {
    behind_two(b"RD\x00\x01\x04\x00", 24, 1);
    behind_two(b"WR\x02\x01\x20\x00\x00\x00\x01\x00", 24, 1);
    behind_two(b"WR\x02\x00\x20\x00\x00\x00\x01\x00", 24, 2);
}

#[test]
fn too_many() {
    let fault = Fault {
        refusal: Refusal {
            number: 21,
            place: 100_000,
        },
        offset: 600_000,
        cause: 0,
    };
    let list = [&READ.repeat(100_000), b"?".as_slice()].concat();
    assert_eq!(list_why(&list), Some(fault));
}
