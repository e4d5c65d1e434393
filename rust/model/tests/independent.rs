//! Two lists in either order, by order 13 of the change requests.

use model::independent::{independent, Dependent};
use model::Refusal;

const READ_4: &[u8] = b"RD\x00\x00\x04\x00";
const WRITE_4: &[u8] = b"WR\x00\x00\x04\x00\x01\x00\x00\x00";
const WRITE_8: &[u8] = b"WR\x00\x00\x08\x00\x01\x00\x00\x00";
/// The same address as the one of [`WRITE_4`], in another space.
const WRITE_STATUS_4: &[u8] = b"WR\x06\x00\x04\x00\x01\x00\x00\x00";

fn dependent(list: u64, number: u32, place: u64) -> Result<(), Dependent> {
    let refusal = Refusal { number, place };
    Err(Dependent { list, refusal })
}

#[test]
fn apart() {
    assert_eq!(independent(WRITE_4, WRITE_8), Ok(()));
    assert_eq!(independent(WRITE_4, WRITE_STATUS_4), Ok(()));
    assert_eq!(independent(WRITE_4, b""), Ok(()));
    assert_eq!(independent(b"", b""), Ok(()));
}

#[test]
fn a_register_that_both_read() {
    let first = [READ_4, WRITE_8].concat();
    let second = [READ_4, WRITE_STATUS_4].concat();
    assert_eq!(independent(&first, &second), Ok(()));
}

#[test]
fn one_writes_what_the_other_names() {
    let second = [WRITE_8, READ_4, WRITE_4].concat();
    assert_eq!(independent(WRITE_4, &second), dependent(1, 51, 1));
    assert_eq!(independent(READ_4, &second), dependent(1, 51, 2));
    assert_eq!(independent(&second, READ_4), dependent(1, 51, 0));
}

#[test]
fn the_first_lists_refusal_comes_first() {
    let bad = [READ_4, b"??"].concat();
    assert_eq!(independent(&bad, b"?"), dependent(0, 22, 1));
    assert_eq!(independent(WRITE_4, b"RD\x01\0\0\0"), dependent(1, 23, 0));
    let clashing = [WRITE_4, b"R"].concat();
    assert_eq!(independent(WRITE_4, &clashing), dependent(1, 22, 1));
}
