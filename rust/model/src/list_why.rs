//! What is wrong with a cue list.

use crate::cue::MOST_RECORDS;
use crate::store::{Space, COUNT_ADDRESS, UNLOCK_ADDRESS};
use crate::Refusal;

/// The compiler's refusal of a list, and what is wrong at the record.
#[derive(Clone, Copy, Debug, PartialEq, Eq)]
pub struct Fault {
    pub refusal: Refusal,
    /// Where the record begins in the list.
    pub offset: u64,
    /// Which of the number's causes comes first, from 1; 0 for 21.
    pub cause: u64,
}

/// What is wrong with a list; nothing if the compiler would not refuse it with 21 to 24.
pub fn list_why(list: &[u8]) -> Option<Fault> {
    let mut offset = 0;
    let mut place = 0;
    while offset < list.len() {
        let record = match place {
            MOST_RECORDS => Err((21, 0)),
            _ => length(&list[offset..]),
        };
        match record {
            Ok(length) => offset += length,
            Err((number, cause)) => {
                return Some(Fault {
                    refusal: Refusal { number, place },
                    offset: offset as u64,
                    cause,
                })
            }
        }
        place += 1;
    }
    None
}

/// The length of the good record at the front, or the refusal's number and its cause.
fn length(rest: &[u8]) -> Result<usize, (u32, u64)> {
    let length = match rest {
        [_] => return Err((22, 2)),
        [b'R', b'D', ..] => 6,
        [b'W', b'R', ..] => 10,
        _ => return Err((22, 1)),
    };
    let record = rest.get(..length).ok_or((22, 2))?;
    let write = length == 10;
    let address = u32::from(u16::from_le_bytes([record[4], record[5]]));
    let space = Space::from_number(record[2]).ok_or((23, 1))?;
    let status = space == Space::Status;
    let wide = write && space.element() == 2 && record[8..] != [0, 0];
    let causes = [
        (23, 2, address % space.element() != 0),
        (23, 3, address + space.element() > space.bytes()),
        (23, 4, write && space.read_only_at(address)),
        (23, 5, status && address == UNLOCK_ADDRESS),
        (23, 6, status && address == COUNT_ADDRESS),
        (24, 1, record[3] != 0),
        (24, 2, wide),
    ];
    match causes.iter().find(|cause| cause.2) {
        Some(&(number, cause, _)) => Err((number, cause)),
        None => Ok(length),
    }
}
