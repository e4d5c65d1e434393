//! Two lists that may be run in either order.

use crate::cue::{Record, Records};
use crate::store::Space;
use crate::Refusal;
use std::collections::HashMap;

/// The number of two lists that clash. It is not one of the papers'.
pub const CLASH: u32 = 51;

/// Why two lists are not independent: which of them, 0 or 1, and its refusal, or the first record
/// of the second list that clashes with the first list.
#[derive(Clone, Copy, Debug, PartialEq, Eq)]
pub struct Dependent {
    pub list: u64,
    pub refusal: Refusal,
}

/// A cell, and whether the first list writes it.
type Cells = HashMap<(Space, u32), bool>;

/// Whether both lists are accepted and neither writes a cell that the other names.
pub fn independent(first: &[u8], second: &[u8]) -> Result<(), Dependent> {
    let records = |list: u64, bytes| -> Result<Vec<Record>, Dependent> {
        let records: Result<_, Refusal> = Records::new(bytes).collect();
        records.map_err(|refusal| Dependent { list, refusal })
    };
    let first = records(0, first)?;
    let second = records(1, second)?;

    let mut cells = Cells::new();
    for record in &first {
        let written = cells.entry((record.space, record.address)).or_default();
        *written |= record.is_write();
    }
    let clashes = |record: &Record| match cells.get(&(record.space, record.address)) {
        None => false,
        Some(written) => *written || record.is_write(),
    };
    match second.iter().position(clashes) {
        None => Ok(()),
        Some(index) => Err(Dependent {
            list: 1,
            refusal: Refusal {
                number: CLASH,
                place: index as u64,
            },
        }),
    }
}
