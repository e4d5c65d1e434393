//! Cutting a damaged cue list down to a playable one.

use crate::cue::first;
use crate::Refusal;

/// What was saved.
#[derive(Clone, Copy, Debug, PartialEq, Eq)]
pub struct Salvaged {
    /// The bytes of the records kept.
    pub bytes: usize,
    /// The stretches skipped.
    pub entries: usize,
}

/// A stretch of the list that was skipped.
struct Stretch {
    start: usize,
    length: usize,
}

/// Writes the records that stand in the list to `out`, and each skipped stretch to `log` as two
/// numbers, start and length. What lies beyond stays as it is.
pub fn salvage(list: &[u8], out: &mut [u8], log: &mut [u64]) -> Result<Salvaged, Refusal> {
    if out.len() < list.len() {
        return Err(Refusal {
            number: 26,
            place: list.len() as u64,
        });
    }
    let (kept, skipped) = scan(list);
    if log.len() / 2 < skipped.len() {
        return Err(Refusal {
            number: 27,
            place: skipped.len() as u64,
        });
    }

    out[..kept.len()].copy_from_slice(&kept);
    for (entry, stretch) in log.chunks_exact_mut(2).zip(&skipped) {
        entry[0] = stretch.start as u64;
        entry[1] = stretch.length as u64;
    }
    Ok(Salvaged {
        bytes: kept.len(),
        entries: skipped.len(),
    })
}

/// The bytes of the records kept and the stretches skipped, each in order.
fn scan(list: &[u8]) -> (Vec<u8>, Vec<Stretch>) {
    let mut kept = Vec::new();
    let mut skipped: Vec<Stretch> = Vec::new();
    let mut at = 0;
    while at < list.len() {
        if let Ok((_, length)) = first(&list[at..]) {
            kept.extend_from_slice(&list[at..at + length]);
            at += length;
            continue;
        }
        match skipped.last_mut() {
            Some(last) if last.start + last.length == at => last.length += 1,
            _ => skipped.push(Stretch {
                start: at,
                length: 1,
            }),
        }
        at += 1;
    }
    (kept, skipped)
}
