//! Makes random guards: sound ones with ranges of every kind, and ones with faults.

use crate::rng::Rng;
use crate::status_cell;
use model::guard::MOST_RANGES;
use model::store::{Space, COUNT_ADDRESS, STORE_BYTES, UNLOCK_ADDRESS};
use std::ops::Range;

const STORE: u32 = STORE_BYTES as u32;

/// A guard of any kind, one in eight not sound.
pub fn any(rng: &mut Rng) -> Vec<u32> {
    let mut guard = sound(rng);
    if rng.one_in(8) {
        spoil(rng, &mut guard);
    }
    guard
}

/// A sound guard: often of few ranges, now and then of all 64.
pub fn sound(rng: &mut Rng) -> Vec<u32> {
    let most = rng.pick(&[0, 1, 1, 2, 4, 4, 12, MOST_RANGES]);
    let mut guard = Vec::new();
    for _ in 0..most {
        let range = range(rng, &guard);
        guard.extend(if reaches_own_cell(&range) {
            beside_own_cell(rng)
        } else {
            [range.start, range.end - range.start]
        });
    }
    guard
}

/// Adds a range that has a byte of these, or stands right beside them. Where there are 64 it takes the
/// last one's place.
pub fn aimed(rng: &mut Rng, guard: &mut Vec<u32>, at: &Range<usize>) {
    let [start, end] = [at.start as u32, at.end as u32];
    let inside = start + rng.below(at.len()) as u32;
    let range = match rng.below(8) {
        0 => start..start + 1,
        1 => end - 1..end,
        2 | 3 => inside..inside + 1,
        4 => start.saturating_sub(4)..start,
        5 => end..(end + 4).min(STORE),
        6 => inside..inside,
        _ => start.saturating_sub(rng.below(9) as u32)..inside + 1,
    };
    if reaches_own_cell(&range) {
        return;
    }
    guard.truncate(2 * MOST_RANGES - 2);
    let ranges = guard.len() / 2;
    let place = match rng.coin() {
        true => ranges,
        false => rng.below(ranges + 1),
    };
    guard.splice(2 * place..2 * place, [range.start, range.end - range.start]);
}

/// The ranges of a sound guard.
pub fn ranges(guard: &[u32]) -> impl Iterator<Item = Range<usize>> + '_ {
    guard.chunks_exact(2).map(|pair| {
        let first = pair[0] as usize;
        first..first + pair[1] as usize
    })
}

/// A range in the store.
fn range(rng: &mut Rng, earlier: &[u32]) -> Range<u32> {
    let first = place(rng);
    let bytes = rng.pick(&[1, 1, 2, 4, 4, 8, 64]);
    let range = match (rng.below(12), earlier) {
        (0, _) => first..first,
        (1, _) => 0..bytes,
        (2, _) => STORE - bytes..STORE,
        // Right behind the range before, or with bytes in common with it.
        (3, [.., start, length]) => start + length..start + length + bytes,
        (4, [.., start, length]) => start + length / 2..start + length + bytes,
        (5, [.., start, _]) => start.saturating_sub(bytes)..*start,
        (6, _) if rng.one_in(4) => {
            let space = rng.pick(&Space::ALL);
            space.start() as u32..space.start() as u32 + space.bytes()
        }
        _ => first..first + bytes,
    };
    range.start.min(STORE)..range.end.min(STORE)
}

/// A byte of the store, often where packets, bursts and lists write.
fn place(rng: &mut Rng) -> u32 {
    let space = rng.pick(&[
        Space::Registers,
        Space::Registers,
        Space::Registers,
        Space::Eeprom,
        Space::Status,
    ]);
    let bytes = space.bytes() as usize;
    let address = match rng.below(6) {
        0 => 0,
        1 => bytes - 1,
        2 => bytes - rng.between(1, bytes.min(48)),
        3 => 0x20.min(bytes - 1),
        4 => rng.below(bytes.min(256)),
        _ => rng.below(bytes),
    };
    (space.start() + address) as u32
}

/// Whether a range has a byte of the two cells that no guard may have.
fn reaches_own_cell(range: &Range<u32>) -> bool {
    own_cells()
        .iter()
        .flat_map(Clone::clone)
        .any(|byte| range.contains(&(byte as u32)))
}

/// The unlock cell and the packet count, as bytes of the store.
pub fn own_cells() -> [Range<usize>; 2] {
    [COUNT_ADDRESS, UNLOCK_ADDRESS].map(status_cell)
}

/// A range that ends before one of the two cells, or begins behind it; or one of no bytes in it.
fn beside_own_cell(rng: &mut Rng) -> [u32; 2] {
    let cell = rng.pick(&[0, 1]);
    let cell = &own_cells()[cell];
    let [start, end] = [cell.start as u32, cell.end as u32];
    let bytes = rng.between(1, 4) as u32;
    match rng.below(5) {
        0 | 1 => [start - bytes, bytes],
        2 | 3 => [end, bytes],
        _ => [start + rng.below(2) as u32, 0],
    }
}

/// Puts one fault or two into a guard.
fn spoil(rng: &mut Rng, guard: &mut Vec<u32>) {
    for _ in 0..rng.pick(&[1, 1, 2]) {
        let range = match rng.below(8) {
            0 => {
                guard.push(rng.pick(&[0, 0x1000, STORE, u32::MAX]));
                continue;
            }
            1 => {
                let pairs = MOST_RANGES + rng.pick(&[1, 1, 2, 10]);
                while guard.len() < 2 * pairs {
                    guard.extend([4 * rng.below(64) as u32, 4]);
                }
                continue;
            }
            2 => past_the_store(rng),
            3 => beyond_32_bits(rng),
            4 => [STORE + rng.pick(&[1, 1, 100]), 0],
            _ => over_own_cell(rng),
        };
        let place = rng.below(guard.len() / 2 + 1);
        guard.splice(2 * place..2 * place, range);
    }
}

/// A range that ends past the store, by one byte or more.
fn past_the_store(rng: &mut Rng) -> [u32; 2] {
    let first = rng.pick(&[0, 0x1000, STORE - 1, STORE - 32, STORE, STORE + 1]);
    let more = rng.pick(&[1, 1, 2, 1_000]);
    [first, (STORE + more).saturating_sub(first)]
}

/// A range whose end has more than 32 bits, and is in the store without those above.
fn beyond_32_bits(rng: &mut Rng) -> [u32; 2] {
    let first = rng.pick(&[8, 0x1000, 0x8000_0000, u32::MAX - 3, u32::MAX]);
    let low = rng.below(first.min(STORE) as usize) as u32;
    [first, low.wrapping_sub(first)]
}

/// A range with a byte of the unlock cell or of the packet count.
fn over_own_cell(rng: &mut Rng) -> [u32; 2] {
    let cell = rng.pick(&[0, 1]);
    let byte = (own_cells()[cell].start + rng.below(2)) as u32;
    let before = rng.pick(&[0, 0, 1, 9, 300]);
    let behind = rng.pick(&[1, 1, 2, 20]);
    [byte - before, before + behind]
}
