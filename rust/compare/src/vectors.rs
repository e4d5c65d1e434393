//! Writes calls of the library with all that is lent before and after, as the independent implementation has it, for
//! `rust/compare/processors/play.c` to make on another processor.
//!
//! A file is a sequence of calls, numbers low byte first:
//!
//! | bytes | what |
//! |---|---|
//! | 4 each | the call's bytes, these included, 0 at the file's end; the export's place in [`EXPORTS`]; the number that it returns; how many rooms are lent |
//! | 5 times 8 | plain arguments |
//! | 3 times 8 | what the answers hold afterwards, [`UNWRITTEN`] before |
//! | each room | its number, elements, bytes of an element, changes before the call, changes by the call, 4 bytes each; then the changes |
//! | a change | offset, length and period in bytes, 4 each; then as many bytes as the period, filled up to a multiple of 4, which are repeated over the length |
//!
//! A room keeps what it holds from call to call; all bytes are [`EMPTY`] at the start.

mod capture;
mod card;
mod fields;
mod interlock;
mod lists;
mod text;

use crate::rng::Rng;
use std::collections::BTreeMap;
use std::fmt::Write;

/// What each byte of a room holds at the start.
pub const EMPTY: u8 = 0xC3;

/// The most bytes that a file may have: so many does `processors/link.ld` leave for it on a board.
pub const MOST_BYTES: usize = 8 << 20;

/// What each answer holds before a call.
pub const UNWRITTEN: u64 = 0xA5A5_A5A5_A5A5_A5A5;

/// The exports, each with all numbers that it can return.
pub const EXPORTS: [(&str, &[u32]); 33] = [
    ("head_check", &[0, 1, 2, 3, 4, 5, 6, 7, 8, 9, 10, 11, 12]),
    ("head_run", &[0, 1, 2, 3, 4, 5, 6, 7, 8, 9, 10, 11, 12]),
    ("head_why", &[0, 1, 2, 3, 4, 5, 6, 7, 8, 9, 10, 11, 12, 13]),
    ("head_packet_text", &[0, 1, 26]),
    ("head_spi", &[0, 1, 31, 32, 33, 34, 35]),
    ("head_fields", &[0, 13]),
    ("head_word", &[0, 13]),
    ("head_header", &[0, 13]),
    ("head_header_word", &[0, 13, 32, 33]),
    ("head_compile", &[0, 21, 22, 23, 24, 26]),
    ("head_tighten", &[0, 21, 22, 23, 24, 26]),
    ("head_tight_check", &[0, 21, 22, 23, 24, 50]),
    ("head_salvage", &[0, 26, 27]),
    ("head_list_why", &[0, 21, 22, 23, 24]),
    ("head_sentence", &[0, 26]),
    ("head_table", &[0, 41, 42]),
    ("head_field", &[0, 40, 41, 42]),
    ("head_pack", &[0, 40, 41, 42]),
    ("head_unpack", &[0, 40, 41, 42]),
    ("head_panel_start", &[0, 43]),
    ("head_panel_report", &[0]),
    ("head_panel_reading", &[0, 44, 45, 46]),
    ("head_part", &[0, 1, 21, 22, 23, 24, 26]),
    ("head_independent", &[0, 21, 22, 23, 24, 51]),
    ("head_judge", &[0, 1, 61, 62, 63, 64, 65]),
    ("head_guard", &[0, 70]),
    (
        "head_guarded_check",
        &[0, 1, 2, 3, 4, 5, 6, 7, 8, 9, 10, 11, 12, 70, 71],
    ),
    (
        "head_guarded_run",
        &[0, 1, 2, 3, 4, 5, 6, 7, 8, 9, 10, 11, 12, 70, 71],
    ),
    ("head_guarded_spi", &[0, 1, 31, 32, 33, 34, 35, 70, 71]),
    ("head_guarded_list", &[0, 21, 22, 23, 24, 70, 71]),
    ("head_capture", &[0, 26, 27, 91, 92, 93, 94]),
    ("head_assemble", &[0, 21, 23, 24, 26, 81, 82, 83]),
    ("head_list_text", &[0, 21, 22, 23, 24, 26]),
];

/// The rooms that the player has. Those from the pointers on hold numbers above a byte.
#[derive(Clone, Copy)]
pub enum Room {
    Input,
    Second,
    Output,
    Store,
    Reply,
    State,
    Pointers,
    Words,
    Answer,
    Numbers,
    Guard,
}

const ROOMS: usize = 11;

/// A room as it is lent: its bytes before and after the call.
pub struct Lent {
    room: Room,
    element: usize,
    before: Vec<u8>,
    after: Vec<u8>,
}

impl Lent {
    /// One that the call leaves as it is.
    fn kept(room: Room, bytes: &[u8]) -> Lent {
        Lent::changed(room, bytes, bytes)
    }

    fn changed(room: Room, before: &[u8], after: &[u8]) -> Lent {
        Lent {
            room,
            element: 1,
            before: before.to_vec(),
            after: after.to_vec(),
        }
    }

    fn words(room: Room, before: &[u32], after: &[u32]) -> Lent {
        let bytes = |words: &[u32]| words.iter().flat_map(|word| word.to_le_bytes()).collect();
        Lent {
            room,
            element: 4,
            before: bytes(before),
            after: bytes(after),
        }
    }

    fn numbers(room: Room, before: &[u64], after: &[u64]) -> Lent {
        let bytes = |words: &[u64]| words.iter().flat_map(|word| word.to_le_bytes()).collect();
        Lent {
            room,
            element: 8,
            before: bytes(before),
            after: bytes(after),
        }
    }
}

/// A file in the making.
struct File {
    rng: Rng,
    bytes: Vec<u8>,
    rooms: [Vec<u8>; ROOMS],
    met: BTreeMap<(usize, u32), u64>,
}

/// Makes calls of every kind until the file has so many bytes. Answers it, and what a player that finds no difference
/// prints; or what was never met.
pub fn file(seed: u64, size: usize) -> Result<(Vec<u8>, String), String> {
    let mut file = File {
        rng: Rng::new(seed),
        bytes: Vec::new(),
        rooms: Default::default(),
        met: BTreeMap::new(),
    };
    lists::long(&mut file)?;
    text::long(&mut file);
    let mut card = card::Card::new(&mut file.rng);
    while file.bytes.len() < size {
        card.packets(&mut file, 16);
        card.bursts(&mut file, 12);
        card.recordings(&mut file, 6);
        interlock::some(&mut file, &mut card, 12);
        lists::some(&mut file, 6)?;
        text::some(&mut file, 6);
        fields::some(&mut file, 12);
        capture::some(&mut file, 6);
    }
    file.bytes.extend([0; 4]);
    if file.bytes.len() > MOST_BYTES {
        return Err(format!("it has {} bytes, too many", file.bytes.len()));
    }
    let printed = file.printed()?;
    Ok((file.bytes, printed))
}

impl File {
    fn call(&mut self, export: &str, number: u32, plain: &[u64], answers: &[u64], lent: Vec<Lent>) {
        let place = EXPORTS.iter().position(|(name, _)| *name == export);
        let place = place.expect("an export");
        *self.met.entry((place, number)).or_default() += 1;
        let start = self.bytes.len();
        self.put(&[0, place, number as usize, lent.len()]);
        for at in 0..5 {
            let plain = plain.get(at).copied().unwrap_or(0);
            self.bytes.extend(plain.to_le_bytes());
        }
        for at in 0..3 {
            let answer = answers.get(at).copied().unwrap_or(UNWRITTEN);
            self.bytes.extend(answer.to_le_bytes());
        }
        for lent in &lent {
            self.room(lent);
        }
        let size = (self.bytes.len() - start) as u32;
        self.bytes[start..start + 4].copy_from_slice(&size.to_le_bytes());
    }

    fn put(&mut self, numbers: &[usize]) {
        for &number in numbers {
            self.bytes.extend((number as u32).to_le_bytes());
        }
    }

    fn room(&mut self, lent: &Lent) {
        let mut holds = std::mem::take(&mut self.rooms[lent.room as usize]);
        if holds.len() < lent.before.len() {
            holds.resize(lent.before.len(), EMPTY);
        }
        let front = &mut holds[..lent.before.len()];
        let before = changes(front, &lent.before);
        let after = changes(&lent.before, &lent.after);
        let elements = lent.before.len() / lent.element;
        self.put(&[lent.room as usize, elements, lent.element]);
        self.put(&[before.len(), after.len()]);
        for &(offset, end) in &before {
            self.change(offset, &lent.before[offset..end]);
        }
        for &(offset, end) in &after {
            self.change(offset, &lent.after[offset..end]);
        }
        front.copy_from_slice(&lent.after);
        self.rooms[lent.room as usize] = holds;
    }

    fn change(&mut self, offset: usize, bytes: &[u8]) {
        // The records or lines of a long list, and the packets made from them.
        let periods = [6, 9, 10, 1_476];
        let repeats = |period: &&usize| {
            bytes.len() > 4_096 && bytes[**period..] == bytes[..bytes.len() - **period]
        };
        let period = periods.iter().find(repeats).copied().unwrap_or(bytes.len());
        self.put(&[offset, bytes.len(), period]);
        self.bytes.extend(&bytes[..period]);
        self.bytes.resize(self.bytes.len().next_multiple_of(4), 0);
    }

    /// A line for each export: how often it returned which number.
    fn printed(&self) -> Result<String, String> {
        let mut text = String::new();
        for (place, (name, numbers)) in EXPORTS.iter().enumerate() {
            text += name;
            for number in *numbers {
                let count = self.met.get(&(place, *number));
                let count = count.ok_or(format!("{name} never returns {number}"))?;
                write!(text, " {number}:{count}").expect("a string");
            }
            text += "\n";
        }
        let calls: u64 = self.met.values().sum();
        let known =
            |((place, number), _): (&(usize, u32), &u64)| EXPORTS[*place].1.contains(number);
        match self.met.iter().all(known) {
            true => Ok(format!("{text}{calls} calls, 0 differences\n")),
            false => Err("an export returns a number that it cannot return".to_string()),
        }
    }
}

/// Where two equally long rows of bytes differ: first place and end, near ones joined.
fn changes(old: &[u8], new: &[u8]) -> Vec<(usize, usize)> {
    const JOINED: usize = 12;
    let mut found: Vec<(usize, usize)> = Vec::new();
    for at in (0..new.len()).filter(|&at| old[at] != new[at]) {
        match found.last_mut() {
            Some(last) if at < last.1 + JOINED => last.1 = at + 1,
            _ => found.push((at, at + 1)),
        }
    }
    found
}
