//! Cue lists as text: assembling one, and writing one.

use crate::cue::{Action, Record, Records, MOST_RECORDS};
use crate::store::Space;
use crate::{put, Refusal};
use std::collections::HashMap;

/// The number of a line that has none of the five forms. Like the next two it is not one of the papers'.
pub const FORM: u32 = 81;

/// The number of a word that is no space, address or value where one must stand, or too large for it.
pub const NUMBER: u32 = 82;

/// The number of a name that is none, unknown, defined twice or one too many.
pub const NAME: u32 = 83;

/// The most names that a text may define.
pub const MOST_NAMES: usize = 1_000;

/// The most bytes that a name may have.
pub const NAME_BYTES: usize = 32;

/// What a text was assembled to.
#[derive(Clone, Copy, Debug, PartialEq, Eq)]
pub struct Assembled {
    pub bytes: usize,
    pub records: u64,
}

/// The text that was written for a list.
#[derive(Clone, Copy, Debug, PartialEq, Eq)]
pub struct Written {
    pub bytes: usize,
    pub lines: u64,
}

/// Assembles a text to a cue list in `out`. What lies beyond the answered bytes stays as it is.
///
/// A refusal's place is the line, counted from 1; that of 26 the bytes needed.
pub fn assemble(text: &[u8], out: &mut [u8]) -> Result<Assembled, Refusal> {
    let mut assembler = Assembler::default();
    for (line, words) in (1..).zip(Lines { rest: text }) {
        let taken = assembler.line(words.all());
        taken.map_err(|number| Refusal {
            number,
            place: line,
        })?;
    }
    put(&assembler.list, out)?;
    Ok(Assembled {
        bytes: assembler.list.len(),
        records: assembler.records,
    })
}

/// Writes a list to `out` as text, a line for each record. What lies beyond stays as it is.
pub fn list_text(list: &[u8], out: &mut [u8]) -> Result<Written, Refusal> {
    let mut text = Vec::new();
    let mut lines = 0;
    for record in Records::new(list) {
        put_line(&mut text, &record?);
        lines += 1;
    }
    put(&text, out)?;
    Ok(Written {
        bytes: text.len(),
        lines,
    })
}

// Words.

/// The lines of a text, up to its end.
struct Lines<'a> {
    rest: &'a [u8],
}

/// The words of a line: of one that has too many for any form, the first of them.
#[derive(Default)]
struct Words<'a> {
    words: [&'a [u8]; 5],
    count: usize,
}

impl<'a> Words<'a> {
    fn all(&self) -> &[&'a [u8]] {
        &self.words[..self.count]
    }

    fn add(&mut self, word: &'a [u8]) {
        if let Some(place) = self.words.get_mut(self.count) {
            *place = word;
            self.count += 1;
        }
    }
}

impl<'a> Iterator for Lines<'a> {
    type Item = Words<'a>;

    fn next(&mut self) -> Option<Words<'a>> {
        if self.rest.is_empty() {
            return None;
        }
        let mut words = Words::default();
        loop {
            match self.rest {
                [] => return Some(words),
                [b'\n', rest @ ..] => {
                    self.rest = rest;
                    return Some(words);
                }
                [b' ' | b'\t' | b'\r', rest @ ..] => self.rest = rest,
                [b'#', ..] => {
                    self.take(|byte| byte == b'\n');
                }
                _ => words.add(self.take(ends_word)),
            }
        }
    }
}

impl<'a> Lines<'a> {
    /// Takes the bytes before the first of this kind, or all that are left.
    fn take(&mut self, kind: impl Fn(u8) -> bool) -> &'a [u8] {
        let found = self.rest.iter().position(|&byte| kind(byte));
        let (taken, rest) = self.rest.split_at(found.unwrap_or(self.rest.len()));
        self.rest = rest;
        taken
    }
}

fn ends_word(byte: u8) -> bool {
    matches!(byte, b' ' | b'\t' | b'\r' | b'\n' | b'#')
}

// Lines.

/// The list so far, and what the names defined so far stand for.
#[derive(Default)]
struct Assembler<'a> {
    list: Vec<u8>,
    records: u64,
    names: HashMap<&'a [u8], Cell>,
}

#[derive(Clone, Copy)]
struct Cell {
    space: u8,
    address: u16,
}

impl<'a> Assembler<'a> {
    /// Takes a line's words, or answers the first number that they are refused with.
    fn line(&mut self, words: &[&'a [u8]]) -> Result<(), u32> {
        match *words {
            [] => Ok(()),
            [b"read", space, address] => self.record(cell(space, address)?, Action::Read),
            [b"read", name] => self.record(self.named(name)?, Action::Read),
            [b"write", space, address, value] => {
                let write = write(value)?;
                self.record(cell(space, address)?, write)
            }
            [b"write", name, value] => {
                let write = write(value)?;
                self.record(self.named(name)?, write)
            }
            [b"name", name, space, address] => self.define(name, cell(space, address)?),
            _ => Err(FORM),
        }
    }

    fn record(&mut self, cell: Cell, action: Action) -> Result<(), u32> {
        if self.records == MOST_RECORDS {
            return Err(21);
        }
        cell.with(action)?;
        put_record(&mut self.list, cell, action);
        self.records += 1;
        Ok(())
    }

    fn named(&self, name: &[u8]) -> Result<Cell, u32> {
        self.names.get(name).copied().ok_or(NAME)
    }

    fn define(&mut self, name: &'a [u8], cell: Cell) -> Result<(), u32> {
        if !is_name(name) || self.names.contains_key(name) || self.names.len() == MOST_NAMES {
            return Err(NAME);
        }
        cell.with(Action::Read)?;
        self.names.insert(name, cell);
        Ok(())
    }
}

impl Cell {
    /// The cell's record, or the number that it is refused with.
    fn with(self, action: Action) -> Result<Record, u32> {
        Record::new(self.space, 0, self.address, action)
    }
}

fn put_record(list: &mut Vec<u8>, Cell { space, address }: Cell, action: Action) {
    let [low, high] = address.to_le_bytes();
    match action {
        Action::Read => list.extend_from_slice(&[b'R', b'D', space, 0, low, high]),
        Action::Write(value) => {
            let [a, b, c, d] = value.to_le_bytes();
            list.extend_from_slice(&[b'W', b'R', space, 0, low, high, a, b, c, d]);
        }
    }
}

fn cell(space: &[u8], address: &[u8]) -> Result<Cell, u32> {
    let known = Space::ALL
        .into_iter()
        .find(|&known| name_of(known) == space);
    let space = match known {
        Some(known) => known.number(),
        None => number(space, 0xFF)? as u8,
    };
    let address = number(address, 0xFFFF)? as u16;
    Ok(Cell { space, address })
}

fn write(value: &[u8]) -> Result<Action, u32> {
    number(value, u32::MAX).map(Action::Write)
}

/// A decimal or hex number that is not above `most`.
fn number(word: &[u8], most: u32) -> Result<u32, u32> {
    let value = match word {
        [b'0', b'x' | b'X', digits @ ..] => value(digits, 16),
        digits => value(digits, 10),
    };
    value.filter(|&value| value <= most).ok_or(NUMBER)
}

#[inline]
fn value(digits: &[u8], base: u32) -> Option<u32> {
    if digits.is_empty() {
        return None;
    }
    digits.iter().try_fold(0u32, |value, &digit| {
        let digit = char::from(digit).to_digit(base)?;
        value.checked_mul(base)?.checked_add(digit)
    })
}

fn is_name(word: &[u8]) -> bool {
    let reserved: [&[u8]; 3] = [b"read", b"write", b"name"];
    let letter_first = word.first().is_some_and(u8::is_ascii_alphabetic);
    let allowed = |byte: &u8| byte.is_ascii_alphanumeric() || b"_-.".contains(byte);
    letter_first
        && word.len() <= NAME_BYTES
        && word.iter().all(allowed)
        && !reserved.contains(&word)
        && Space::ALL.iter().all(|&space| name_of(space) != word)
}

// Both ways.

/// The word for a space.
fn name_of(space: Space) -> &'static [u8] {
    match space {
        Space::Registers => b"registers",
        Space::Eeprom => b"eeprom",
        Space::Status => b"status",
        Space::Information => b"information",
    }
}

fn put_line(text: &mut Vec<u8>, record: &Record) {
    let word: &[u8] = if record.is_write() {
        b"write "
    } else {
        b"read "
    };
    text.extend_from_slice(word);
    text.extend_from_slice(name_of(record.space));
    put_hex(text, record.address, 4);
    if let Action::Write(value) = record.action {
        put_hex(text, value, 2 * record.space.element());
    }
    text.push(b'\n');
}

fn put_hex(text: &mut Vec<u8>, value: u32, digits: u32) {
    text.extend_from_slice(b" 0x");
    let digit = |place| b"0123456789ABCDEF"[(value >> (4 * place) & 0xF) as usize];
    text.extend((0..digits).rev().map(digit));
}
