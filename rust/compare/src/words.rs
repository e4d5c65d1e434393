//! Compares command words: every word both ways, and fields in and out of range.

use crate::lent::Lent;
use crate::rng::Rng;
use crate::tally::Tally;
use crate::{same_input, Outcome};
use head::exports;
use model::words::Fields;

/// The seven bytes that hold a word's fields at the library's boundary.
pub const FIELDS: usize = 7;

/// The lowest values that are out of range, in the order of the bytes.
const ENDS: [u8; FIELDS] = [2, 2, 2, 8, 4, 2, 128];

pub fn compare(seed: u64) -> Outcome {
    let mut part = Part {
        rng: Rng::new(seed),
        room: Lent::new("fields", FIELDS, 0),
        taken: Tally::new("fields", &[0, 13], &[]),
        put: Tally::new("word", &[0, 13], &[]),
    };
    for word in 0..=u16::MAX {
        part.take_apart(word, FIELDS)?;
        part.put_together(&to_bytes(Fields::from_word(word)))?;
        both_ways_wrapped(word)?;
    }
    for length in (0..=4 * FIELDS).filter(|&length| length != FIELDS) {
        for _ in 0..100 {
            let word = part.rng.number() as u16;
            part.take_apart(word, length)?;
            let mut bytes = vec![0; length];
            bytes.fill_with(|| part.rng.below(4) as u8);
            part.put_together(&bytes)?;
        }
    }
    for field in 0..FIELDS {
        for value in 0..=u8::MAX {
            let mut bytes = part.fields_in_range();
            bytes[field] = value;
            part.put_together(&bytes)?;
        }
    }
    for _ in 0..50_000 {
        let bytes = fields_at_the_ends(&mut part.rng);
        part.put_together(&bytes)?;
    }
    Ok(vec![part.taken, part.put])
}

struct Part {
    rng: Rng,
    room: Lent<u8>,
    taken: Tally,
    put: Tally,
}

impl Part {
    fn take_apart(&mut self, word: u16, length: usize) -> Result<(), String> {
        let rng = &mut self.rng;
        self.room.change(|room| rng.fill(room));
        let (library, model) = self.room.lend(length);
        let answer = exports::fields(word, library);
        let expected = fields(word, model);
        let context = |what: String| format!("fields of {word:04X} in {length} bytes: {what}");
        same(answer, expected).map_err(context)?;
        self.room.compare(expected != 0).map_err(context)?;
        self.taken.ending(expected);
        Ok(())
    }

    fn put_together(&mut self, bytes: &[u8]) -> Result<(), String> {
        let before = self.rng.number() as u16;
        let (mut library, mut model) = (before, before);
        let lent = bytes.to_vec();
        let answer = exports::word(&lent, &mut library);
        let expected = word(bytes, &mut model);
        let context = |what: String| format!("word of {bytes:?}, {before:04X} before: {what}");
        same(answer, expected).map_err(context)?;
        same_input(&lent, bytes).map_err(context)?;
        if library != model {
            let what = format!("the library's word is {library:04X}, expected {model:04X}");
            return Err(context(what));
        }
        self.put.ending(expected);
        Ok(())
    }

    fn fields_in_range(&mut self) -> [u8; FIELDS] {
        ENDS.map(|end| self.rng.below(end.into()) as u8)
    }
}

/// Fields of which some are at a range's last value, just past it or anywhere.
pub(crate) fn fields_at_the_ends(rng: &mut Rng) -> [u8; FIELDS] {
    ENDS.map(|end| match rng.below(16) {
        0 => end,
        1 => rng.byte(),
        2 | 3 => end - 1,
        _ => rng.below(end.into()) as u8,
    })
}

fn same(answer: u32, expected: u32) -> Result<(), String> {
    if answer == expected {
        return Ok(());
    }
    Err(format!("the library answers {answer}, expected {expected}"))
}

/// What the export must do, by the independent implementation.
pub(crate) fn fields(word: u16, room: &mut [u8]) -> u32 {
    if room.len() != FIELDS {
        return 13;
    }
    room.copy_from_slice(&to_bytes(Fields::from_word(word)));
    0
}

/// What the export must do, by the independent implementation.
pub(crate) fn word(bytes: &[u8], word: &mut u16) -> u32 {
    match from_bytes(bytes).map(Fields::to_word) {
        Some(Ok(put)) => {
            *word = put;
            0
        }
        Some(Err(refusal)) => refusal.number,
        None => 13,
    }
}

pub fn to_bytes(fields: Fields) -> [u8; FIELDS] {
    [
        fields.write.into(),
        fields.address.into(),
        fields.info.into(),
        fields.space,
        fields.size,
        fields.increment.into(),
        fields.count,
    ]
}

/// The fields, if there are seven bytes and no flag is above 1.
fn from_bytes(bytes: &[u8]) -> Option<Fields> {
    let &[write, address, info, space, size, increment, count] = bytes else {
        return None;
    };
    Some(Fields {
        write: flag(write)?,
        address: flag(address)?,
        info: flag(info)?,
        space,
        size,
        increment: flag(increment)?,
        count,
    })
}

fn flag(byte: u8) -> Option<bool> {
    match byte {
        0 => Some(false),
        1 => Some(true),
        _ => None,
    }
}

/// The same through the wrapper's own types.
fn both_ways_wrapped(word: u16) -> Result<(), String> {
    let fields = head::fields(word);
    let expected = Fields::from_word(word);
    let wrapped = head::Fields {
        write: expected.write,
        address: expected.address,
        info: expected.info,
        space: expected.space,
        size: expected.size,
        increment: expected.increment,
        count: expected.count,
    };
    if fields != wrapped || head::word(&fields) != Ok(word) {
        return Err(format!("wrapped fields of {word:04X}: {fields:?}"));
    }
    Ok(())
}
