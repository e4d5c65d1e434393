//! Compares burst headers: both halves of the word in every value, and fields in and out of range.

use crate::lent::Lent;
use crate::rng::Rng;
use crate::tally::Tally;
use crate::{same_input, Outcome};
use head::header::exports;
use model::spi::Header;

/// The four numbers that hold a header's fields at the library's boundary.
pub const FIELDS: usize = 4;

/// Values at the ends of each field's range, past them, and such whose lower bits alone are in it.
const ADDRESSES: [u32; 9] = [
    0,
    1,
    4,
    0xFFFC,
    0xFFFF,
    0x1_0000,
    0x1_0004,
    0x8000_0000,
    0xFFFF_FFFF,
];
const COMMANDS: [u32; 16] = [
    0,
    1,
    9,
    0xA,
    0xB,
    0xC,
    0xF,
    0x10,
    0x1A,
    0x1B,
    0xFF,
    0x10A,
    0x10B,
    0x1_000A,
    0x8000_000B,
    0xFFFF_FFFF,
];
const INCREMENTS: [u32; 7] = [0, 1, 2, 0x100, 0x101, 0x1_0001, 0xFFFF_FFFF];
const COUNTS: [u32; 16] = [
    0,
    1,
    2,
    3,
    64,
    126,
    127,
    128,
    129,
    255,
    256,
    257,
    0x17F,
    0x1_0001,
    0x8000_0001,
    0xFFFF_FFFF,
];

const SITUATIONS: [&str; 5] = [BEFORE_32, BEFORE_33, LOW_COMMAND, LOW_COUNT, COUNT_127];
const BEFORE_32: &str = "13 where the command is another too";
const BEFORE_33: &str = "32 where the count is out of range too";
const LOW_COMMAND: &str = "32 for a command above 255 whose low byte is one";
const LOW_COUNT: &str = "33 for a count above 255 whose low byte is one";
const COUNT_127: &str = "accepted with a count of 127";

/// Compares every lower and every upper half of a word, all fields at the ends of their ranges, and
/// `count` random fields besides.
pub fn compare(seed: u64, count: u64) -> Outcome {
    let mut part = Part {
        rng: Rng::new(seed),
        room: Lent::new("fields", FIELDS, 0),
        taken: Tally::new("header", &[0, 13], &[]),
        put: Tally::new("header word", &[0, 13, 32, 33], &SITUATIONS),
    };
    for half in 0..=u32::from(u16::MAX) {
        let other = part.rng.word() & 0xFFFF;
        for word in [
            half,
            0xFFFF << 16 | half,
            other << 16 | half,
            half << 16 | other,
        ] {
            part.both_ways(word)?;
        }
    }
    for length in (0..=4 * FIELDS).filter(|&length| length != FIELDS) {
        for _ in 0..100 {
            let word = part.rng.word();
            part.take_apart(word, length)?;
            let mut fields = vec![0; length];
            fields.fill_with(|| part.rng.pick(&COMMANDS));
            part.put_together(&fields)?;
        }
    }
    for address in ADDRESSES {
        for command in COMMANDS {
            for increment in INCREMENTS {
                for count in COUNTS {
                    part.put_together(&[address, command, increment, count])?;
                }
            }
        }
    }
    for _ in 0..count {
        let fields = any_fields(&mut part.rng);
        part.put_together(&fields)?;
    }
    Ok(vec![part.taken, part.put])
}

struct Part {
    rng: Rng,
    room: Lent<u32>,
    taken: Tally,
    put: Tally,
}

impl Part {
    fn both_ways(&mut self, word: u32) -> Result<(), String> {
        self.take_apart(word, FIELDS)?;
        self.put_together(&to_numbers(Header::from_word(word)))?;
        both_ways_wrapped(word)
    }

    fn take_apart(&mut self, word: u32, length: usize) -> Result<(), String> {
        let rng = &mut self.rng;
        self.room.change(|room| room.fill_with(|| rng.word()));
        let (library, model) = self.room.lend(length);
        let answer = exports::header(word, library);
        let expected = header(word, model);
        let context = |what: String| format!("header {word:08X} in {length} numbers: {what}");
        same(answer, expected).map_err(context)?;
        self.room.compare(expected != 0).map_err(context)?;
        self.taken.ending(expected);
        Ok(())
    }

    fn put_together(&mut self, fields: &[u32]) -> Result<(), String> {
        let before = self.rng.word();
        let (mut library, mut model) = (before, before);
        let lent = fields.to_vec();
        let answer = exports::header_word(&lent, &mut library);
        let expected = header_word(fields, &mut model);
        let context = |what: String| format!("header of {fields:X?}, {before:08X} before: {what}");
        same(answer, expected).map_err(context)?;
        same_input(&lent, fields).map_err(context)?;
        if library != model {
            let what = format!("the library's word is {library:08X}, expected {model:08X}");
            return Err(context(what));
        }
        self.count(fields, expected);
        Ok(())
    }

    fn count(&mut self, fields: &[u32], number: u32) {
        self.put.ending(number);
        let &[_, command, _, count] = fields else {
            return;
        };
        let is_command = |command| command == 0xA || command == 0xB;
        let is_count = |count| (1..=127).contains(&count);
        let before_32 = number == 13 && !is_command(command);
        self.put.situation(BEFORE_32, before_32);
        self.put
            .situation(BEFORE_33, number == 32 && !is_count(count));
        let low_command = number == 32 && command > 255 && is_command(command & 0xFF);
        self.put.situation(LOW_COMMAND, low_command);
        let low_count = number == 33 && count > 255 && is_count(count & 0xFF);
        self.put.situation(LOW_COUNT, low_count);
        self.put.situation(COUNT_127, number == 0 && count == 127);
    }
}

/// Fields that are in range, at an end of it, or anywhere.
pub fn any_fields(rng: &mut Rng) -> [u32; FIELDS] {
    let good = [
        rng.word() & 0xFFFF,
        rng.pick(&[0xA, 0xB]),
        rng.below(2) as u32,
        rng.between(1, 127) as u32,
    ];
    let ends = [
        rng.pick(&ADDRESSES),
        rng.pick(&COMMANDS),
        rng.pick(&INCREMENTS),
        rng.pick(&COUNTS),
    ];
    let mut fields = good;
    for (field, end) in fields.iter_mut().zip(ends) {
        match rng.below(12) {
            0 => *field = end,
            1 => *field = rng.word(),
            _ => {}
        }
    }
    fields
}

fn same(answer: u32, expected: u32) -> Result<(), String> {
    if answer == expected {
        return Ok(());
    }
    Err(format!("the library answers {answer}, expected {expected}"))
}

/// What the export must do, by the independent implementation.
pub fn header(word: u32, room: &mut [u32]) -> u32 {
    if room.len() != FIELDS {
        return 13;
    }
    room.copy_from_slice(&to_numbers(Header::from_word(word)));
    0
}

/// What the export must do, by the independent implementation.
pub fn header_word(fields: &[u32], word: &mut u32) -> u32 {
    match from_numbers(fields).and_then(|header| header.to_word().map_err(|r| r.number)) {
        Ok(put) => {
            *word = put;
            0
        }
        Err(number) => number,
    }
}

fn to_numbers(header: Header) -> [u32; FIELDS] {
    [
        header.address.into(),
        header.command.into(),
        header.increment.into(),
        header.count.into(),
    ]
}

/// The header, if there are four numbers, address and increment in range; else the refusal's number.
fn from_numbers(fields: &[u32]) -> Result<Header, u32> {
    let &[address, command, increment, count] = fields else {
        return Err(13);
    };
    let address = u16::try_from(address).or(Err(13u32))?;
    let increment = match increment {
        0 => false,
        1 => true,
        _ => return Err(13),
    };
    let command = u8::try_from(command).or(Err(32u32))?;
    // One that no byte holds is above 127 as well, which is asked after the command.
    let count = u8::try_from(count).unwrap_or(u8::MAX);
    Ok(Header {
        address,
        command,
        increment,
        count,
    })
}

/// The same through the wrapper's own types. Unused bits are lost.
fn both_ways_wrapped(word: u32) -> Result<(), String> {
    let header = head::header(word);
    let expected = Header::from_word(word);
    let wrapped = head::Header {
        address: expected.address,
        command: expected.command,
        increment: expected.increment,
        count: expected.count,
    };
    let put = head::header_word(&header).map_err(|refusal| refusal.number);
    if header != wrapped || put != expected.to_word().map_err(|refusal| refusal.number) {
        return Err(format!("wrapped header {word:08X}: {header:?}"));
    }
    Ok(())
}
