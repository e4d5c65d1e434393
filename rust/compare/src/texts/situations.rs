//! What texts and lists are worth meeting.

use crate::call::Answered;
use crate::tally::Tally;
use crate::Answer;
use model::cue::{Record, Records};
use model::store::Space;
use model::text::{assemble, FORM, MOST_NAMES, NAME, NAME_BYTES, NUMBER};

const ENDINGS: [u32; 8] = [0, 21, 23, 24, 26, FORM, NUMBER, NAME];

const SITUATIONS: [&str; 50] = [
    EMPTY,
    NO_RECORD,
    FORMS[0],
    FORMS[1],
    FORMS[2],
    FORMS[3],
    FORMS[4],
    SPACE_NUMBER,
    DECIMAL,
    SMALL_X,
    LARGE_X,
    BOTH_CASES,
    ZEROS,
    LARGEST,
    TABS,
    CARRIAGE_RETURN,
    TOUCHING,
    HIDDEN,
    NO_NEWLINE,
    LONGEST_NAME,
    ALL_NAMES,
    HUNDRED_THOUSAND,
    NAMES_BEHIND,
    SHORT_BY_ONE,
    EXACT_ROOM,
    LARGER_ROOM,
    NO_FIRST_WORD,
    WORDS,
    NO_DIGITS,
    TOO_LARGE,
    WRAPPED,
    FIRST_FORM,
    NUMBER_AND_NAME,
    NO_NAME,
    TOO_LONG,
    RESERVED,
    UNKNOWN,
    ABOVE,
    TWICE,
    ONE_MORE,
    NAME_AND_CELL,
    CELL_OF_NAME,
    READ_ONLY_NAME,
    CELL_AND_VALUE,
    WIDE_NAME,
    LIMIT_AND_RECORD,
    LATER[0],
    LATER[1],
    LATER[2],
    LATER[3],
];
const EMPTY: &str = "empty text accepted";
const NO_RECORD: &str = "several lines without a record accepted";
/// Accepted, with a line of each form.
const FORMS: [&str; 5] = [
    "accepted with read SPACE ADDRESS",
    "accepted with read NAME",
    "accepted with write SPACE ADDRESS VALUE",
    "accepted with write NAME VALUE",
    "accepted with name NAME SPACE ADDRESS",
];
const SPACE_NUMBER: &str = "accepted with a space by its number";
const DECIMAL: &str = "accepted with a decimal number";
const SMALL_X: &str = "accepted with a number behind 0x";
const LARGE_X: &str = "accepted with a number behind 0X";
const BOTH_CASES: &str = "accepted with hex digits of both cases in a word";
const ZEROS: &str = "accepted with 20 zeros in front or more";
const LARGEST: &str = "accepted with a value above 4,000,000,000";
const TABS: &str = "accepted with a tab between words";
const CARRIAGE_RETURN: &str = "accepted with a carriage return before the newline";
const TOUCHING: &str = "accepted with a comment right behind a word";
const HIDDEN: &str = "accepted with a record in a comment";
const NO_NEWLINE: &str = "accepted with a record in a last line without newline";
const LONGEST_NAME: &str = "accepted with a name of 32 bytes used";
const ALL_NAMES: &str = "accepted with 1,000 names";
const HUNDRED_THOUSAND: &str = "accepted with 100,000 records";
const NAMES_BEHIND: &str = "accepted with a name behind the hundred-thousandth record";
const SHORT_BY_ONE: &str = "room too small by one byte";
const EXACT_ROOM: &str = "output that fills its room";
const LARGER_ROOM: &str = "room beyond the output";
const NO_FIRST_WORD: &str = "refused 81 for its first word";
const WORDS: &str = "refused 81 for its number of words";
const NO_DIGITS: &str = "refused 82 for 0x alone";
const TOO_LARGE: &str = "refused 82 for a number that is too large";
const WRAPPED: &str = "refused 82 for a number that is good modulo 2 to the 32 or 64";
const FIRST_FORM: &str = "refused 82 for a name that is known, before an address";
const NUMBER_AND_NAME: &str = "refused 82 where the name is at fault too";
const NO_NAME: &str = "refused 83 for a word that is no name";
const TOO_LONG: &str = "refused 83 for a name of 33 bytes";
const RESERVED: &str = "refused 83 for one of the seven words";
const UNKNOWN: &str = "refused 83 for a name that is nowhere defined";
const ABOVE: &str = "refused 83 for a name used above its definition";
const TWICE: &str = "refused 83 for a name defined twice";
const ONE_MORE: &str = "refused 83 for the 1,001st name";
const NAME_AND_CELL: &str = "refused 83 where the cell is at fault too";
const CELL_OF_NAME: &str = "refused 23 for a name's cell";
const READ_ONLY_NAME: &str = "refused 23 for a write by name";
const CELL_AND_VALUE: &str = "refused 23 where the value has more than 16 bits";
const WIDE_NAME: &str = "refused 24 for a write by name";
const LIMIT_AND_RECORD: &str = "refused 21 where the record is at fault too";
/// Numbers 23, 81, 82 and 83 at a line that isn't the first.
const LATER: [&str; 4] = [
    "refused 23 past the first line",
    "refused 81 past the first line",
    "refused 82 past the first line",
    "refused 83 past the first line",
];

const LIST_ENDINGS: [u32; 6] = [0, 21, 22, 23, 24, 26];

const LIST_SITUATIONS: [&str; 11] = [
    NO_LINE,
    SPACES[0],
    SPACES[1],
    SPACES[2],
    SPACES[3],
    READ,
    WRITTEN,
    HUNDRED_THOUSAND,
    SHORT_BY_ONE,
    EXACT_ROOM,
    LARGER_ROOM,
];
const NO_LINE: &str = "empty list written";
const SPACES: [&str; 4] = [
    "written with the registers",
    "written with the EEPROM",
    "written with the status space",
    "written with the information space",
];
const READ: &str = "written with a read";
const WRITTEN: &str = "written with a write";

pub fn tally_of_texts() -> Tally {
    Tally::new("texts", &ENDINGS, &SITUATIONS)
}

pub fn tally_of_lists() -> Tally {
    Tally::new("lists as text", &LIST_ENDINGS, &LIST_SITUATIONS)
}

pub fn count_text(tally: &mut Tally, text: &[u8], room: usize, (number, value): Answer) {
    tally.ending(number);
    count_room(tally, room, (number, value));
    let lines: Vec<Line> = text.split(|&byte| byte == b'\n').map(Line::new).collect();
    match number {
        0 => count_accepted(tally, text, &lines),
        26 => {}
        _ => count_refused(tally, &lines, number, value as usize - 1),
    }
}

fn count_room(tally: &mut Tally, room: usize, (number, value): Answer) {
    let needed = value as usize;
    tally.situation(SHORT_BY_ONE, number == 26 && room + 1 == needed);
    tally.situation(EXACT_ROOM, number == 0 && room == needed && needed > 0);
    tally.situation(LARGER_ROOM, number == 0 && room > needed);
}

pub fn count_list(tally: &mut Tally, list: &[u8], room: usize, (number, value, lines): Answered) {
    tally.ending(number);
    count_room(tally, room, (number, value));
    if number != 0 {
        return;
    }
    let records: Vec<Record> = Records::new(list).map_while(Result::ok).collect();
    let with = |kind: &dyn Fn(&Record) -> bool| records.iter().any(kind);
    tally.situation(NO_LINE, list.is_empty());
    for space in Space::ALL {
        let found = with(&|record| record.space == space);
        tally.situation(SPACES[space.index()], found);
    }
    tally.situation(READ, with(&|record| !record.is_write()));
    tally.situation(WRITTEN, with(&Record::is_write));
    tally.situation(HUNDRED_THOUSAND, lines == 100_000);
}

/// A line and its words.
struct Line<'a> {
    bytes: &'a [u8],
    words: Vec<&'a [u8]>,
}

impl<'a> Line<'a> {
    fn new(bytes: &'a [u8]) -> Line<'a> {
        let said = bytes.split(|&byte| byte == b'#').next().unwrap_or(&[]);
        let words = said.split(|byte| b" \t\r".contains(byte));
        Line {
            bytes,
            words: words.filter(|word| !word.is_empty()).collect(),
        }
    }

    /// The place of its form among [`FORMS`].
    fn form(&self) -> Option<usize> {
        match (self.words.first()?, self.words.len()) {
            (&b"read", 3) => Some(0),
            (&b"read", 2) => Some(1),
            (&b"write", 4) => Some(2),
            (&b"write", 3) => Some(3),
            (&b"name", 4) => Some(4),
            _ => None,
        }
    }

    /// The words where numbers may stand, each with the largest.
    fn numbers(&self) -> Vec<(&'a [u8], u128)> {
        const SPACE: u128 = 0xFF;
        const ADDRESS: u128 = 0xFFFF;
        const VALUE: u128 = 0xFFFF_FFFF;
        let largest: &[u128] = match self.form() {
            Some(0) => &[SPACE, ADDRESS],
            Some(2) => &[SPACE, ADDRESS, VALUE],
            Some(3) => &[VALUE],
            Some(4) => &[SPACE, ADDRESS],
            _ => &[],
        };
        let first = self.words.len() - largest.len();
        let words = self.words[first..].iter().copied();
        words.zip(largest.iter().copied()).collect()
    }

    /// The name that it defines.
    fn defines(&self) -> Option<&'a [u8]> {
        (self.form() == Some(4)).then(|| self.words[1])
    }

    /// The name that it uses.
    fn uses(&self) -> Option<&'a [u8]> {
        matches!(self.form(), Some(1 | 3)).then(|| self.words[1])
    }

    fn is_record(&self) -> bool {
        self.form().is_some_and(|form| form < 4)
    }
}

fn count_accepted(tally: &mut Tally, text: &[u8], lines: &[Line]) {
    let with = |kind: &dyn Fn(&Line) -> bool| lines.iter().any(kind);
    let records = lines.iter().filter(|line| line.is_record()).count();
    let names = lines.iter().filter_map(Line::defines).count();
    tally.situation(EMPTY, text.is_empty());
    tally.situation(NO_RECORD, records == 0 && lines.len() > 2);
    for (form, name) in FORMS.into_iter().enumerate() {
        tally.situation(name, with(&|line| line.form() == Some(form)));
    }
    count_numbers(tally, lines);
    let blank = |line: &Line, byte: u8| line.words.len() > 1 && line.bytes.contains(&byte);
    tally.situation(TABS, with(&|line| blank(line, b'\t')));
    let ended = |line: &Line| line.is_record() && line.bytes.ends_with(b"\r");
    tally.situation(CARRIAGE_RETURN, with(&ended));
    let touching = |line: &Line| {
        let end = line.bytes.iter().position(|&byte| byte == b'#');
        end.is_some_and(|end| {
            line.words
                .last()
                .is_some_and(|word| line.bytes[..end].ends_with(word))
        })
    };
    tally.situation(TOUCHING, with(&touching));
    let hidden = |line: &Line| {
        let comment = line.bytes.split(|&byte| byte == b'#').nth(1);
        comment.is_some_and(|comment| Line::new(comment).is_record())
    };
    tally.situation(HIDDEN, with(&hidden));
    tally.situation(NO_NEWLINE, lines.last().is_some_and(Line::is_record));
    let longest = |line: &Line| line.uses().is_some_and(|name| name.len() == NAME_BYTES);
    tally.situation(LONGEST_NAME, with(&longest));
    tally.situation(ALL_NAMES, names == MOST_NAMES);
    tally.situation(HUNDRED_THOUSAND, records == 100_000);
    let last = lines.iter().rposition(Line::is_record).unwrap_or(0);
    let behind = lines[last..].iter().any(|line| line.defines().is_some());
    tally.situation(NAMES_BEHIND, records == 100_000 && behind);
}

fn count_numbers(tally: &mut Tally, lines: &[Line]) {
    let words: Vec<&[u8]> = lines
        .iter()
        .flat_map(|line| line.numbers().into_iter().map(|(word, _)| word))
        .filter(|word| word[0].is_ascii_digit())
        .collect();
    let with = |kind: &dyn Fn(&[u8]) -> bool| words.iter().any(|word| kind(word));
    let hex = |word: &[u8]| word.starts_with(b"0x") || word.starts_with(b"0X");
    let digits = |word: &[u8]| word.get(2..).unwrap_or(&[]).to_vec();
    let both = |word: &[u8]| {
        let digits = digits(word);
        let has = |kind: fn(&u8) -> bool| digits.iter().any(kind);
        hex(word) && has(u8::is_ascii_lowercase) && has(u8::is_ascii_uppercase)
    };
    let zeros = |word: &[u8]| {
        let digits = if hex(word) { &word[2..] } else { word };
        digits.iter().take_while(|&&digit| digit == b'0').count() >= 20
    };
    let space = |line: &Line| {
        let numbers = line.numbers();
        numbers.len() > 1 && numbers[0].0[0].is_ascii_digit()
    };
    tally.situation(SPACE_NUMBER, lines.iter().any(space));
    tally.situation(DECIMAL, with(&|word| !hex(word)));
    tally.situation(SMALL_X, with(&|word| word.starts_with(b"0x")));
    tally.situation(LARGE_X, with(&|word| word.starts_with(b"0X")));
    tally.situation(BOTH_CASES, with(&both));
    tally.situation(ZEROS, with(&zeros));
    tally.situation(LARGEST, with(&|word| value(word) > Some(4_000_000_000)));
}

fn count_refused(tally: &mut Tally, lines: &[Line], number: u32, index: usize) {
    let (line, above) = (&lines[index], &lines[..index]);
    let known = |name: &[u8]| above.iter().any(|line| line.defines() == Some(name));
    let later = [23, FORM, NUMBER, NAME]
        .iter()
        .position(|&one| one == number);
    if let Some(later) = later {
        tally.situation(LATER[later], index > 0);
    }
    match number {
        21 => tally.situation(LIMIT_AND_RECORD, refused_alone(line.bytes) == 23),
        23 => {
            tally.situation(CELL_OF_NAME, line.defines().is_some());
            tally.situation(READ_ONLY_NAME, line.uses().is_some());
            let wide = line.form() == Some(2) && value(line.words[3]) > Some(0xFFFF);
            tally.situation(CELL_AND_VALUE, wide);
        }
        24 => tally.situation(WIDE_NAME, line.uses().is_some()),
        FORM => {
            let first = matches!(line.words[0], b"read" | b"write" | b"name");
            tally.situation(NO_FIRST_WORD, !first);
            tally.situation(WORDS, first);
        }
        NUMBER => {
            count_number(tally, line);
            tally.situation(FIRST_FORM, line.form() == Some(0) && known(line.words[1]));
            let used = line.uses().is_some_and(|name| !known(name));
            let defined = line
                .defines()
                .is_some_and(|name| known(name) || !is_name(name));
            tally.situation(NUMBER_AND_NAME, used || defined);
        }
        _ => count_name(tally, lines, index),
    }
}

fn count_number(tally: &mut Tally, line: &Line) {
    let numbers = line.numbers();
    let with = |kind: &dyn Fn(&[u8], u128) -> bool| {
        numbers.iter().any(|&(word, largest)| kind(word, largest))
    };
    let alone = |word: &[u8], _: u128| matches!(word, b"0x" | b"0X");
    let large = |word: &[u8], largest: u128| value(word) > Some(largest);
    let wrapped = |word: &[u8], largest: u128| {
        let value = value(word).unwrap_or(0);
        let good = |bits: u32| value >> bits > 0 && value % (1 << bits) <= largest;
        good(32) || good(64)
    };
    tally.situation(NO_DIGITS, with(&alone));
    tally.situation(TOO_LARGE, with(&large));
    tally.situation(WRAPPED, with(&wrapped));
}

fn count_name(tally: &mut Tally, lines: &[Line], index: usize) {
    let (line, above) = (&lines[index], &lines[..index]);
    let names: Vec<&[u8]> = above.iter().filter_map(Line::defines).collect();
    let word = line.words[1];
    let reserved = crate::lines::RESERVED.map(str::as_bytes);
    let is_reserved = reserved.contains(&word);
    let cut = word.len() == NAME_BYTES + 1 && is_name(&word[..NAME_BYTES]);
    tally.situation(
        NO_NAME,
        !is_name(word) && !is_reserved && word.len() <= NAME_BYTES,
    );
    tally.situation(TOO_LONG, cut);
    tally.situation(RESERVED, is_reserved);
    if line.uses().is_some() && is_name(word) {
        let below = lines[index..]
            .iter()
            .any(|line| line.defines() == Some(word));
        tally.situation(UNKNOWN, !below);
        tally.situation(ABOVE, below);
    }
    if line.defines().is_some() {
        let twice = names.contains(&word);
        tally.situation(TWICE, twice);
        let full = names.len() == MOST_NAMES && is_name(word);
        tally.situation(ONE_MORE, full && !twice);
        let read = [&b"read"[..], line.words[2], line.words[3]].join(&b' ');
        tally.situation(NAME_AND_CELL, refused_alone(&read) == 23);
    }
}

/// The value of a word that is a number, if it has less than 129 bits.
fn value(word: &[u8]) -> Option<u128> {
    let word = std::str::from_utf8(word).ok()?;
    let hex = word.strip_prefix("0x").or(word.strip_prefix("0X"));
    match hex {
        Some(digits) => u128::from_str_radix(digits, 16).ok(),
        None => word.parse().ok(),
    }
}

/// Whether a word may be a name.
fn is_name(word: &[u8]) -> bool {
    refused_alone(&[&b"name"[..], word, b"0 0"].join(&b' ')) == 0
}

/// What the line is refused with as a text of its own, 0 if it is good.
fn refused_alone(line: &[u8]) -> u32 {
    match assemble(line, &mut [0; 10]) {
        Ok(_) => 0,
        Err(refusal) => refusal.number,
    }
}
