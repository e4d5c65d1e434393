//! What is wrong with a line of a text, and with which of its words, as the program `cueasm` says it. Number and line are the
//! library's; here the word is looked for.

use crate::record::space;

/// How many bytes of a word are shown.
const SHOWN: usize = 32;

const FORMS: &str = "and what follows are none of: read SPACE ADDRESS, read NAME, \
                     write SPACE ADDRESS VALUE, write NAME VALUE, name NAME SPACE ADDRESS";
const NO_NAME: &str = "is no name: a letter, then letters, digits, _, - and ., 32 at most, \
                       and no word that a line has of its own";

/// The words of a line: what stands apart by blanks, up to a comment.
pub fn words(line: &[u8]) -> Vec<&[u8]> {
    let line = line.split(|byte| *byte == b'#').next().unwrap_or_default();
    let words = line.split(|byte| b" \t\r".contains(byte));
    words.filter(|word| !word.is_empty()).collect()
}

/// The word at fault in quotes, and what is wrong with it. Lines are counted from 1.
pub fn wrong(text: &[u8], line: usize, number: u32) -> String {
    let mut lines = text.split(|byte| *byte == b'\n');
    let above: Vec<&[u8]> = lines.by_ref().take(line - 1).collect();
    let words = words(lines.next().unwrap_or_default());
    let (word, says) = fault(number, &above, &words);
    let word = words.get(word).copied().unwrap_or_default();
    let shown = |byte: &u8| {
        if (0x20..0x7F).contains(byte) {
            char::from(*byte)
        } else {
            '?'
        }
    };
    let word: String = word.iter().take(SHOWN).map(shown).collect();
    format!("\"{word}\" {says}")
}

/// Which word it is, from 0.
fn fault(number: u32, above: &[&[u8]], words: &[&[u8]]) -> (usize, &'static str) {
    match (number, words) {
        (21, _) => (0, "is the 100001st record, and a list may have 100000"),
        (82, [b"read", space, _]) => place(1, space),
        (82, [b"write", space, address, _]) if is_place(space, address) => (3, NO_VALUE),
        (82, [b"write", space, _, _]) => place(1, space),
        (82, [b"write", _, _]) => (2, NO_VALUE),
        (82, [b"name", _, space, _]) => place(2, space),
        (83, [b"name", name, ..]) => (1, defined(above, name)),
        (83, [_, name, ..]) if is_name(name) => (1, "is not defined above"),
        (83, _) => (1, NO_NAME),
        (24, words) => (
            words.len() - 1,
            "has more than the 2 bytes of an element there",
        ),
        (23, [b"write", _, _]) => (1, "is read only"),
        (23, [b"read", space, address]) => element(false, 1, space, address),
        (23, [b"write", space, address, _]) => element(true, 1, space, address),
        (23, [_, _, space, address]) => element(false, 2, space, address),
        _ => (0, FORMS),
    }
}

const NO_VALUE: &str = "is no value: a number to 4294967295";

/// Of a space that is the word `at`, and an address behind it.
fn place(at: usize, space: &[u8]) -> (usize, &'static str) {
    match space_of(space) {
        None => (
            at,
            "is no space: registers, eeprom, status, information or a number to 255",
        ),
        Some(_) => (at + 1, "is no address: a number to 65535"),
    }
}

fn is_place(space: &[u8], address: &[u8]) -> bool {
    space_of(space).is_some() && number(address, 0xFFFF).is_some()
}

/// Of a name that is defined below these lines.
fn defined(above: &[&[u8]], name: &[u8]) -> &'static str {
    let defines =
        |line: &&[u8]| matches!(words(line)[..], [b"name", defined, _, _] if defined == name);
    match is_name(name) {
        false => NO_NAME,
        true if above.iter().any(defines) => "is defined above already",
        true => "is the 1001st name, and a text may have 1000",
    }
}

/// The first rule that an element breaks.
fn element(write: bool, at: usize, named: &[u8], address: &[u8]) -> (usize, &'static str) {
    let named = space_of(named).unwrap_or(u8::MAX);
    let address = number(address, 0xFFFF).unwrap_or(0);
    let Some((_, bytes, element)) = space(named) else {
        return (at, "is a space that the card does not have");
    };
    let read_only = match named {
        2 => 0x20,
        7 => bytes,
        _ => 0,
    };
    let says = match address {
        _ if !address.is_multiple_of(element) => {
            "is no multiple of an element's bytes: 4 in registers, else 2"
        }
        _ if address + element > bytes => "is past the end of the space",
        _ if write && address < read_only => "is read only",
        0x1A => "is the unlock cell, which a list may not name",
        _ => "is the packet count, which a list may not name",
    };
    (at + 1, says)
}

fn space_of(word: &[u8]) -> Option<u8> {
    match word {
        b"registers" => Some(0),
        b"eeprom" => Some(2),
        b"status" => Some(6),
        b"information" => Some(7),
        _ => number(word, 0xFF).map(|number| number as u8),
    }
}

/// A number in decimal, or in hexadecimal behind 0x, up to a greatest one.
fn number(word: &[u8], most: u32) -> Option<u32> {
    let (digits, radix) = match word {
        [b'0', b'x' | b'X', digits @ ..] => (digits, 16),
        digits => (digits, 10),
    };
    let mut number = (!digits.is_empty()).then_some(0_u64)?;
    for digit in digits {
        let digit = char::from(*digit).to_digit(radix)?;
        number = (number * u64::from(radix) + u64::from(digit)).min(1 << 32);
    }
    u32::try_from(number).ok().filter(|number| *number <= most)
}

fn is_name(word: &[u8]) -> bool {
    let own: [&[u8]; 7] = [
        b"read",
        b"write",
        b"name",
        b"registers",
        b"eeprom",
        b"status",
        b"information",
    ];
    let letters = word
        .iter()
        .all(|byte| byte.is_ascii_alphanumeric() || b"_-.".contains(byte));
    let first = word.first().is_some_and(u8::is_ascii_alphabetic);
    first && letters && word.len() <= 32 && !own.contains(&word)
}
