//! A text to a cue list.

use crate::answer::{of_one_file, Answer, Made};
use crate::ending::{Done, Stop};
use crate::json::Object;
use crate::words::Words;
use crate::{input, list};
use std::ffi::OsStr;

pub const HELP: &str = "usage: lbp16 asm [-o LIST] [--json] [TEXT]

Makes a cue list of a text. A line of the text is one of

    read SPACE ADDRESS            read NAME
    write SPACE ADDRESS VALUE     write NAME VALUE
    name NAME SPACE ADDRESS

SPACE is registers, eeprom, status, information or a number. Numbers are decimal, or hexadecimal behind 0x.
A # starts a comment. A line that is refused is named as FILE:LINE.
";

pub fn run(words: Words) -> Done {
    of_one_file(words, made)
}

fn made(file: &OsStr) -> Result<Answer, Stop> {
    let input = input::read(file)?;
    let (list, records) = list::assembled(&input)?;
    let object = Object::new()
        .flag("accepted", true)
        .text("file", &input.name);
    Ok(Answer {
        yes: true,
        words: Vec::new(),
        object: object.number("records", records).count("bytes", list.len()),
        made: Some(Made::Bytes(list)),
    })
}
