//! Cue lists that are read: as bytes, or as text.

use crate::answer::with_room;
use crate::ending::{Refused, Stop};
use crate::input::{self, Input};
use crate::json::Object;
use crate::line::{self, words};
use crate::record::{Record, Wrong};
use crate::words::Words;
use head::Refusal;
use std::ffi::OsStr;

/// One more than the bytes of the longest list: the byte behind them shows refusal 21.
const MOST: u64 = 1_000_001;

/// How many of a file's first bytes say what it is.
const LOOKED_AT: usize = 64;

/// What a file is taken for.
#[derive(Clone, Copy, Default, PartialEq)]
pub enum Form {
    /// What its first bytes say.
    #[default]
    ByItself,
    Text,
    List,
}

impl Form {
    pub fn take(&mut self, option: &str) -> bool {
        match option {
            "--text" => *self = Form::Text,
            "--list" => *self = Form::List,
            _ => return false,
        }
        true
    }
}

/// A list, and the text that it was made of.
pub struct List {
    pub name: String,
    pub bytes: Vec<u8>,
    text: Option<Vec<u8>>,
}

/// A list is told by the mark that it begins with, or by a control character that no text has.
fn is_text(bytes: &[u8]) -> bool {
    let first = &bytes[..bytes.len().min(LOOKED_AT)];
    let marked = first.starts_with(b"RD") || first.starts_with(b"WR");
    let control = |byte: &u8| *byte < 0x20 && !b"\t\n\r".contains(byte);
    !(marked || first.is_empty() || first.iter().any(control))
}

/// Reads a list, and assembles it where it is text.
pub fn read(file: &OsStr, form: Form) -> Result<List, Stop> {
    let mut input = input::read_most(file, MOST)?;
    if form == Form::Text || form == Form::ByItself && is_text(&input.bytes) {
        if input.bytes.len() as u64 == MOST {
            input = whole(file, input)?;
        }
        let bytes = assembled(&input)?.0;
        return Ok(List {
            name: input.name,
            bytes,
            text: Some(input.bytes),
        });
    }
    Ok(List {
        name: input.name,
        bytes: input.bytes,
        text: None,
    })
}

/// The rest of a text that is longer than lists are.
fn whole(file: &OsStr, mut input: Input) -> Result<Input, Stop> {
    match file == "-" {
        true => input.bytes.extend(input::read(file)?.bytes),
        false => input = input::read(file)?,
    }
    Ok(input)
}

/// The list that a text says, and its records.
pub fn assembled(input: &Input) -> Result<(Vec<u8>, u64), Stop> {
    let text = &input.bytes;
    match with_room(|room| head::assemble(text, room)) {
        Ok((assembled, list)) => Ok((list, assembled.records)),
        Err(refusal) => Err(Stop::Refused(bad_line(input, refusal))),
    }
}

fn bad_line(input: &Input, refusal: Refusal) -> Refused {
    let Refusal { number, place, .. } = refusal;
    let said = format!(
        "refused {number}: {}",
        line::wrong(&input.bytes, place as usize, number)
    );
    Refused {
        message: format!("{}:{place}: {said}\n", input.name),
        object: Object::new()
            .flag("accepted", false)
            .text("file", &input.name)
            .number("refused", number)
            .number("line", place)
            .text("message", said),
    }
}

impl List {
    /// What the library refuses the list with, in words.
    pub fn refused(&self, refusal: Refusal) -> Refused {
        let object = Object::new()
            .flag("accepted", false)
            .text("file", &self.name)
            .number("refused", refusal.number)
            .number("place", refusal.place);
        let (said, object) = match head::list_why(&self.bytes) {
            Some(fault) => (
                Wrong(&fault, &self.bytes).to_string(),
                object.count("byte", fault.offset),
            ),
            None => self.at_record(refusal, object),
        };
        Refused {
            message: format!("{}: {said}\n", self.place(refusal.place)),
            object: object.text("message", said),
        }
    }

    /// A refusal of a good list, at one of its records.
    fn at_record(&self, refusal: Refusal, object: Object) -> (String, Object) {
        let sentence = head::sentence(refusal.number);
        match Record::number(&self.bytes, refusal.place) {
            Some((offset, record)) => (
                format!("{refusal} (byte {offset}): {record}: {sentence}"),
                object
                    .count("byte", offset)
                    .text("record", record.to_string()),
            ),
            None => (format!("{refusal}: {sentence}"), object),
        }
    }

    /// Where a record stands: the file and, of a text, its line.
    pub fn place(&self, record: u64) -> String {
        let line = self.text.as_deref().and_then(|text| line_of(text, record));
        match line {
            Some(line) => format!("{}:{line}", self.name),
            None => self.name.clone(),
        }
    }
}

/// The line of a good text's record: records are the lines that begin with read or write.
fn line_of(text: &[u8], record: u64) -> Option<usize> {
    let lines = text.split(|byte| *byte == b'\n').zip(1..);
    let mut records = lines.filter(|(line, _)| matches!(words(line)[..], [b"read" | b"write", ..]));
    records.nth(record as usize).map(|(_, line)| line)
}

/// The words of a part that takes one list and how it is read.
pub fn one(words: Words, form: Form) -> Result<List, Stop> {
    read(&words.one_file()?, form)
}
