//! A cue list to text.

use crate::answer::{of_one_file, with_room, Answer, Made};
use crate::ending::{Done, Stop};
use crate::json::Object;
use crate::list::{self, Form};
use crate::words::Words;
use std::ffi::OsStr;

pub const HELP: &str = "usage: lbp16 dis [-o TEXT] [--json] [LIST]

Writes a cue list as text, a line for each record. lbp16 asm makes the same list of it again.
";

pub fn run(words: Words) -> Done {
    of_one_file(words, made)
}

fn made(file: &OsStr) -> Result<Answer, Stop> {
    let list = list::read(file, Form::List)?;
    let text = with_room(|room| head::list_text(&list.bytes, room));
    let (written, text) = text.map_err(|refusal| Stop::Refused(list.refused(refusal)))?;
    let object = Object::new()
        .flag("accepted", true)
        .text("file", &list.name);
    Ok(Answer {
        yes: true,
        words: Vec::new(),
        object: object.number("records", written.lines),
        made: Some(Made::Text(text)),
    })
}
