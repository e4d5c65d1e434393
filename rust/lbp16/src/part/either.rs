//! Whether two lists may be run in either order.

use crate::answer::{Answer, Common};
use crate::ending::{Done, Stop};
use crate::json::Object;
use crate::list::{self, Form, List};
use crate::words::Words;
use head::independent::CLASH;
use head::Dependent;
use std::ffi::OsString;

pub const HELP: &str = "usage: lbp16 either [--text | --list] [--json] FIRST SECOND

Says whether two cue lists, or texts, may be run in either order: neither writes a cell that the other names. Exit 1 if
not; the first record of the second list that clashes with the first is named.
";

pub fn run(mut words: Words) -> Done {
    let (mut common, mut form) = (Common::default(), Form::default());
    while let Some(option) = words.option()? {
        if !common.take_json(&option)? && !form.take(&option) {
            return words.unknown();
        }
    }
    let files = words.two_files()?;
    common.end(held(&files, form))
}

fn held(files: &[OsString; 2], form: Form) -> Result<Answer, Stop> {
    let lists = [list::read(&files[0], form)?, list::read(&files[1], form)?];
    match head::independent(&lists[0].bytes, &lists[1].bytes) {
        Ok(()) => {
            let [first, second] = [&lists[0].name, &lists[1].name];
            Ok(Answer {
                yes: true,
                words: format!("{first} and {second} may be run in either order\n").into_bytes(),
                object: Object::new()
                    .flag("accepted", true)
                    .text("first", first)
                    .text("second", second),
                made: None,
            })
        }
        Err(dependent) => clash(&lists, dependent),
    }
}

fn clash(lists: &[List; 2], dependent: Dependent) -> Result<Answer, Stop> {
    let refused = lists[dependent.list as usize].refused(dependent.refusal);
    if dependent.refusal.number != CLASH {
        return Err(Stop::Refused(refused));
    }
    Ok(Answer {
        yes: false,
        words: refused.message.into_bytes(),
        object: refused.object,
        made: None,
    })
}
