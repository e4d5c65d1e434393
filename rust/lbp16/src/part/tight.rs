//! A cue list to packets in fewer bytes, and the check of such packets.

use crate::answer::{Answer, Common};
use crate::ending::{Done, Stop};
use crate::input;
use crate::json::Object;
use crate::list::{self, Form, List};
use crate::part::compile::packed;
use crate::shown::Count;
use crate::words::Words;
use head::tight::REJECTED;
use std::ffi::OsStr;

pub const HELP: &str = "usage: lbp16 tight [-o OUTPUT] [--text | --list] [--json] [LIST]
       lbp16 tight --check OUTPUT [--text | --list] [--json] [LIST]

Makes packets of a cue list, or a text, in fewer bytes where it can, and never in more than lbp16 compile.

  --check OUTPUT   says whether these packets, by whomever, may be sent for the list: they do what its records do, and
                   are no longer than the packing rule's. Exit 1 if not.
";

pub fn run(mut words: Words) -> Done {
    let (mut common, mut form, mut output) = (Common::default(), Form::default(), None);
    while let Some(option) = words.option()? {
        match option.as_str() {
            "--check" => output = Some(words.value("a file")?),
            _ if common.take(&option, &mut words)? || form.take(&option) => {}
            _ => return words.unknown(),
        }
    }
    let Some(output) = output else {
        return common.end(list::one(words, form).and_then(|list| packed(&list, head::tighten)));
    };
    if common.output.is_some() {
        return Err(Stop::Usage("--check makes no output: leave out -o".into()));
    }
    let list = words.one_file()?;
    if list == "-" && output == "-" {
        return Err(Stop::Usage(
            "standard input can be only one of the two".into(),
        ));
    }
    common.end(list::read(&list, form).and_then(|list| checked(&list, &output)))
}

fn checked(list: &List, output: &OsStr) -> Result<Answer, Stop> {
    let output = input::read(output)?;
    let object = Object::new()
        .text("file", &list.name)
        .text("output", &output.name);
    let (yes, words, object) = match head::tight_check(&list.bytes, &output.bytes) {
        Ok(packets) => (
            true,
            format!("{}: accepted, {}\n", output.name, Count(packets, "packet")),
            object.flag("accepted", true).number("packets", packets),
        ),
        Err(refusal) if refusal.number == REJECTED => {
            let said = format!("refused {REJECTED}: {}", head::sentence(REJECTED));
            (
                false,
                format!("{}: {said}\n", output.name),
                object
                    .flag("accepted", false)
                    .number("refused", REJECTED)
                    .text("message", said),
            )
        }
        Err(refusal) => return Err(Stop::Refused(list.refused(refusal))),
    };
    Ok(Answer {
        yes,
        words: words.into_bytes(),
        object,
        made: None,
    })
}
