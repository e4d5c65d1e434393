//! Whether a list writes a protected cell.

use crate::answer::{Answer, Common};
use crate::ending::{Done, Stop};
use crate::json::Object;
use crate::list::{self, Form, List};
use crate::protect::Guard;
use crate::shown::Count;
use crate::words::Words;
use head::guard::PROTECTED;

pub const HELP: &str = "usage: lbp16 guard --protect SPACE:FIRST-LAST [--protect ..] [--text | --list] [--json] [LIST]

Holds a cue list, or a text, against cells that nothing may write. Exit 1 if a record writes one of them; the first such
record is named. Of a list that passes every compiled packet passes too.

  --protect SPACE:FIRST-LAST   the bytes at these addresses of space 0, 2, 6 or 7, both included, decimal or with 0x:
                               --protect 0:0x1000-0x1003 for register 0x1000
";

pub fn run(mut words: Words) -> Done {
    let (mut common, mut form, mut guard) = (Common::default(), Form::default(), Guard::default());
    while let Some(option) = words.option()? {
        match option.as_str() {
            "--protect" => guard.add(words.text("SPACE:FIRST-LAST")?)?,
            _ if common.take_json(&option)? || form.take(&option) => {}
            _ => return words.unknown(),
        }
    }
    let guard = guard.sound()?;
    if guard.is_empty() {
        return Err(Stop::Usage(
            "say with --protect SPACE:FIRST-LAST what is protected".into(),
        ));
    }
    common.end(list::one(words, form).and_then(|list| held(&list, &guard)))
}

fn held(list: &List, guard: &[u32]) -> Result<Answer, Stop> {
    match head::guarded_list(&list.bytes, guard) {
        Ok(records) => Ok(Answer {
            yes: true,
            words: format!("{}: passes, {}\n", list.name, Count(records, "record")).into_bytes(),
            object: Object::new()
                .flag("accepted", true)
                .text("file", &list.name)
                .number("records", records),
            made: None,
        }),
        Err(refusal) => {
            let refused = list.refused(refusal);
            if refusal.number != PROTECTED {
                return Err(Stop::Refused(refused));
            }
            Ok(Answer {
                yes: false,
                words: refused.message.into_bytes(),
                object: refused.object,
                made: None,
            })
        }
    }
}
