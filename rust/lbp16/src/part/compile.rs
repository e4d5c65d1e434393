//! A cue list to packets, by the packing rule.

use crate::answer::{with_room, Answer, Common, Made};
use crate::ending::{Done, Stop};
use crate::json::Object;
use crate::list::{self, Form, List};
use crate::words::Words;
use head::{Compiled, Refusal};

pub const HELP: &str = "usage: lbp16 compile [-o OUTPUT] [--text | --list] [--json] [LIST]

Compiles a cue list, or a text, to packets by the packing rule. In the output each packet stands behind \"LB\" and its
length. A list that is refused gives no output at all.

What begins with the mark RD or WR, has a control character in its first 64 bytes, or is empty is a list; all else is
text. --text and --list say it.
";

pub fn run(mut words: Words) -> Done {
    let (mut common, mut form) = (Common::default(), Form::default());
    while let Some(option) = words.option()? {
        if !common.take(&option, &mut words)? && !form.take(&option) {
            return words.unknown();
        }
    }
    common.end(list::one(words, form).and_then(|list| packed(&list, head::compile)))
}

/// The packets that a function of the library makes of a list.
pub fn packed(
    list: &List,
    pack: fn(&[u8], &mut [u8]) -> Result<Compiled, Refusal>,
) -> Result<Answer, Stop> {
    let packed = with_room(|room| pack(&list.bytes, room));
    let (compiled, mut output) = packed.map_err(|refusal| Stop::Refused(list.refused(refusal)))?;
    output.truncate(compiled.bytes);
    let object = Object::new()
        .flag("accepted", true)
        .text("file", &list.name);
    Ok(Answer {
        yes: true,
        words: Vec::new(),
        object: object
            .number("packets", compiled.packets)
            .count("bytes", compiled.bytes),
        made: Some(Made::Bytes(output)),
    })
}
