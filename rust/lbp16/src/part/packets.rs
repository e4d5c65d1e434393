//! Compiled packets in words.

use crate::answer::{Answer, Common, Made};
use crate::ending::{Done, Stop};
use crate::input;
use crate::json::Object;
use crate::part::play;
use crate::shown::Count;
use crate::state::{From, State};
use crate::words::Words;
use std::ffi::OsStr;

pub const HELP: &str =
    "usage: lbp16 packets [--raw] [--pointers FILE] [-o TEXT] [--json] [OUTPUT]

Writes the packets of an output, as lbp16 compile makes it, in words: a line for each command. Of a packet that is refused
the commands before it, and the reason. Exit 1 if one is.

  --raw             the file is one packet as it went over the wire
  --pointers FILE   the card's 8 pointers before the first packet, 4 bytes each, low byte first; all 0 where it is not
                    given
";

pub fn run(mut words: Words) -> Done {
    let (mut common, mut from, mut raw) = (Common::default(), From::default(), false);
    while let Some(option) = words.option()? {
        match option.as_str() {
            "--raw" => raw = true,
            "--pointers" => {
                from.take(&option, &mut words)?;
            }
            _ if common.take(&option, &mut words)? => {}
            _ => return words.unknown(),
        }
    }
    let file = words.one_file()?;
    common.end(from.read().and_then(|state| in_words(&file, raw, state)))
}

fn in_words(file: &OsStr, raw: bool, mut state: State) -> Result<Answer, Stop> {
    let input = input::read(file)?;
    let packets = match raw {
        true => vec![&input.bytes[..]],
        false => play::packets(&input)?,
    };
    let (mut text, mut refused) = (String::new(), 0_u64);
    for (k, packet) in packets.iter().enumerate() {
        let lines = lines(packet, &mut state)?;
        text.push_str(&format!(
            "packet {k}, {}\n{lines}",
            Count(packet.len() as u64, "byte")
        ));
        refused += u64::from(state.run(packet).is_err());
    }
    let object = Object::new()
        .flag("accepted", refused == 0)
        .text("file", &input.name);
    Ok(Answer {
        yes: refused == 0,
        words: Vec::new(),
        object: object
            .count("packets", packets.len())
            .number("refused_packets", refused),
        made: Some(Made::Text(text.into_bytes())),
    })
}

/// The pointers are the state's own, which the run moves.
fn lines(packet: &[u8], state: &mut State) -> Result<String, Stop> {
    let mut pointers = state.pointers;
    let lines = head::packet_text(packet, &mut pointers);
    lines.map_err(|refusal| {
        Stop::Failed(format!(
            "{refusal}: {}",
            crate::reason::rule(refusal.number)
        ))
    })
}
