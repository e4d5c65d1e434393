//! Whether a packet is accepted, and why not.

use crate::answer::{Answer, Common};
use crate::ending::{Done, Stop};
use crate::frames;
use crate::input::{self, Input};
use crate::json::Object;
use crate::reason;
use crate::shown::Count;
use crate::state::{From, State};
use crate::words::Words;

pub const HELP: &str = "usage: lbp16 why [--raw | --hex] [--store FILE] [--pointers FILE] [--json] [FILE]
       lbp16 why --packet HEX [--store FILE] [--pointers FILE] [--json]

Says whether a packet is accepted, or else the rule that it breaks and the command at fault. Exit 1 if it is refused.

The file holds one packet as it went over the wire; or packets behind \"LB\" and a length each, as lbp16 compile makes
them, which are run one after the other up to the first that is refused.

  --hex             the file holds hexadecimal digits; blanks, colons and line ends between them don't count
  --packet HEX      the packet's digits themselves
  --raw             the file is one packet, even where it could be packets behind \"LB\"
  --store FILE      the card's store before the packet, 65,728 bytes; a fresh card's where it is not given
  --pointers FILE   the card's 8 pointers, 4 bytes each, low byte first; all 0 where it is not given
";

#[derive(Default)]
struct Options {
    common: Common,
    from: From,
    hex: bool,
    raw: bool,
    packet: Option<String>,
}

pub fn run(mut words: Words) -> Done {
    let mut options = Options::default();
    while let Some(option) = words.option()? {
        match option.as_str() {
            "--hex" => options.hex = true,
            "--raw" => options.raw = true,
            "--packet" => options.packet = Some(words.text("hexadecimal digits")?),
            _ if options.common.take_json(&option)?
                || options.from.take(&option, &mut words)? => {}
            _ => return words.unknown(),
        }
    }
    let answered = explained(words, &options);
    options.common.end(answered)
}

fn explained(words: Words, options: &Options) -> Result<Answer, Stop> {
    let input = given(words, options)?;
    let mut state = options.from.read()?;
    let object = Object::new().text("file", &input.name);
    let parts = match options.raw {
        true => None,
        false if input.bytes.is_empty() => None,
        false => frames::parts(&input.bytes),
    };
    Ok(match parts {
        Some(parts) => several(&parts, &mut state, object),
        None => {
            let mut answer = one(&input.bytes, &state, object);
            answer
                .words
                .extend(looks_like(&input.bytes, options).bytes());
            answer
        }
    })
}

/// Of an input that was judged as one packet and may be meant otherwise.
fn looks_like(bytes: &[u8], options: &Options) -> &'static str {
    let given = options.raw || options.hex || options.packet.is_some();
    let digits = bytes_of(bytes, "").is_ok_and(|bytes| !bytes.is_empty());
    match frames::first(bytes) {
        Some((part, _)) if !part.is_empty() && !options.raw => {
            "the input begins with a packet behind \"LB\", and is cut or has no mark further on\n"
        }
        _ if digits && !given => "the input looks like hexadecimal text: try --hex\n",
        _ => "",
    }
}

/// The packet or packets that are asked about.
fn given(words: Words, options: &Options) -> Result<Input, Stop> {
    if let Some(digits) = &options.packet {
        words.no_files()?;
        let name = "(packet)".to_string();
        let bytes = bytes_of(digits.as_bytes(), "--packet")?;
        return Ok(Input { name, bytes });
    }
    let mut input = input::read(&words.one_file()?)?;
    if options.hex {
        input.bytes = bytes_of(&input.bytes, &input.name)?;
    }
    Ok(input)
}

/// The bytes that hexadecimal digits say.
fn bytes_of(text: &[u8], name: &str) -> Result<Vec<u8>, Stop> {
    let between = |byte: &&u8| !byte.is_ascii_whitespace() && **byte != b':';
    let digits: Option<Vec<u8>> = text
        .iter()
        .filter(between)
        .map(|digit| char::from(*digit).to_digit(16).map(|digit| digit as u8))
        .collect();
    match digits {
        Some(digits) if digits.len() % 2 == 0 => Ok(digits
            .chunks(2)
            .map(|pair| 16 * pair[0] + pair[1])
            .collect()),
        Some(_) => Err(Stop::Failed(format!(
            "{name}: an odd number of hexadecimal digits"
        ))),
        None => Err(Stop::Failed(format!(
            "{name}: something else than hexadecimal digits"
        ))),
    }
}

fn one(packet: &[u8], state: &State, object: Object) -> Answer {
    match reason::of(packet, state) {
        Some((lines, reason)) => Answer {
            yes: false,
            words: lines.into_bytes(),
            object: object.flag("accepted", false).object("reason", &reason),
            made: None,
        },
        None => Answer {
            yes: true,
            words: match packet {
                [] => b"accepted, no commands\n".to_vec(),
                _ => b"accepted\n".to_vec(),
            },
            object: object.flag("accepted", true).number("packets", 1_u64),
            made: None,
        },
    }
}

/// Each runs on what the one before left.
fn several(packets: &[&[u8]], state: &mut State, object: Object) -> Answer {
    for (k, packet) in packets.iter().enumerate() {
        if let Some((lines, reason)) = reason::of(packet, state) {
            return Answer {
                yes: false,
                words: format!("packet {k}: {lines}").into_bytes(),
                object: object
                    .flag("accepted", false)
                    .count("packet", k)
                    .object("reason", &reason),
                made: None,
            };
        }
        // It was accepted in this very state.
        let _ = state.run(packet);
    }
    let packets = packets.len() as u64;
    Answer {
        yes: true,
        words: format!("accepted, {}\n", Count(packets, "packet")).into_bytes(),
        object: object.flag("accepted", true).number("packets", packets),
        made: None,
    }
}
