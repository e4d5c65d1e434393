//! Whether our card would have answered as a recording or a capture says.

use crate::answer::{Answer, Common};
use crate::ending::{Done, Refused, Stop};
use crate::input::{self, Input};
use crate::json::Object;
use crate::reason;
use crate::state::{From, State};
use crate::verdict::{self, Recording};
use crate::words::Words;
use std::ffi::OsStr;

pub const HELP: &str = "usage: lbp16 judge [--store FILE] [--pointers FILE] [--json] [RECORDING]

Says whether our card would have answered like that. RECORDING is packets and replies in turn, each behind \"LB\" and its
length, as lbp16 play writes them; or a capture of Wireshark or tcpdump (classic pcap). It may have any length. Exit 1
if the verdict is no: the first packet, reply or part at fault is named, in a capture with its frame.

  --store FILE      the card's store before the first packet, 65,728 bytes; a fresh card's where it is not given
  --pointers FILE   the card's 8 pointers, 4 bytes each, low byte first; all 0 where it is not given
";

/// What pcap files of either byte order, with microseconds or nanoseconds, begin with.
const PCAP: [[u8; 4]; 4] = [
    [0xD4, 0xC3, 0xB2, 0xA1],
    [0xA1, 0xB2, 0xC3, 0xD4],
    [0x4D, 0x3C, 0xB2, 0xA1],
    [0xA1, 0xB2, 0x3C, 0x4D],
];

const PCAPNG: [u8; 4] = [0x0A, 0x0D, 0x0D, 0x0A];

pub fn run(mut words: Words) -> Done {
    let (mut common, mut from) = (Common::default(), From::default());
    while let Some(option) = words.option()? {
        if !common.take_json(&option)? && !from.take(&option, &mut words)? {
            return words.unknown();
        }
    }
    let file = words.one_file()?;
    common.end(from.read().and_then(|state| judged(&file, state)))
}

fn judged(file: &OsStr, mut state: State) -> Result<Answer, Stop> {
    let recording = recording(input::read(file)?)?;
    let start = state.clone();
    let judged = head::judge(&recording.bytes, &mut state.store, &mut state.pointers);
    let object = Object::new().text("file", &recording.name);
    match judged {
        Ok(verdict) => Ok(verdict::said(&recording, verdict, start, &state, object)),
        Err(refusal) => {
            let said = format!("{refusal}: {}", reason::rule(refusal.number));
            Err(Stop::Failed(format!("{}: {said}", recording.name)))
        }
    }
}

/// A capture is told by its first four bytes.
fn recording(input: Input) -> Result<Recording, Stop> {
    let Input { name, bytes } = input;
    if bytes.starts_with(&PCAPNG) {
        return Err(Stop::Failed(format!(
            "{name}: a pcapng file, which is not read here: editcap -F pcap IN OUT makes a capture of it that is"
        )));
    }
    if !PCAP.iter().any(|magic| bytes.starts_with(magic)) {
        return Ok(Recording {
            name,
            bytes,
            frames: None,
        });
    }
    let (mut out, mut frames) = (vec![0; bytes.len()], vec![0; bytes.len() / 16]);
    match head::capture(&bytes, &mut out, &mut frames) {
        Ok(captured) => {
            out.truncate(captured.bytes);
            frames.truncate(captured.packets);
            Ok(Recording {
                name,
                bytes: out,
                frames: Some(frames),
            })
        }
        Err(refusal) => Err(Stop::Refused(unread(&name, refusal))),
    }
}

fn unread(name: &str, refusal: head::Refusal) -> Refused {
    let (number, frame) = (refusal.number, refusal.place);
    let sentence = head::sentence(number);
    let said = match number {
        91 => format!("refused 91: {sentence}"),
        _ => format!("refused {number} at frame {frame}: {sentence}"),
    };
    Refused {
        message: format!("{name}: {said}\n"),
        object: Object::new()
            .flag("accepted", false)
            .text("file", name)
            .number("refused", number)
            .number("frame", frame)
            .text("message", said),
    }
}
