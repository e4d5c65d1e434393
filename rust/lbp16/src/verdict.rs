//! A verdict on a recording, in the words of the program `showcheck`.

use crate::answer::Answer;
use crate::frames;
use crate::json::Object;
use crate::reason;
use crate::shown::{Count, Hex};
use crate::state::State;
use head::{Verdict, PACKET_BYTES};
use std::fmt::Write;

/// How many bytes are shown of a packet that is too long, and on either side of a wrong byte.
const FIRST: usize = 16;
const AROUND: usize = 4;

/// Packets and replies in turn, and the frames of a capture.
pub struct Recording {
    pub name: String,
    pub bytes: Vec<u8>,
    pub frames: Option<Vec<u32>>,
}

impl Recording {
    /// A part's bytes, if it is there and whole.
    fn part(&self, k: u64) -> Option<&[u8]> {
        let mut rest = &self.bytes[..];
        for _ in 0..k {
            rest = frames::first(rest)?.1;
        }
        frames::first(rest).map(|(part, _)| part)
    }

    fn frame(&self, packet: u64) -> Option<u32> {
        self.frames.as_ref()?.get(packet as usize).copied()
    }

    /// A packet or part by its number, in a capture with its frame.
    fn placed(&self, thing: &str, k: u64, packet: u64) -> String {
        match self.frame(packet) {
            Some(frame) => format!("{thing} {k} (frame {frame})"),
            None => format!("{thing} {k}"),
        }
    }
}

/// What is answered. `start` is the card's state at first, `left` what the packets accepted so far left.
pub fn said(
    recording: &Recording,
    verdict: Verdict,
    start: State,
    left: &State,
    object: Object,
) -> Answer {
    let (number, words, object) = match verdict {
        Verdict::Yes(packets) => return yes(packets, object),
        Verdict::Packet(k) => refused(recording, k, left, object),
        Verdict::Length(k) => length(recording, k, object),
        Verdict::Byte(k, byte) => wrong(recording, k, byte, start, object),
        Verdict::Cut(part) => {
            let words = format!("{} is cut\n", recording.placed("part", part, part / 2));
            (64_u64, words, object.number("part", part))
        }
        Verdict::Unmarked(part) => {
            let words = format!("{} has no mark\n", recording.placed("part", part, part / 2));
            (65, words, object.number("part", part))
        }
    };
    let first = words.lines().next().unwrap_or_default();
    Answer {
        yes: false,
        object: object
            .flag("accepted", false)
            .number("refused", number)
            .text("message", first),
        words: words.into_bytes(),
        made: None,
    }
}

fn yes(packets: u64, object: Object) -> Answer {
    let words = match packets {
        0 => "yes, 0 packets: nothing to judge\n".to_string(),
        _ => format!("yes, {}\n", Count(packets, "packet")),
    };
    Answer {
        yes: true,
        words: words.into_bytes(),
        object: object.flag("accepted", true).number("packets", packets),
        made: None,
    }
}

fn at_packet(recording: &Recording, k: u64, object: Object) -> Object {
    let object = object.number("packet", k);
    match recording.frame(k) {
        Some(frame) => object.number("frame", frame),
        None => object,
    }
}

fn refused(recording: &Recording, k: u64, state: &State, object: Object) -> (u64, String, Object) {
    let packet = recording.part(2 * k).unwrap_or_default();
    let mut words = format!(
        "{} is refused: {}\n",
        recording.placed("packet", k, k),
        shown(packet)
    );
    let mut object = at_packet(recording, k, object);
    if let Some((lines, reason)) = reason::of(packet, state) {
        words.push_str(&lines);
        object = object.object("reason", &reason);
    }
    // A reply that is cut is one that came.
    let replied = match recording.part(2 * k + 1) {
        Some(reply) => !reply.is_empty(),
        None => recording.bytes.len() > end_of(recording, 2 * k),
    };
    if !replied {
        words.push_str("it has no reply: a card does not answer what it refuses\n");
    }
    (61, words, object)
}

/// Where a part ends in the recording.
fn end_of(recording: &Recording, part: u64) -> usize {
    (0..=part)
        .filter_map(|k| recording.part(k))
        .map(|part| part.len() + 4)
        .sum()
}

fn shown(packet: &[u8]) -> String {
    match packet.len() {
        length if length > PACKET_BYTES => {
            format!(
                "{length} bytes, the first {FIRST}: {}",
                Hex(&packet[..FIRST])
            )
        }
        _ => Hex(packet).to_string(),
    }
}

fn length(recording: &Recording, k: u64, object: Object) -> (u64, String, Object) {
    let words = format!(
        "{}: its reply has another length\n",
        recording.placed("packet", k, k)
    );
    (62, words, at_packet(recording, k, object))
}

fn wrong(
    recording: &Recording,
    k: u64,
    byte: u64,
    start: State,
    object: Object,
) -> (u64, String, Object) {
    let placed = recording.placed("packet", k, k);
    let mut words = format!("{placed}, byte {byte} of its reply is wrong\n");
    let found = recording.part(2 * k + 1).unwrap_or_default();
    let object = at_packet(recording, k, object).number("byte", byte);
    let expected = expected(recording, k, start);
    let range =
        byte.saturating_sub(AROUND as u64) as usize..found.len().min(byte as usize + AROUND + 1);
    let _ = writeln!(words, "expected {}", Hex(&expected[range.clone()]));
    let _ = writeln!(words, "found    {}", Hex(&found[range]));
    (
        63,
        words,
        object.hex("expected", &expected).hex("found", found),
    )
}

/// What the card would have replied to packet k.
fn expected(recording: &Recording, k: u64, mut card: State) -> Vec<u8> {
    let mut length = 0;
    let mut rest = &recording.bytes[..];
    for part in 0..=2 * k {
        let Some((packet, behind)) = frames::first(rest) else {
            break;
        };
        if part % 2 == 0 {
            length = card.run(packet).map_or(0, |ran| ran.length);
        }
        rest = behind;
    }
    card.reply[..length].to_vec()
}
