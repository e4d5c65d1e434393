//! Compares the judging of recorded shows, whole and damaged.

use crate::cues;
use crate::drafts;
use crate::lent::Lent;
use crate::lists::packets;
use crate::rng::Rng;
use crate::tally::Tally;
use crate::{hex, same_input, Outcome};
use head::recording::exports;
use model::area::{Area, POINTERS};
use model::packet::run;
use model::packing::compile;
use model::recording::{judge, Verdict};
use model::store::STORE_BYTES;
use model::{Refusal, PACKET_BYTES};

const ENDINGS: [u32; 7] = [0, 1, 61, 62, 63, 64, 65];

const SITUATIONS: [&str; 17] = [
    EMPTY,
    SEVERAL,
    SHOW,
    EVERY_CUT,
    LATER,
    LAST_BYTE,
    CUT_REPLY,
    MISSING_REPLY,
    REFUSED_ALONE,
    ONE_BYTE,
    NO_LENGTH,
    UNMARKED_REPLY,
    LONG_REPLY,
    CHANGED,
    BAD_STORE,
    BAD_COUNT,
    BAD_POINTER,
];
const EMPTY: &str = "yes: no packets";
const SEVERAL: &str = "yes: several packets";
const SHOW: &str = "yes: the show of a compiled list";
const EVERY_CUT: &str = "short recording cut at every byte";
const LATER: &str = "fault past the first packet";
const LAST_BYTE: &str = "wrong byte at the reply's end";
const CUT_REPLY: &str = "cut inside a reply";
const MISSING_REPLY: &str = "cut where a reply should begin";
const REFUSED_ALONE: &str = "refused packet whose reply is missing";
const ONE_BYTE: &str = "cut with one byte left";
const NO_LENGTH: &str = "cut inside a length";
const UNMARKED_REPLY: &str = "unmarked reply";
const LONG_REPLY: &str = "reply too long";
const CHANGED: &str = "store changed by the packet whose reply is wrong, cut or unmarked";
const BAD_STORE: &str = "refused for the store";
const BAD_COUNT: &str = "refused for the number of pointers";
const BAD_POINTER: &str = "refused for a pointer";

/// Compares `count` recordings, short ones also cut at every byte.
pub fn compare(seed: u64, count: u64) -> Outcome {
    let mut part = Part {
        rng: Rng::new(seed),
        store: Lent::new("store", STORE_BYTES, 0),
        pointers: Lent::new("pointers", POINTERS, 0),
        tally: Tally::new("recordings", &ENDINGS, &SITUATIONS),
    };
    for case in 0..count {
        if case % 64 == 0 {
            let rng = &mut part.rng;
            part.store.change(|store| rng.fill(store));
        }
        part.case()
            .map_err(|what| format!("recording {case}: {what}"))?;
    }
    Ok(vec![part.tally])
}

struct Part {
    rng: Rng,
    store: Lent<u8>,
    pointers: Lent<u32>,
    tally: Tally,
}

/// What was judged: number, index and place.
pub(crate) type Judged = (u32, u64, u64);

/// Packets and replies in turn.
pub(crate) type Recording = Vec<Vec<u8>>;

/// A card's store and pointers.
pub(crate) type Card = (Vec<u8>, [u32; POINTERS]);

impl Part {
    fn case(&mut self) -> Result<(), String> {
        let rng = &mut self.rng;
        let pointers = Area::ALL.map(|area| rng.below(area.bytes() as usize + 1) as u32);
        self.pointers.put(0, &pointers);
        if self.rng.one_in(20) {
            return self.refused();
        }
        let show = self.rng.one_in(8);
        let card = self.card();
        let recording = match show {
            true => recorded_show(&mut self.rng, card),
            false => recorded(&mut self.rng, card),
        };
        let whole = self.rng.one_in(3);
        let bytes = match whole {
            true => bytes(&recording),
            false => damaged(&mut self.rng, recording),
        };
        let (number, index, _) = self.judge(&bytes)?;
        self.tally.situation(SHOW, show && whole && index > 0);
        if whole && show && number != 0 {
            return Err(format!("a recorded show is judged {number}"));
        }
        if bytes.len() < 60 {
            for end in 0..bytes.len() {
                self.judge(&bytes[..end])?;
            }
            self.tally.situation(EVERY_CUT, bytes.len() > 12);
        }
        Ok(())
    }

    /// Judges a recording on both sides from the same state and compares.
    fn judge(&mut self, recording: &[u8]) -> Result<Judged, String> {
        self.judge_with(recording, STORE_BYTES, POINTERS)
            .map_err(|what| format!("{what}\nrecording of {}", hex(recording)))
    }

    fn judge_with(
        &mut self,
        recording: &[u8],
        store: usize,
        pointers: usize,
    ) -> Result<Judged, String> {
        let (library_store, model_store) = self.store.lend(store);
        let (library_pointers, model_pointers) = self.pointers.lend(pointers);
        let expected = numbers(judge(recording, model_store, model_pointers));
        let lent = recording.to_vec();
        let judged = exports::judge(&lent, library_store, library_pointers);
        if judged != expected {
            return Err(format!("the library: {judged:?}; expected: {expected:?}"));
        }
        same_input(&lent, recording)?;
        let refused = expected.0 == 1;
        self.store.compare(refused)?;
        self.pointers.compare(refused)?;
        self.count(recording, expected);
        // The next one starts from the same state again.
        self.store.change(|_| {});
        self.pointers.change(|_| {});
        Ok(expected)
    }

    /// A card that is refused, whatever was recorded.
    fn refused(&mut self) -> Result<(), String> {
        let recording = self
            .rng
            .pick(&[&b""[..], b"LB\0\0LB\0\0", b"LB\x02\0\x80\x02", b"?"]);
        let (mut store, mut pointers) = (STORE_BYTES, POINTERS);
        let situation = match self.rng.below(3) {
            0 => {
                store = self
                    .rng
                    .pick(&[0, 65_536, STORE_BYTES - 1, STORE_BYTES + 1]);
                BAD_STORE
            }
            1 => {
                pointers = self.rng.pick(&[0, 4, POINTERS - 1, POINTERS + 1]);
                BAD_COUNT
            }
            _ => {
                let area = self.rng.pick(&Area::ALL);
                let above = self.rng.pick(&[area.bytes() + 1, u32::MAX]);
                self.pointers.put(area.index(), &[above]);
                BAD_POINTER
            }
        };
        let judged = self.judge_with(recording, store, pointers)?;
        if judged != (1, 0, 0) {
            return Err(format!("{situation}: {judged:?}"));
        }
        self.tally.situation(situation, true);
        Ok(())
    }

    /// The state that the recording starts from.
    fn card(&self) -> Card {
        let store = self.store.before()[..STORE_BYTES].to_vec();
        let pointers = self.pointers.before().first_chunk();
        (store, *pointers.expect("eight pointers"))
    }

    fn count(&mut self, recording: &[u8], (number, index, place): Judged) {
        let changed = self.store.before() != self.store.model();
        let parts = apart(recording);
        let tally = &mut self.tally;
        tally.ending(number);
        let part = index as usize;
        match number {
            0 => {
                tally.situation(EMPTY, index == 0);
                tally.situation(SEVERAL, index > 1);
            }
            61 => {
                tally.situation(LATER, index > 0);
                let whole: usize = parts.iter().map(|part| part.len() + 4).sum();
                let alone = parts.len() == 2 * part + 1 && recording.len() == whole;
                tally.situation(REFUSED_ALONE, alone);
            }
            62 => {
                tally.situation(LATER, index > 0);
                let long = parts[2 * part + 1].len() > PACKET_BYTES;
                tally.situation(LONG_REPLY, long);
            }
            63 => {
                tally.situation(LATER, index > 0);
                let reply = parts[2 * part + 1].len() as u64;
                tally.situation(LAST_BYTE, reply > 1 && place + 1 == reply);
            }
            64 => {
                let whole: usize = parts.iter().map(|part| part.len() + 4).sum();
                let left = recording.len() - whole;
                let is_reply = part % 2 == 1;
                tally.situation(CUT_REPLY, is_reply && left > 4);
                tally.situation(MISSING_REPLY, is_reply && left == 0);
                tally.situation(ONE_BYTE, left == 1);
                tally.situation(NO_LENGTH, left == 2 || left == 3);
            }
            65 => tally.situation(UNMARKED_REPLY, part % 2 == 1),
            _ => {}
        }
        let reply_fault = matches!(number, 62 | 63) || number > 63 && part % 2 == 1;
        let first = if number > 63 { part == 1 } else { part == 0 };
        tally.situation(CHANGED, reply_fault && first && changed);
    }
}

/// Some packets of any kind that are accepted, with their replies, from a card's state.
pub(crate) fn recorded(rng: &mut Rng, (mut store, mut pointers): Card) -> Recording {
    let mut recording = Recording::new();
    let count = rng.pick(&[0, 1, 1, 2, 2, 3, 6]);
    let most = rng.pick(&[12, 40, PACKET_BYTES]);
    while recording.len() < 2 * count {
        let packet = drafts::packet(rng, pointers);
        if packet.len() > most {
            continue;
        }
        if let Some(reply) = reply(&packet, &mut store, &mut pointers) {
            recording.extend([packet, reply]);
        }
    }
    if rng.one_in(6) {
        // A packet that may be refused, with a reply that nothing gave.
        let packet = drafts::packet(rng, pointers);
        recording.push(packet);
        if rng.coin() {
            let length = rng.pick(&[0, 0, 4, 20]);
            recording.push((0..length).map(|_| rng.byte()).collect());
        }
    }
    recording
}

/// The show of a list that is accepted.
pub(crate) fn recorded_show(rng: &mut Rng, (mut store, mut pointers): Card) -> Recording {
    let list = cues::good(rng);
    let mut output = vec![0; 4 * list.bytes().len()];
    let compiled = compile(list.bytes(), &mut output).expect("a good list");
    let packets = packets(&output[..compiled.bytes]).expect("compiled packets");
    let mut recording = Recording::new();
    for packet in packets {
        let reply = reply(packet, &mut store, &mut pointers);
        recording.extend([packet.to_vec(), reply.expect("a compiled packet")]);
    }
    recording
}

/// The verdict as the library's numbers.
pub(crate) fn numbers(verdict: Result<Verdict, Refusal>) -> Judged {
    match verdict {
        Err(refusal) => (refusal.number, 0, refusal.place),
        Ok(Verdict::Yes(packets)) => (0, packets, 0),
        Ok(Verdict::Packet(packet)) => (61, packet, 0),
        Ok(Verdict::Length(packet)) => (62, packet, 0),
        Ok(Verdict::Byte(packet, place)) => (63, packet, place),
        Ok(Verdict::Cut(part)) => (64, part, 0),
        Ok(Verdict::Unmarked(part)) => (65, part, 0),
    }
}

/// A packet's reply, if it is accepted.
pub(crate) fn reply(packet: &[u8], store: &mut [u8], pointers: &mut [u32]) -> Option<Vec<u8>> {
    let mut reply = vec![0; PACKET_BYTES];
    let ran = run(packet, store, pointers, &mut reply).ok()?;
    reply.truncate(ran.length);
    Some(reply)
}

pub(crate) fn bytes(recording: &Recording) -> Vec<u8> {
    let mut bytes = Vec::new();
    for part in recording {
        bytes.extend(b"LB");
        bytes.extend((part.len() as u16).to_le_bytes());
        bytes.extend(part);
    }
    bytes
}

/// The parts that are whole, up to the first that isn't.
fn apart(mut recording: &[u8]) -> Vec<&[u8]> {
    let mut parts = Vec::new();
    while let [b'L', b'B', low, high, behind @ ..] = recording {
        let length = u16::from_le_bytes([*low, *high]);
        let Some((part, rest)) = behind.split_at_checked(length.into()) else {
            break;
        };
        parts.push(part);
        recording = rest;
    }
    parts
}

/// A recording with one fault or two.
pub(crate) fn damaged(rng: &mut Rng, mut recording: Recording) -> Vec<u8> {
    if recording.is_empty() {
        return rng.pick(&[&b"L"[..], b"BL", b"LB\0", b"??LB"]).to_vec();
    }
    let replies = recording.len() / 2;
    for _ in 0..rng.pick(&[0, 1, 1, 2]) {
        if replies == 0 {
            break;
        }
        let reply = &mut recording[2 * rng.below(replies) + 1];
        let length = reply.len();
        match rng.below(6) {
            0 => drop(reply.pop()),
            1 => reply.push(rng.byte()),
            2 => reply.resize(PACKET_BYTES + rng.between(1, 9), 0),
            3 if length > 0 => reply[length - 1] ^= 1 << rng.below(8),
            _ if length > 0 => reply[rng.below(length)] ^= 1 << rng.below(8),
            _ => {}
        }
    }
    let starts = |recording: &Recording, part: usize| -> usize {
        let before = recording[..part].iter();
        before.map(|part| part.len() + 4).sum()
    };
    let part = rng.below(recording.len());
    let start = starts(&recording, part);
    let mut bytes = bytes(&recording);
    match rng.below(8) {
        0 => bytes[start + rng.below(2)] ^= 1 << rng.below(8),
        1 => bytes[start + rng.between(2, 3)] ^= 1 << rng.below(8),
        2 => bytes.truncate(rng.below(bytes.len())),
        3 => bytes.truncate(start + rng.below(5)),
        4 => bytes.push(rng.pick(b"LB\0")),
        5 => bytes.extend(rng.pick(&[*b"LB\x04\0", *b"BL\0\0", *b"LBLB"])),
        6 => {
            let at = rng.below(bytes.len());
            bytes[at] = rng.byte();
        }
        _ => {}
    }
    bytes
}
