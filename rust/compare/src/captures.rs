//! Compares the reading of captures, whole and damaged, of every link type and in either byte order.

use crate::frames::{self, Form, Frame, Host, ETHERNET, LINKS, PASSED, PORT, SPOILT};
use crate::lent::Lent;
use crate::recordings::{self, Recording};
use crate::rng::Rng;
use crate::tally::Tally;
use crate::{hex, in_words, numbers, same_answer, same_count, same_input, Outcome};
use head::capture::exports;
use model::area::Area;
use model::capture::{capture, Captured};
use model::store::STORE_BYTES;

const ENDINGS: [u32; 7] = [0, 26, 27, 91, 92, 93, 94];

/// One for each of [`LINKS`].
const LINK_TYPES: [&str; 7] = [
    "yes: link type 0, null",
    "yes: link type 1, Ethernet",
    "yes: link type 12, raw",
    "yes: link type 101, raw",
    "yes: link type 113, Linux cooked",
    "yes: link type 228, raw",
    "yes: link type 276, Linux cooked, second version",
];

/// By the order of the bytes, then by the unit of time.
const MAGICS: [[&str; 2]; 2] = [
    [
        "yes: low byte first, microseconds",
        "yes: low byte first, nanoseconds",
    ],
    [
        "yes: high byte first, microseconds",
        "yes: high byte first, nanoseconds",
    ],
];

const SITUATIONS: [&str; 33] = [
    EMPTY,
    SEVERAL,
    UPPER,
    TAGGED,
    OPTIONS,
    PADDED,
    SILENT,
    LATE,
    HOSTS,
    LOOPBACK,
    LONG,
    EARLY,
    OTHER_EARLY,
    EVERY_CUT,
    AT_A_FRAMES_END,
    REAL,
    SHORT_FILE,
    OTHER_MAGIC,
    OTHER_LINK,
    CUT_HEADER,
    CUT_FRAME,
    ONE_TOO_MANY,
    HUGE,
    NOT_WHOLE_REQUEST,
    NOT_WHOLE_REPLY,
    NOT_WHOLE_SECOND,
    EARLIEST,
    SHORT_BY_ONE,
    EXACT,
    LARGER,
    ONE_TOO_FEW,
    BOTH_SHORT,
    SHIFTED,
];
const EMPTY: &str = "yes: no packets";
const SEVERAL: &str = "yes: several packets";
const UPPER: &str = "yes: upper half of the link field set";
const TAGGED: &str = "yes: an Ethernet frame with a tag";
const OPTIONS: &str = "yes: an IP header with options";
const PADDED: &str = "yes: padding behind a datagram";
const SILENT: &str = "yes: a request without a reply";
const LATE: &str = "yes: a late reply";
const HOSTS: &str = "yes: several hosts";
const LOOPBACK: &str = "yes: host and card at one address";
const LONG: &str = "yes: a datagram of more than 1,472 bytes";
const EARLY: &str = "passed over: a reply of the card's before the first request";
const OTHER_EARLY: &str = "passed over: another card's reply before the first request";
const EVERY_CUT: &str = "short capture cut at every byte";
const AT_A_FRAMES_END: &str = "yes: a capture that ends sooner, at a frame's end";
const REAL: &str = "the real captures";
const SHORT_FILE: &str = "91: fewer than 24 bytes";
const OTHER_MAGIC: &str = "91: another magic";
const OTHER_LINK: &str = "91: another link type";
const CUT_HEADER: &str = "92: a frame's header cut";
const CUT_FRAME: &str = "92: a frame cut";
const ONE_TOO_MANY: &str = "92: one byte more captured than there is";
const HUGE: &str = "92: all that 32 bits can say captured";
const NOT_WHOLE_REQUEST: &str = "93: a request";
const NOT_WHOLE_REPLY: &str = "93: a reply";
const NOT_WHOLE_SECOND: &str = "93: a second reply that isn't whole";
const EARLIEST: &str = "93 or 94 before a later fault";
const SHORT_BY_ONE: &str = "26: room too small by one byte";
const EXACT: &str = "yes: both rooms exact";
const LARGER: &str = "yes: both rooms larger";
const ONE_TOO_FEW: &str = "27: room for one frame too few";
const BOTH_SHORT: &str = "26: both rooms too small";
const SHIFTED: &str = "a refusal whose frame is moved by frames that are passed over";

/// The repository's real captures, with their packets.
const REAL_CAPTURES: [(&[u8], u64); 2] = [
    (
        include_bytes!("../../../tests/captures/mesaflash-readhmid.pcap"),
        191,
    ),
    (
        include_bytes!("../../../tests/captures/mesaflash-188.pcap"),
        188,
    ),
];

/// Compares `count` shows as captures, each read several times, and the real captures.
pub fn compare(seed: u64, count: u64) -> Outcome {
    let situations = [
        LINK_TYPES.as_slice(),
        MAGICS.as_flattened(),
        &SITUATIONS,
        &SPOILT,
        &PASSED,
    ];
    let mut part = Part {
        rng: Rng::new(seed),
        store: vec![0; STORE_BYTES],
        tally: Tally::new("captures", &ENDINGS, &situations.concat()),
    };
    part.real()?;
    for case in 0..count {
        if case % 64 == 0 {
            part.rng.fill(&mut part.store);
        }
        part.case()
            .map_err(|what| format!("capture {case}: {what}"))?;
    }
    Ok(vec![part.tally])
}

struct Part {
    rng: Rng,
    store: Vec<u8>,
    tally: Tally,
}

/// What both sides made of a capture.
#[derive(PartialEq, Eq)]
struct Read {
    number: u32,
    /// The recording's bytes, or the place.
    value: u64,
    recording: Vec<u8>,
    frames: Vec<u32>,
}

impl Read {
    fn refused(number: u32, frame: usize) -> Read {
        Read {
            number,
            value: frame as u64,
            recording: Vec::new(),
            frames: Vec::new(),
        }
    }
}

impl Part {
    fn case(&mut self) -> Result<(), String> {
        let show = self.show();
        match self.rng.below(8) {
            0 | 1 => self.whole(&show),
            2 | 3 => self.passed_over(&show),
            4 => self.cut(&show),
            5 => self.not_whole(&show),
            6 => self.not_read(&show),
            _ => {
                let capture = wild(&mut self.rng, &show);
                self.read(&capture).map(drop)
            }
        }
    }

    /// A random show as a card and its hosts send it.
    fn show(&mut self) -> Show {
        let rng = &mut self.rng;
        let pointers = Area::ALL.map(|area| rng.below(area.bytes() as usize + 1) as u32);
        let card = (self.store.clone(), pointers);
        let recording = match rng.one_in(8) {
            true => recordings::recorded_show(rng, card),
            false => recordings::recorded(rng, card),
        };
        Show::new(rng, recording)
    }

    /// Datagrams in turn give their recording back.
    fn whole(&mut self, show: &Show) -> Result<(), String> {
        let frames = show.bytes(&mut self.rng);
        let capture = show.form.capture(&mut self.rng, &frames);
        let read = self.read(&capture)?;
        foreseen(&read, &show.read())?;
        self.count(show);
        if capture.len() < 250 {
            self.every_cut(show, &frames, &capture)?;
        }
        Ok(())
    }

    /// A capture cut at every byte: before a frame's end that frame is refused, and at it all before
    /// it is read.
    fn every_cut(&mut self, show: &Show, frames: &[Vec<u8>], capture: &[u8]) -> Result<(), String> {
        let mut end = 24;
        for cut in 0..end {
            let read = self.read(&capture[..cut])?;
            foreseen(&read, &Read::refused(91, 0))?;
        }
        for (at, frame) in frames.iter().enumerate() {
            let read = self.read(&capture[..end])?;
            foreseen(&read, &show.first(at).read())?;
            self.tally.situation(AT_A_FRAMES_END, true);
            for cut in 1..16 + frame.len() {
                let read = self.read(&capture[..end + cut])?;
                foreseen(&read, &Read::refused(92, at + 1))?;
            }
            end += 16 + frame.len();
        }
        self.tally.situation(EVERY_CUT, frames.len() > 1);
        Ok(())
    }

    /// Frames that are passed over, put anywhere behind the first request, change nothing but the
    /// frames' numbers; nor do those before it that are not to the card's port.
    fn passed_over(&mut self, show: &Show) -> Result<(), String> {
        let (form, card) = (show.form, show.card);
        if show.frames.is_empty() {
            return Ok(());
        }
        let mut faulty = show.clone();
        if self.rng.one_in(3) {
            faulty.fault(&mut self.rng);
        }
        let frames = faulty.bytes(&mut self.rng);
        let capture = form.capture(&mut self.rng, &frames);
        let mut expected = self.read(&capture)?;

        let rng = &mut self.rng;
        // Where each frame is now, from 1; the first place is of no frame.
        let (mut among, mut places, mut met) = (Vec::new(), vec![0], Vec::new());
        for _ in 0..rng.pick(&[0, 0, 1, 3]) {
            let (why, frame) = faulty.early(rng);
            among.push(frame);
            met.push(why);
        }
        for frame in frames {
            among.push(frame);
            places.push(among.len());
            for _ in 0..rng.pick(&[0, 0, 1, 2]) {
                let (why, frame) = frames::passed(rng, &form, card);
                among.push(frame);
                met.push(why);
            }
        }
        let capture = form.capture(rng, &among);
        let read = self.read(&capture)?;
        for frame in &mut expected.frames {
            *frame = places[*frame as usize] as u32;
        }
        let moved = expected.number > 92;
        if moved {
            expected.value = places[expected.value as usize] as u64;
        }
        foreseen(&read, &expected)?;
        met.into_iter()
            .for_each(|why| self.tally.situation(why, true));
        self.tally.situation(SHIFTED, moved);
        Ok(())
    }

    /// A frame of which the file has too little.
    fn cut(&mut self, show: &Show) -> Result<(), String> {
        let frames = show.bytes(&mut self.rng);
        if frames.is_empty() {
            return Ok(());
        }
        let mut capture = show.form.capture(&mut self.rng, &frames);
        let at = self.rng.below(frames.len());
        let start = start(&frames, at);
        let left = capture.len() - start - 16;
        let captured = start + 8..start + 12;
        let rng = &mut self.rng;
        let how = rng.pick(&[CUT_HEADER, CUT_FRAME, ONE_TOO_MANY, HUGE]);
        match how {
            CUT_HEADER => capture.truncate(start + rng.between(1, 15)),
            CUT_FRAME => capture.truncate(start + 16 + rng.below(frames[at].len())),
            ONE_TOO_MANY => {
                let number = show.form.number(left as u32 + 1);
                capture[captured].copy_from_slice(&number);
            }
            _ => capture[captured].fill(0xFF),
        }
        let read = self.read(&capture)?;
        foreseen(&read, &Read::refused(92, at + 1))?;
        self.tally.situation(how, true);
        Ok(())
    }

    /// A datagram of the card that isn't whole, or a second reply, maybe with a later fault.
    fn not_whole(&mut self, show: &Show) -> Result<(), String> {
        let mut faulty = show.clone();
        let rng = &mut self.rng;
        let Some(fault) = faulty.fault(rng) else {
            return Ok(());
        };
        let frames = faulty.bytes(rng);
        let mut capture = show.form.capture(rng, &frames);
        let later = rng.one_in(3) && fault.frame < frames.len();
        if later {
            let last = 16 + frames.last().map_or(0, Vec::len);
            capture.truncate(capture.len() - rng.between(1, last - 1));
        }
        let read = self.read(&capture)?;
        foreseen(&read, &Read::refused(fault.number, fault.frame))?;
        for situation in fault.situations {
            self.tally.situation(situation, true);
        }
        self.tally.situation(EARLIEST, later);
        Ok(())
    }

    /// What is no capture that is read here.
    fn not_read(&mut self, show: &Show) -> Result<(), String> {
        let frames = show.bytes(&mut self.rng);
        let mut form = show.form;
        let rng = &mut self.rng;
        let how = rng.pick(&[SHORT_FILE, OTHER_MAGIC, OTHER_LINK]);
        if how == OTHER_LINK {
            let near = rng.pick(&LINKS) ^ 1 << rng.below(16);
            let link = rng.pick(&[near, near, 2, 105, 127, 195, 0x0100, 0x6500]);
            if LINKS.contains(&link) {
                return Ok(());
            }
            form.link = form.link & 0xFFFF_0000 | link;
        }
        let mut capture = form.capture(rng, &frames);
        match how {
            SHORT_FILE => capture.truncate(rng.below(24)),
            OTHER_MAGIC if rng.one_in(4) => {
                // A pcapng file's first block.
                capture[..4].copy_from_slice(&[0x0A, 0x0D, 0x0D, 0x0A]);
            }
            OTHER_MAGIC => capture[rng.below(4)] ^= 1 << rng.below(8),
            _ => {}
        }
        let read = self.read(&capture)?;
        foreseen(&read, &Read::refused(91, 0))?;
        self.tally.situation(how, true);
        Ok(())
    }

    fn real(&mut self) -> Result<(), String> {
        for (capture, packets) in REAL_CAPTURES {
            let read = self.read(capture)?;
            if (read.number, read.frames.len() as u64) != (0, packets) {
                return Err(format!("a real capture has not {packets} packets"));
            }
            self.tally.situation(REAL, true);
        }
        Ok(())
    }

    /// Reads a capture on both sides to rooms that are large enough, and to others.
    fn read(&mut self, capture: &[u8]) -> Result<Read, String> {
        let (bytes, packets) = needed(capture);
        let rng = &mut self.rng;
        let mut room = |needed: usize| match rng.below(6) {
            0 => needed.saturating_sub(1),
            1 => rng.below(needed + 1),
            2 | 3 => needed,
            _ => needed + rng.between(1, 40),
        };
        let (some, some_frames) = (room(bytes), room(packets));
        self.read_to(capture, some, some_frames)
            .and_then(|_| self.read_to(capture, bytes, packets))
            .map_err(|what| format!("{what}\ncapture of {}", hex(capture)))
    }

    fn read_to(&mut self, given: &[u8], room: usize, frame_room: usize) -> Result<Read, String> {
        let rng = &mut self.rng;
        let mut out = Lent::new("output", room, 0);
        out.change(|out| rng.fill(out));
        let mut frames = Lent::new("frames", frame_room, 0);
        frames.change(|frames| frames.iter_mut().for_each(|number| *number = rng.word()));

        let (library_out, model_out) = out.lend(room);
        let (library_frames, model_frames) = frames.lend(frame_room);
        let result = capture(given, model_out, model_frames);
        let expected = numbers(&result, |captured| captured.bytes as u64);
        let Captured { bytes, packets } = result.unwrap_or(Captured {
            bytes: 0,
            packets: 0,
        });
        let lent = given.to_vec();
        let (number, value, counted) = exports::capture(&lent, library_out, library_frames);
        let refused = expected.0 != 0;
        same_answer((number, value), expected)
            .and_then(|()| same_count("packets", counted, packets as u64))
            .and_then(|()| same_input(&lent, given))
            .and_then(|()| out.compare(refused))
            .and_then(|()| frames.compare(refused))
            .map_err(|what| format!("{what}\nrooms of {room} bytes, {frame_room} frames"))?;
        self.count_rooms(given, number, room, frame_room);
        Ok(Read {
            number,
            value,
            recording: out.model()[..bytes].to_vec(),
            frames: frames.model()[..packets].to_vec(),
        })
    }

    fn count_rooms(&mut self, given: &[u8], number: u32, room: usize, frame_room: usize) {
        let tally = &mut self.tally;
        tally.ending(number);
        if !matches!(number, 0 | 26 | 27) {
            return;
        }
        let (bytes, packets) = needed(given);
        let exact = (room, frame_room) == (bytes, packets);
        tally.situation(EXACT, number == 0 && exact && packets > 0);
        tally.situation(LARGER, number == 0 && room > bytes && frame_room > packets);
        tally.situation(SHORT_BY_ONE, number == 26 && room + 1 == bytes);
        tally.situation(BOTH_SHORT, number == 26 && frame_room < packets);
        tally.situation(ONE_TOO_FEW, number == 27 && frame_room + 1 == packets);
        tally.situation(EMPTY, number == 0 && packets == 0);
        tally.situation(SEVERAL, number == 0 && packets > 1);
    }

    /// Counts what stands in a show that was given back.
    fn count(&mut self, show: &Show) {
        if show.frames.is_empty() {
            return;
        }
        let (form, card) = (show.form, show.card);
        let tally = &mut self.tally;
        let link = LINKS.iter().position(|&link| link == form.link_type());
        tally.situation(LINK_TYPES[link.expect("a link type")], true);
        let magic = MAGICS[usize::from(form.big)][usize::from(form.nanoseconds)];
        tally.situation(magic, true);
        let any = |is: &dyn Fn(&Frame) -> bool| show.frames.iter().any(is);
        let is_ethernet = form.link_type() == ETHERNET;
        tally.situation(UPPER, form.link > 0xFFFF);
        tally.situation(TAGGED, is_ethernet && any(&|frame| !frame.tags.is_empty()));
        tally.situation(OPTIONS, any(&|frame| frame.options > 0));
        tally.situation(PADDED, any(&|frame| frame.padding > 0));
        tally.situation(LONG, any(&|frame| frame.contents.len() > 1_472));
        let replies = show.frames.len() - show.requests.len();
        tally.situation(SILENT, replies < show.requests.len());
        tally.situation(LATE, show.late);
        let host = show.frames[0].from;
        tally.situation(HOSTS, any(&|frame| frame.to == card && frame.from != host));
        tally.situation(
            LOOPBACK,
            any(&|frame| frame.from.address == frame.to.address),
        );
    }
}

/// What was read must be what was foreseen.
fn foreseen(read: &Read, expected: &Read) -> Result<(), String> {
    let shown = |read: &Read| {
        let answer = in_words((read.number, read.value));
        let recording = hex(&read.recording);
        format!(
            "{answer}, frames {:?}, recording of {recording}",
            read.frames
        )
    };
    match read == expected {
        true => Ok(()),
        false => Err(format!(
            "both sides: {}\nforeseen: {}",
            shown(read),
            shown(expected)
        )),
    }
}

/// The bytes and packets of a capture that is read; of another, as many as there could be at most.
fn needed(given: &[u8]) -> (usize, usize) {
    let most = (given.len(), given.len() / 16);
    let read = capture(given, &mut vec![0; most.0], &mut vec![0; most.1]);
    read.map_or(most, |read| (read.bytes, read.packets))
}

/// A show as it is sent: the datagrams of one card in turn.
#[derive(Clone)]
pub(crate) struct Show {
    form: Form,
    card: Host,
    frames: Vec<Frame>,
    /// Where the requests stand among them.
    requests: Vec<usize>,
    /// Whether a reply comes behind the request after its own.
    late: bool,
}

/// A fault that was put into a show: the number and the frame, from 1, that it must be refused with.
pub(crate) struct Fault {
    number: u32,
    frame: usize,
    situations: Vec<&'static str>,
}

impl Show {
    pub(crate) fn new(rng: &mut Rng, mut recording: Recording) -> Show {
        let (form, card) = (Form::any(rng), Host::card(rng));
        if rng.one_in(50) && !recording.is_empty() {
            // What is in a datagram is not looked at.
            let at = rng.below(recording.len());
            let length = rng.pick(&[0, 1_473, 9_000, 65_467]);
            recording[at] = vec![rng.byte(); length];
        }
        let mut late = false;
        if rng.one_in(6) && recording.len() > 3 {
            let at = 2 * rng.below(recording.len() / 2 - 1) + 1;
            late = !recording[at].is_empty();
            recording[at + 2] = std::mem::take(&mut recording[at]);
        }
        let mut show = Show {
            form,
            card,
            frames: Vec::new(),
            requests: Vec::new(),
            late,
        };
        let mut host = Host::asking(rng);
        for exchange in recording.chunks(2) {
            if rng.one_in(6) {
                host = Host::asking(rng);
            }
            show.requests.push(show.frames.len());
            show.send(rng, host, card, &exchange[0]);
            let reply = exchange.get(1).map(Vec::as_slice).unwrap_or_default();
            // A reply of no bytes may be none at all.
            if !reply.is_empty() || !late && rng.one_in(3) {
                let to = match rng.below(10) {
                    0 => Host::asking(rng),
                    1 => card.other_card(rng),
                    _ => host,
                };
                show.send(rng, card, to, reply);
            }
        }
        show
    }

    fn send(&mut self, rng: &mut Rng, from: Host, to: Host, contents: &[u8]) {
        self.frames.push(Frame::new(from, to, contents).varied(rng));
    }

    /// The show up to a frame.
    fn first(&self, frames: usize) -> Show {
        let requests = self.requests.iter().copied();
        Show {
            frames: self.frames[..frames].to_vec(),
            requests: requests.filter(|&at| at < frames).collect(),
            ..self.clone()
        }
    }

    /// What must be read from its capture.
    fn read(&self) -> Read {
        let mut recording = Recording::new();
        for &at in &self.requests {
            let reply = self.frames.get(at + 1).filter(|next| next.to != self.card);
            let reply = reply.map_or(Vec::new(), |reply| reply.contents.clone());
            recording.extend([self.frames[at].contents.clone(), reply]);
        }
        let recording = recordings::bytes(&recording);
        Read {
            number: 0,
            value: recording.len() as u64,
            recording,
            frames: self.requests.iter().map(|&at| at as u32 + 1).collect(),
        }
    }

    fn bytes(&self, rng: &mut Rng) -> Vec<Vec<u8>> {
        let frames = self.frames.iter();
        frames.map(|frame| frame.bytes(rng, &self.form)).collect()
    }

    pub(crate) fn capture(&self, rng: &mut Rng) -> Vec<u8> {
        let frames = self.bytes(rng);
        self.form.capture(rng, &frames)
    }

    /// A frame that is passed over before the first request, and why: also a reply, whole or not, but
    /// no request to another card, which would be the first.
    fn early(&self, rng: &mut Rng) -> (&'static str, Vec<u8>) {
        let (form, card) = (&self.form, self.card);
        let (why, frame) = frames::passed(rng, form, card);
        if why != frames::OTHER_CARD && rng.coin() {
            return (why, frame);
        }
        let (why, from) = match rng.coin() {
            true => (EARLY, card),
            false => (OTHER_EARLY, card.other_card(rng)),
        };
        let mut frame = Frame::new(from, Host::asking(rng), b"early").varied(rng);
        if rng.one_in(3) {
            frames::spoil(rng, form, &mut frame);
        }
        (why, frame.bytes(rng, form))
    }

    /// Puts one fault into it, where there is a frame for it: a datagram that isn't whole, or a reply
    /// too many, whole or not.
    pub(crate) fn fault(&mut self, rng: &mut Rng) -> Option<Fault> {
        let replies = (0..self.frames.len()).filter(|at| !self.requests.contains(at));
        let replies: Vec<usize> = replies.collect();
        let form = self.form;
        if !replies.is_empty() && rng.coin() {
            let at = rng.pick(&replies) + 1;
            let mut second = self.frames[at - 1].clone();
            let mut situations = Vec::new();
            if rng.one_in(3) {
                situations = vec![NOT_WHOLE_SECOND, frames::spoil(rng, &form, &mut second)];
            }
            self.frames.insert(at, second);
            return Some(Fault {
                number: if situations.is_empty() { 94 } else { 93 },
                frame: at + 1,
                situations,
            });
        }
        if self.frames.is_empty() {
            return None;
        }
        let at = rng.below(self.frames.len());
        let how = frames::spoil(rng, &form, &mut self.frames[at]);
        let what = match self.requests.contains(&at) {
            true => NOT_WHOLE_REQUEST,
            false => NOT_WHOLE_REPLY,
        };
        Some(Fault {
            number: 93,
            frame: at + 1,
            situations: vec![what, how],
        })
    }
}

/// A show's capture with frames lost, doubled, late, changed and put in, and then bytes changed.
pub(crate) fn wild(rng: &mut Rng, show: &Show) -> Vec<u8> {
    let mut show = show.clone();
    for _ in 0..rng.pick(&[0, 1, 2, 4, 8]) {
        disturb(rng, &mut show);
    }
    let mut frames = show.bytes(rng);
    for _ in 0..rng.pick(&[0, 0, 1, 3]) {
        let at = rng.below(frames.len() + 1);
        let (_, frame) = frames::passed(rng, &show.form, show.card);
        frames.insert(at, frame);
    }
    let mut capture = show.form.capture(rng, &frames);
    for _ in 0..rng.pick(&[0, 0, 0, 1, 2]) {
        damage(rng, &mut capture, &show.form, &frames);
    }
    capture
}

/// Changes one frame, or where it stands.
fn disturb(rng: &mut Rng, show: &mut Show) {
    if show.frames.is_empty() {
        let frame = frames::datagram(rng, show.card);
        return show.frames.push(frame);
    }
    let (form, card) = (show.form, show.card);
    let at = rng.below(show.frames.len());
    let other = rng.below(show.frames.len());
    let frame = &mut show.frames[at];
    match rng.below(16) {
        0 => drop(show.frames.remove(at)),
        1 => show.frames.insert(other, show.frames[at].clone()),
        2 => show.frames.swap(at, other),
        3 => {
            let late = show.frames.remove(at);
            let at = at.max(other).min(show.frames.len());
            show.frames.insert(at, late);
        }
        4 => show.frames.insert(at, frames::datagram(rng, card)),
        5 => {
            frames::spoil(rng, &form, frame);
        }
        6 => frame.to = frame.to.other_port(rng),
        7 => frame.from = frame.from.other_port(rng),
        8 => frame.to = frame.to.other_card(rng),
        9 => {
            frame.from = rng.pick(&[
                card,
                Host {
                    port: PORT,
                    ..frame.from
                },
            ])
        }
        10 => std::mem::swap(&mut frame.from, &mut frame.to),
        11 => frame.words = rng.below(16) as u8,
        12 => frame.fragment ^= 1 << rng.below(16),
        13 => frame.total = rng.number() as u16,
        14 => frame.tags = vec![0x8100; rng.below(3)],
        _ => frame.snapped = rng.below(80),
    }
}

/// Changes bytes of a capture, those above all that say how many of a frame's were captured.
fn damage(rng: &mut Rng, capture: &mut Vec<u8>, form: &Form, frames: &[Vec<u8>]) {
    let at = rng.below(capture.len() + 1);
    match rng.below(8) {
        0 if at < capture.len() => capture[at] ^= 1 << rng.below(8),
        1 if at < capture.len() => capture[at] = rng.byte(),
        2 => capture.truncate(at),
        3 => capture.resize(capture.len() + rng.below(21), 0),
        4 if capture.len() >= 24 => capture[rng.below(24)] ^= 1 << rng.below(8),
        5 if capture.len() >= 24 => capture[..4].reverse(),
        _ if !frames.is_empty() => {
            let at = rng.below(frames.len());
            let (captured, by) = (frames[at].len() as u32, rng.below(40) as u32);
            let number = match rng.coin() {
                true => captured.saturating_sub(by),
                false => captured + by,
            };
            let place = start(frames, at) + 8;
            if let Some(place) = capture.get_mut(place..place + 4) {
                place.copy_from_slice(&form.number(number));
            }
        }
        _ => {}
    }
}

/// Where a frame's header stands in a capture.
fn start(frames: &[Vec<u8>], at: usize) -> usize {
    let before = frames[..at].iter().map(|frame| 16 + frame.len());
    24 + before.sum::<usize>()
}
