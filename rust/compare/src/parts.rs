//! Compares the compiler fed in parts: each call, and what all calls of a list come to.

use crate::cues;
use crate::lent::Lent;
use crate::lists::packets;
use crate::rng::Rng;
use crate::tally::Tally;
use crate::{hex, numbers, same_answer, same_input, Answer, Outcome};
use head::parts::{exports, STATE_BYTES};
use model::cue::Records;
use model::packing::compile;
use model::parts::{Parts, ROOM};
use model::Refusal;

const ENDINGS: [u32; 7] = [0, 1, 21, 22, 23, 24, 26];

const SITUATIONS: [&str; 19] = [
    EMPTY,
    BYTE_BY_BYTE,
    ONE_PART,
    EVERY_CUT,
    MARK_CUT,
    RECORD_CUT,
    INSIDE,
    AT_THE_END,
    END_LATER,
    LATE_FAULT,
    UNKNOWN_MARK,
    CUT_OFF,
    ONE_BYTE,
    FAULT_AGAIN,
    AFTER_THE_END,
    SHORT_BY_ONE,
    SHORT_AFTER_FAULT,
    OTHER_LENGTH,
    OVERWRITTEN,
];
const EMPTY: &str = "empty list";
const BYTE_BY_BYTE: &str = "list in parts of one byte";
const ONE_PART: &str = "list of several packets in parts of up to its length";
const EVERY_CUT: &str = "short list cut at every byte";
const MARK_CUT: &str = "part that ends inside a mark";
const RECORD_CUT: &str = "part that ends inside a record";
const INSIDE: &str = "packet handed out before the part's end";
const AT_THE_END: &str = "packet handed out at the list's last byte, and another behind it";
const END_LATER: &str = "list's end said when all bytes were taken";
const LATE_FAULT: &str = "fault after packets were handed out";
const UNKNOWN_MARK: &str = "unknown mark, seen at its second byte";
const CUT_OFF: &str = "cut record, seen at the list's end";
const ONE_BYTE: &str = "one byte alone at the list's end";
const FAULT_AGAIN: &str = "call after a fault";
const AFTER_THE_END: &str = "call after the list's end";
const SHORT_BY_ONE: &str = "room too small by one byte";
const SHORT_AFTER_FAULT: &str = "room too small after a fault";
const OTHER_LENGTH: &str = "state of another length";
const OVERWRITTEN: &str = "state overwritten with random bytes";

/// Compares `count` lists, each cut in some way, and the long ones besides.
pub fn compare(seed: u64, count: u64) -> Outcome {
    let mut part = Part {
        rng: Rng::new(seed),
        tally: Tally::new("parts", &ENDINGS, &SITUATIONS),
    };
    for case in 0..count {
        let list = cues::any(&mut part.rng);
        let mut cuts = vec![Cut::Random(part.most(list.len()))];
        if list.len() <= 40 {
            cuts.extend((0..=list.len()).map(Cut::At));
        }
        for cut in cuts {
            part.list(&list, cut)
                .map_err(|what| format!("list {case}: {what}\n{cut:?}, list of {}", hex(&list)))?;
        }
        part.overwritten(&list)
            .map_err(|what| format!("overwritten state {case}: {what}"))?;
    }
    for variant in 0..cues::LONG_LISTS {
        let list = cues::long(&mut part.rng, variant);
        let most = part.rng.pick(&[1_000, 4_096, 65_536, list.len()]);
        part.list(&list, Cut::Random(most))
            .map_err(|what| format!("long list {variant}: {what}"))?;
    }
    Ok(vec![part.tally])
}

/// How a list is cut.
#[derive(Clone, Copy, Debug)]
enum Cut {
    /// Into two parts at this place.
    At(usize),
    /// Into parts of up to so many bytes.
    Random(usize),
}

struct Part {
    rng: Rng,
    tally: Tally,
}

/// Both sides of a list that is being fed.
struct Feed<'a> {
    list: &'a [u8],
    /// Where its records start.
    starts: Vec<usize>,
    /// How many bytes were taken.
    at: usize,
    model: Parts,
    state: State,
    /// Whether the last call handed out a packet.
    handed_out: bool,
    output: Vec<u8>,
}

/// A call's answer: the refusal number with the bytes written or the place, and the bytes taken.
type Called = (Answer, usize);

impl Part {
    /// The most bytes of a part.
    fn most(&mut self, length: usize) -> usize {
        let rng = &mut self.rng;
        match rng.below(8) {
            0 | 1 if length < 500 => 1,
            0..=2 => rng.between(1, 20),
            3 | 4 => rng.between(1, 400),
            5 => 4_096,
            _ => length.max(1),
        }
    }

    /// The bytes of the next part, now and then none.
    fn bytes(&mut self, most: usize) -> usize {
        match most {
            1 => 1,
            _ if self.rng.one_in(10) => 0,
            _ if self.rng.one_in(4) => most,
            _ => self.rng.between(1, most),
        }
    }

    /// Feeds a list to both sides in parts until nothing more comes out, and then some more.
    fn list(&mut self, list: &[u8], cut: Cut) -> Result<(), String> {
        let mut feed = Feed {
            list,
            starts: starts(list),
            at: 0,
            model: Parts::default(),
            state: State::new(),
            handed_out: false,
            output: Vec::new(),
        };
        let ended = loop {
            if self.rng.one_in(40) {
                self.turned_away(&mut feed, false)?;
            }
            let end = match cut {
                Cut::At(place) if feed.at < place => place,
                Cut::At(_) => list.len(),
                Cut::Random(most) => list.len().min(feed.at + self.bytes(most)),
            };
            let last = end == list.len() && !self.rng.one_in(4);
            let ((number, value), _) = self.call(&mut feed, end, last)?;
            if number != 0 {
                break Err(Refusal {
                    number,
                    place: value,
                });
            }
            if value == 0 && last {
                break Ok(());
            }
        };
        self.afterwards(&mut feed, ended.is_err())?;
        whole(&feed, ended)?;

        let tally = &mut self.tally;
        let several = packets(&feed.output)?.len() > 1;
        tally.situation(EMPTY, list.is_empty());
        let one_byte = matches!(cut, Cut::Random(1));
        tally.situation(BYTE_BY_BYTE, one_byte && list.len() > 10);
        let one_part = matches!(cut, Cut::Random(most) if most >= list.len());
        tally.situation(ONE_PART, one_part && several);
        tally.situation(
            EVERY_CUT,
            matches!(cut, Cut::At(place) if place == list.len()),
        );
        tally.situation(LATE_FAULT, ended.is_err() && !feed.output.is_empty());
        Ok(())
    }

    /// One call with the bytes that are not yet taken, up to `end`.
    fn call(&mut self, feed: &mut Feed, end: usize, last: bool) -> Result<Called, String> {
        let room = self.rng.pick(&[ROOM, ROOM, ROOM + 1, 2 * ROOM]);
        let given = &feed.list[feed.at..end];
        let (answer, taken) = self.compare_call(feed, given, last, room)?;
        feed.at += taken;

        let (number, value) = answer;
        self.tally.ending(number);
        let handed_out = number == 0 && value > 0;
        let inside = handed_out && taken < given.len();
        self.tally.situation(INSIDE, inside);
        let ended = handed_out && last && given.is_empty();
        self.tally.situation(AT_THE_END, ended && feed.handed_out);
        self.tally.situation(END_LATER, ended && !feed.handed_out);
        feed.handed_out = handed_out;
        if number == 22 {
            let record = &feed.list[feed.starts[value as usize]..];
            let known = record.starts_with(b"RD") || record.starts_with(b"WR");
            self.tally
                .situation(UNKNOWN_MARK, record.len() > 1 && !known);
            self.tally.situation(CUT_OFF, known);
            self.tally.situation(ONE_BYTE, record.len() == 1);
        }
        if number == 0 && !last && taken > 0 {
            let started = feed.starts.partition_point(|&start| start <= feed.at);
            let into_record = feed.at - feed.starts[started - 1];
            self.tally.situation(MARK_CUT, into_record == 1);
            self.tally.situation(RECORD_CUT, into_record > 1);
        }
        Ok((answer, taken))
    }

    /// Calls that are turned away: nothing is taken, and the state stays.
    fn turned_away(&mut self, feed: &mut Feed, fault: bool) -> Result<(), String> {
        let given = &feed.list[feed.at..];
        let last = self.rng.coin();
        let before = feed.state.bytes().to_vec();
        let room = self.rng.pick(&[0, 4, 1_472, ROOM - 1, ROOM - 1]);
        let (answer, taken) = self.compare_call(feed, given, last, room)?;
        if (answer, taken) != ((26, ROOM as u64), 0) || feed.state.bytes() != before {
            return Err(format!("room of {room}: {answer:?}, {taken} taken"));
        }
        self.tally.ending(26);
        self.tally.situation(SHORT_BY_ONE, room == ROOM - 1);
        self.tally.situation(SHORT_AFTER_FAULT, fault);

        let length = self.rng.pick(&[
            0,
            1,
            STATE_BYTES / 2,
            STATE_BYTES - 1,
            STATE_BYTES + 1,
            STATE_BYTES + 32,
        ]);
        let mut out = [0xEE; ROOM];
        let answer = exports::part(feed.state.lend(length), given, last.into(), &mut out);
        let unchanged = feed.state.bytes() == before && out == [0xEE; ROOM];
        if answer != (1, 0, 0) || !unchanged || !feed.state.margins_whole() {
            return Err(format!("state of {length} bytes: {answer:?}"));
        }
        self.tally.ending(1);
        self.tally.situation(OTHER_LENGTH, true);
        Ok(())
    }

    /// Calls after the list's end or a fault: they repeat the answer, take nothing and change
    /// nothing.
    fn afterwards(&mut self, feed: &mut Feed, fault: bool) -> Result<(), String> {
        let before = feed.state.bytes().to_vec();
        for _ in 0..2 {
            let last = self.rng.coin();
            let given: &[u8] = self.rng.pick(&[&b""[..], b"R", b"RD\0\0\0\0", b"?? ?"]);
            let ((number, value), taken) = self.compare_call(feed, given, last, ROOM)?;
            let nothing = taken == 0 && (number != 0) == fault && (fault || value == 0);
            if !nothing || feed.state.bytes() != before {
                return Err(format!("afterwards: {number}, {value}, {taken} taken"));
            }
            self.tally.ending(number);
            self.tally.situation(FAULT_AGAIN, fault);
            self.tally.situation(AFTER_THE_END, !fault);
        }
        if self.rng.one_in(8) {
            feed.at = feed.list.len();
            self.turned_away(feed, fault)?;
        }
        Ok(())
    }

    /// The same call on both sides, everything compared.
    fn compare_call(
        &mut self,
        feed: &mut Feed,
        given: &[u8],
        last: bool,
        room: usize,
    ) -> Result<Called, String> {
        let rng = &mut self.rng;
        let mut out = Lent::new("output", room, rng.byte());
        let (library, model) = out.lend(room);
        let expected = feed.model.call(given, last, model);
        let lent = given.to_vec();
        // Any number but 0 says that the list ends here.
        let last = u32::from(last) * rng.pick(&[1, 1, 2, 0x100, u32::MAX]);
        let (number, taken, value) =
            exports::part(feed.state.lend(STATE_BYTES), &lent, last, library);
        let answer = numbers(&expected.written, |&written| written as u64);
        let context = |what: String| format!("{what}\nat {}, {} bytes", feed.at, given.len());
        same_answer((number, value), answer).map_err(context)?;
        if taken != expected.taken as u64 {
            let expected = expected.taken;
            return Err(context(format!("{taken} bytes taken, expected {expected}")));
        }
        same_input(&lent, given).map_err(context)?;
        out.compare(expected.written.is_err()).map_err(context)?;
        if !feed.state.margins_whole() {
            return Err(context("bytes beside the state changed".to_string()));
        }
        let written = expected.written.unwrap_or(0);
        feed.output.extend_from_slice(&out.model()[..written]);
        Ok((answer, expected.taken))
    }

    /// A call on a state that no call has left gets an answer, and no byte beyond what it may
    /// write is touched.
    fn overwritten(&mut self, list: &[u8]) -> Result<(), String> {
        let mut state = State::new();
        let mut out = vec![0; ROOM];
        let front = self.rng.below(list.len().min(4_000) + 1);
        exports::part(state.lend(STATE_BYTES), &list[..front], 0, &mut out);
        let rng = &mut self.rng;
        let bytes = state.lend(STATE_BYTES);
        match rng.below(4) {
            0 => rng.fill(bytes),
            1 => bytes.fill(0xFF),
            _ => {
                for _ in 0..rng.pick(&[1, 2, 8, 40]) {
                    let near = rng.pick(&[32, STATE_BYTES]).min(STATE_BYTES);
                    bytes[rng.below(near)] = rng.byte();
                }
            }
        }
        for _ in 0..3 {
            let last = self.rng.coin();
            let given = &list[front..];
            let mut out = Lent::new("output", ROOM, self.rng.byte());
            let before = state.bytes().to_vec();
            let lent = given.to_vec();
            let (room, _) = out.lend(ROOM);
            let (number, taken, value) =
                exports::part(state.lend(STATE_BYTES), &lent, last.into(), room);
            same_input(&lent, given)?;
            let written = match number {
                0 => value as usize,
                _ => 0,
            };
            if taken > given.len() as u64 || written > ROOM {
                return Err(format!("{taken} bytes taken, {written} written"));
            }
            if number == 1 && ((taken, value) != (0, 0) || state.bytes() != before) {
                return Err(format!("refused with 1 at {value}, {taken} taken"));
            }
            out.accept(written);
            out.compare(false)?;
            if !state.margins_whole() {
                return Err("bytes beside the state changed".to_string());
            }
            self.tally.situation(OVERWRITTEN, true);
        }
        Ok(())
    }
}

/// Where each record starts, up to the place behind the last good one.
fn starts(list: &[u8]) -> Vec<usize> {
    let mut starts = vec![0];
    let mut at = 0;
    for record in Records::new(list).map_while(Result::ok) {
        at += if record.is_write() { 10 } else { 6 };
        starts.push(at);
    }
    starts
}

/// What the calls handed out must be what the whole list compiles to; of a refused list, the packets
/// that the records before the bad one closed.
fn whole(feed: &Feed, ended: Result<(), Refusal>) -> Result<(), String> {
    let Feed { list, output, .. } = feed;
    let mut room = vec![0; 4 * list.len()];
    let compiled = compile(list, &mut room).map(|compiled| compiled.bytes);
    if compiled.map(|_| ()) != ended {
        return Err(format!(
            "ended with {ended:?}, the whole list: {compiled:?}"
        ));
    }
    let bytes = match compiled {
        Ok(bytes) => bytes,
        Err(refusal) => {
            let good = &list[..feed.starts[refusal.place as usize]];
            let bytes = compile(good, &mut room).expect("good records").bytes;
            let open = packets(&room[..bytes])?
                .last()
                .map_or(0, |last| last.len() + 4);
            bytes - open
        }
    };
    match output == &room[..bytes] {
        true => Ok(()),
        false => Err(format!("handed out {}", hex(output))),
    }
}

/// The library's state, with bytes beside it that no call may touch.
struct State(Vec<u8>);

impl State {
    const MARGIN: usize = 64;

    fn new() -> State {
        let mut memory = vec![0xA5; STATE_BYTES + 2 * State::MARGIN];
        memory[State::MARGIN..][..STATE_BYTES].fill(0);
        State(memory)
    }

    fn lend(&mut self, length: usize) -> &mut [u8] {
        &mut self.0[State::MARGIN..][..length]
    }

    fn bytes(&self) -> &[u8] {
        &self.0[State::MARGIN..][..STATE_BYTES]
    }

    fn margins_whole(&self) -> bool {
        let (before, rest) = self.0.split_at(State::MARGIN);
        let beside = before.iter().chain(&rest[STATE_BYTES..]);
        beside.copied().all(|byte| byte == 0xA5)
    }
}
