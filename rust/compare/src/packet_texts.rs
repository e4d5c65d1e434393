//! Compares the texts of packets, each from pointers of its own, and the pointers that it leaves.

use crate::lent::Lent;
use crate::rng::Rng;
use crate::tally::Tally;
use crate::{drafts, hex, numbers, same_answer, same_input, Outcome};
use head::packet_text::exports;
use model::area::{Area, POINTERS};
use model::packet_text::{packet_text, put_packet_text};
use model::PACKET_BYTES;

const ENDINGS: [u32; 3] = [0, 1, 26];

const SITUATIONS: [&str; 14] = [
    EMPTY,
    SEVERAL,
    WRITE,
    INFO,
    FROM_POINTER,
    AT_THE_END,
    REFUSED,
    REFUSED_LATER,
    CUT,
    TOO_LONG,
    EXACT,
    SHORT_BY_ONE,
    OTHER_COUNT,
    ABOVE,
];
const EMPTY: &str = "packet without commands";
const SEVERAL: &str = "accepted packet of several commands";
const WRITE: &str = "values of a write";
const INFO: &str = "info read";
const FROM_POINTER: &str = "address from the pointer";
const AT_THE_END: &str = "pointer at 0x10000, with five digits";
const REFUSED: &str = "packet that is refused at its first command";
const REFUSED_LATER: &str = "packet that is refused past its first command";
const CUT: &str = "word or address cut off";
const TOO_LONG: &str = "packet above 1,472 bytes";
const EXACT: &str = "text that fills its room";
const SHORT_BY_ONE: &str = "room too small by one byte";
const ABOVE: &str = "pointer above its area's size";
const OTHER_COUNT: &str = "another number of pointers than eight";

/// More bytes than a packet's text can have.
const MOST_BYTES: usize = 70_000;

pub fn compare(seed: u64, count: u64) -> Outcome {
    let mut part = Part {
        rng: Rng::new(seed),
        pointers: Lent::new("pointers", POINTERS + 1, 0),
        out: Lent::new("text", MOST_BYTES, 0),
        tally: Tally::new("packet_texts", &ENDINGS, &SITUATIONS),
    };
    for case in 0..count {
        let result = part.case();
        result.map_err(|what| format!("packet {case}: {what}"))?;
    }
    Ok(vec![part.tally])
}

struct Part {
    rng: Rng,
    pointers: Lent<u32>,
    out: Lent<u8>,
    tally: Tally,
}

impl Part {
    fn case(&mut self) -> Result<(), String> {
        let rng = &mut self.rng;
        let mut pointers = [0; POINTERS];
        for area in Area::ALL {
            let most = area.bytes() as usize;
            pointers[area.index()] = match rng.one_in(4) {
                true => most as u32,
                false => rng.below(most + 1) as u32 & !3,
            };
        }
        let packet = drafts::packet(rng, pointers);
        let (text, _) =
            packet_text(&packet, &pointers).map_err(|refusal| format!("{refusal:?}"))?;
        if rng.one_in(20) {
            let area = rng.pick(&Area::ALL);
            pointers[area.index()] = area.bytes() + 1;
        }
        let lent = match rng.one_in(30) {
            true => rng.pick(&[0, POINTERS - 1, POINTERS + 1]),
            false => POINTERS,
        };
        let room = rng.pick(&[text.len() - 1, text.len(), text.len() + 1, MOST_BYTES, 0]);
        self.pointers.put(0, &pointers);
        self.call(&packet, lent, room)
            .map_err(|what| format!("{what}\npointers {pointers:?}, packet of {}", hex(&packet)))?;
        self.count(&packet, &text, room);
        self.tally.situation(OTHER_COUNT, lent != POINTERS);
        let above = |area: &Area| pointers[area.index()] > area.bytes();
        let above = Area::ALL.iter().any(above);
        self.tally.situation(ABOVE, above && lent == POINTERS);
        Ok(())
    }

    fn call(&mut self, packet: &[u8], lent: usize, room: usize) -> Result<(), String> {
        let rng = &mut self.rng;
        self.out.change(|out| rng.fill(&mut out[..room.min(256)]));
        let (library_pointers, model_pointers) = self.pointers.lend(lent);
        let (library_out, model_out) = self.out.lend(room);
        let given = packet.to_vec();
        let answer = exports::packet_text(&given, library_pointers, library_out);
        let expected = put_packet_text(packet, model_pointers, model_out);
        let expected = numbers(&expected, |&bytes| bytes as u64);
        same_answer(answer, expected)?;
        same_input(&given, packet)?;
        self.pointers.compare(expected.0 != 0)?;
        self.out.compare(expected.0 != 0)?;
        self.tally.ending(expected.0);
        Ok(())
    }

    fn count(&mut self, packet: &[u8], text: &str, room: usize) {
        let tally = &mut self.tally;
        let refused = text.contains("  refused ");
        let first = text.starts_with("  refused ");
        tally.situation(EMPTY, packet.is_empty());
        tally.situation(SEVERAL, !refused && text.lines().count() > 1);
        tally.situation(WRITE, text.contains("increment: 0x"));
        tally.situation(INFO, text.contains(": info read "));
        tally.situation(FROM_POINTER, text.contains(" from the pointer (0x"));
        tally.situation(AT_THE_END, text.contains("(0x10000)"));
        tally.situation(REFUSED, first && packet.len() <= PACKET_BYTES);
        tally.situation(REFUSED_LATER, refused && !first);
        tally.situation(CUT, text.contains(" cut off\n  command "));
        tally.situation(TOO_LONG, packet.len() > PACKET_BYTES);
        tally.situation(EXACT, room == text.len());
        tally.situation(SHORT_BY_ONE, room + 1 == text.len());
    }
}
