//! Compares cue lists as text: texts that are assembled, and lists that are written as text.

mod situations;

use crate::call::{self, answered, room};
use crate::lines::{self, Made};
use crate::rng::Rng;
use crate::shows::{compiled, played};
use crate::tally::Tally;
use crate::{cues, hex, salvage, wrapped, Outcome};
use head::text::exports;
use model::text::{assemble, list_text, MOST_NAMES};

/// Compares `count` texts, half as many lists, and the long ones besides.
pub fn compare(seed: u64, count: u64) -> Outcome {
    let mut part = Part {
        rng: Rng::new(seed),
        texts: situations::tally_of_texts(),
        lists: situations::tally_of_lists(),
    };
    for case in 0..count {
        let made = lines::any(&mut part.rng);
        let result = part.text(&made);
        result.map_err(|what| format!("text {case}: {what}"))?;
        if case.is_multiple_of(2) {
            let result = part.list();
            result.map_err(|what| format!("list {case}: {what}"))?;
        }
    }
    part.many_names()?;
    part.long()?;
    Ok(vec![part.texts, part.lists])
}

struct Part {
    rng: Rng,
    texts: Tally,
    lists: Tally,
}

impl Part {
    fn text(&mut self, made: &Made) -> Result<(), String> {
        let room = room(&mut self.rng, list_needed(&made.text));
        self.text_to(made, room)
    }

    /// Assembles the text to a room of `room` bytes on both sides and compares.
    fn text_to(&mut self, Made { text, says }: &Made, room: usize) -> Result<(), String> {
        let context = |what: String| format!("{what}\ntext of {}", shown(text));
        let model = |text: &[u8], out: &mut [u8]| {
            answered(assemble(text, out), |done| (done.bytes, done.records))
        };
        let (rng, library) = (&mut self.rng, exports::assemble);
        let same = call::compare(rng, text, room, "records", library, model);
        let ((number, value, _), out) = same.map_err(context)?;
        situations::count_text(&mut self.texts, text, room, (number, value));
        match (number, says) {
            (0, says) => {
                let list = &out.model()[..value as usize];
                self.assembled(list, says.as_deref()).map_err(context)
            }
            (26, _) | (_, None) => Ok(()),
            (_, Some(_)) => Err(context(format!("a good text is refused with {number}"))),
        }
    }

    /// The list of an accepted text must be what the text was made to say, compile, and come back from its
    /// own text. Some are played as a show beside their records one by one.
    fn assembled(&mut self, list: &[u8], says: Option<&[u8]>) -> Result<(), String> {
        if says.is_some_and(|says| says != list) {
            return Err(format!("it says another list than {}", hex(list)));
        }
        let output = compiled(list).map_err(|what| format!("its list is {what}"))?;
        if list.len() < 4_000 && self.rng.one_in(8) {
            played(&mut self.rng, list, &output)?;
        }
        comes_back(list)
    }

    fn list(&mut self) -> Result<(), String> {
        let list = match self.rng.coin() {
            true => cues::any(&mut self.rng),
            false => salvage::list(&mut self.rng),
        };
        let room = room(&mut self.rng, text_needed(&list));
        self.list_to(&list, room)
    }

    /// Writes the list as text to a room of `room` bytes on both sides and compares.
    fn list_to(&mut self, list: &[u8], room: usize) -> Result<(), String> {
        let context = |what: String| format!("{what}\nlist of {}", hex(list));
        let model = |list: &[u8], out: &mut [u8]| {
            answered(list_text(list, out), |done| (done.bytes, done.lines))
        };
        let (rng, library) = (&mut self.rng, exports::list_text);
        let same = call::compare(rng, list, room, "lines", library, model);
        let ((number, value, lines), _) = same.map_err(context)?;
        situations::count_list(&mut self.lists, list, room, (number, value, lines));
        refused_alike(list, (number, value)).map_err(context)?;
        match number {
            0 => comes_back(list).map_err(context),
            _ => Ok(()),
        }
    }

    /// Texts with as many names as there may be, and one more.
    fn many_names(&mut self) -> Result<(), String> {
        for names in [MOST_NAMES - 1, MOST_NAMES, MOST_NAMES + 1, MOST_NAMES + 9] {
            let made = lines::names(&mut self.rng, names);
            let needed = list_needed(&made.text);
            self.text_to(&made, needed)
                .map_err(|what| format!("{names} names: {what}"))?;
        }
        Ok(())
    }

    /// Texts and lists about the limit of a hundred thousand records.
    fn long(&mut self) -> Result<(), String> {
        for variant in 0..lines::LONG_TEXTS {
            let made = lines::long(&mut self.rng, variant);
            let needed = list_needed(&made.text);
            for room in [needed, needed - 1, needed + 1] {
                self.text_to(&made, room)
                    .map_err(|what| format!("long text {variant}: {what}"))?;
            }
        }
        for variant in 0..cues::LONG_LISTS {
            let list = cues::long(&mut self.rng, variant);
            let needed = text_needed(&list);
            for room in [needed, needed - 1, needed + 1] {
                self.list_to(&list, room)
                    .map_err(|what| format!("long list {variant}: {what}"))?;
            }
        }
        Ok(())
    }
}

/// The list's length if the text is good, 100 if not.
fn list_needed(text: &[u8]) -> usize {
    needed(assemble(text, &mut []).map(|done| done.bytes))
}

/// The text's length if the list is good, 100 if not.
fn text_needed(list: &[u8]) -> usize {
    needed(list_text(list, &mut []).map(|done| done.bytes))
}

fn needed(without_room: Result<usize, model::Refusal>) -> usize {
    match without_room {
        Ok(bytes) => bytes,
        Err(refusal) if refusal.number == 26 => refusal.place as usize,
        Err(_) => 100,
    }
}

/// The library's text of a list must be assembled to that list again.
fn comes_back(list: &[u8]) -> Result<(), String> {
    let refused = |refusal: head::Refusal| format!("back from its text it is {refusal}");
    // No line has more bytes than four times its record's.
    let mut text = vec![0; 4 * list.len()];
    let written = head::list_text(list, &mut text).map_err(refused)?;
    let mut again = vec![0; list.len()];
    let text = &text[..written.bytes];
    let assembled = head::assemble(text, &mut again).map_err(refused)?;
    match assembled.bytes == list.len() && assembled.records == written.lines && again == list {
        true => Ok(()),
        false => Err("from its text comes another list".to_string()),
    }
}

/// A list must be refused as the library's compiler refuses it, but for the room.
fn refused_alike(list: &[u8], (number, place): (u32, u64)) -> Result<(), String> {
    let mut out = vec![0; 4 * list.len()];
    let compiled = wrapped(&head::compile(list, &mut out), |_| 0);
    let alike = match number {
        0 | 26 => compiled.0 == 0,
        _ => compiled == (number, place),
    };
    match alike {
        true => Ok(()),
        false => Err(format!("the compiler answers {compiled:?}")),
    }
}

/// A text's bytes, the middle of a long one left out.
fn shown(text: &[u8]) -> String {
    const SHOWN: usize = 2_000;
    if text.len() <= SHOWN {
        return format!("{} bytes: {}", text.len(), text.escape_ascii());
    }
    let (first, last) = (&text[..SHOWN / 2], &text[text.len() - SHOWN / 2..]);
    let (first, last) = (first.escape_ascii(), last.escape_ascii());
    format!("{} bytes: {first} ... {last}", text.len())
}
