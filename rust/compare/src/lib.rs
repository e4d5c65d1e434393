//! Holds the library against the independent implementation on many random inputs.
//!
//! Each part makes its inputs from a seed, gives the same input to both and compares everything
//! that was answered or lent, byte for byte.

pub mod bursts;
pub mod call;
pub mod captures;
pub mod cards;
pub mod cues;
pub mod drafts;
pub mod frames;
pub mod guards;
pub mod headers;
pub mod independent;
pub mod info;
pub mod interlock;
pub mod lent;
pub mod lines;
pub mod list_why;
pub mod lists;
pub mod packet_texts;
pub mod packets;
pub mod panel;
pub mod parts;
pub mod proposals;
pub mod reasons;
pub mod recordings;
pub mod rng;
pub mod salvage;
pub mod sentences;
pub mod shows;
pub mod sserial;
pub mod state;
pub mod tally;
pub mod texts;
pub mod tight;
pub mod trace;
pub mod vectors;
pub mod words;

use model::store::{Space, COUNT_ADDRESS};
use std::ops::Range;

/// What a part found: how often it met which ending, or the first difference in words.
pub type Outcome = Result<Vec<tally::Tally>, String>;

/// A call's answer as the library's numbers: the refusal number, then a value or the place.
pub type Answer = (u32, u64);

/// The independent implementation's answer in the same form.
pub fn numbers<T>(result: &Result<T, model::Refusal>, value: impl Fn(&T) -> u64) -> Answer {
    match result {
        Ok(accepted) => (0, value(accepted)),
        Err(refusal) => (refusal.number, refusal.place),
    }
}

/// The wrapper's answer in the same form.
pub fn wrapped<T>(result: &Result<T, head::Refusal>, value: impl Fn(&T) -> u64) -> Answer {
    match result {
        Ok(accepted) => (0, value(accepted)),
        Err(refusal) => (refusal.number, refusal.place),
    }
}

pub fn same_answer(answer: Answer, expected: Answer) -> Result<(), String> {
    if answer == expected {
        return Ok(());
    }
    let (answer, expected) = (in_words(answer), in_words(expected));
    Err(format!("the library: {answer}; expected: {expected}"))
}

/// A count that is answered beside the value must be the expected one.
pub fn same_count(what: &str, count: u64, expected: u64) -> Result<(), String> {
    if count == expected {
        return Ok(());
    }
    Err(format!(
        "the library counts {count} {what}; expected: {expected}"
    ))
}

fn in_words((number, value): Answer) -> String {
    match number {
        0 => format!("accepted with {value}"),
        _ => format!("refused {number} at {value}"),
    }
}

/// What was lent to be read only must still be what it was.
pub fn same_input<T: PartialEq>(lent: &[T], given: &[T]) -> Result<(), String> {
    if lent == given {
        return Ok(());
    }
    Err("the library changed its input".to_string())
}

/// The bytes of the store that a status cell stands in.
pub fn status_cell(address: u32) -> Range<usize> {
    let first = Space::Status.place(address);
    first..first + 2
}

/// The packet count that a store holds.
pub fn packet_count(store: &[u8]) -> u16 {
    let cell = store[status_cell(COUNT_ADDRESS)].try_into();
    u16::from_le_bytes(cell.expect("two bytes"))
}

/// Bytes as they stand in the documents, the middle of long ones left out.
pub fn hex(bytes: &[u8]) -> String {
    const SHOWN: usize = 600;
    let text = |part: &[u8]| -> String {
        let digits: Vec<String> = part.iter().map(|byte| format!("{byte:02X}")).collect();
        digits.join(" ")
    };
    if bytes.len() <= SHOWN {
        return format!("{} bytes: {}", bytes.len(), text(bytes));
    }
    let (first, last) = (&bytes[..SHOWN / 2], &bytes[bytes.len() - SHOWN / 2..]);
    format!("{} bytes: {} ... {}", bytes.len(), text(first), text(last))
}
