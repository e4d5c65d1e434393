//! Cells that nothing may write.

use crate::ending::Stop;
use crate::record::{space, start};

/// What can be wrong with a guard whose ranges are in the store.
const FAULTS: &str = "a range beyond the 64th, or one with a byte of the unlock cell (0x1A of \
                      space 6) or of the packet count (0x0A of space 6)";

/// Ranges as they were given, and two numbers for each: its first byte in the store, its bytes.
#[derive(Default)]
pub struct Guard {
    texts: Vec<String>,
    numbers: Vec<u32>,
}

impl Guard {
    pub fn add(&mut self, text: String) -> Result<(), Stop> {
        self.numbers.extend(range(&text).map_err(Stop::Usage)?);
        self.texts.push(text);
        Ok(())
    }

    /// The numbers, if the library takes them.
    pub fn sound(self) -> Result<Vec<u32>, Stop> {
        let Err(refusal) = head::guard(&self.numbers) else {
            return Ok(self.numbers);
        };
        let text = &self.texts[refusal.place as usize];
        let rule = head::sentence(refusal.number);
        Err(Stop::Usage(format!(
            "'{text}': {refusal}: {rule}: {FAULTS}"
        )))
    }
}

/// The two numbers of a guard for SPACE:FIRST-LAST.
fn range(text: &str) -> Result<[u32; 2], String> {
    let parts = text
        .split_once(':')
        .and_then(|(space, range)| Some((space, range.split_once('-')?)))
        .and_then(|(space, (first, last))| Some((number(space)?, number(first)?, number(last)?)));
    let Some((named, first, last)) = parts else {
        return Err(format!("'{text}' is not SPACE:FIRST-LAST in numbers"));
    };
    let found = u8::try_from(named)
        .ok()
        .and_then(|n| Some((start(n), space(n)?.1)));
    let Some((start, bytes)) = found else {
        return Err(format!("'{text}': a card has spaces 0, 2, 6 and 7"));
    };
    if first > last {
        return Err(format!("'{text}': the first address is above the last"));
    }
    if last >= bytes {
        return Err(format!("'{text}': space {named} has {bytes} bytes"));
    }
    Ok([start + first, last - first + 1])
}

/// A number in decimal, or in hexadecimal behind 0x.
fn number(text: &str) -> Option<u32> {
    let (digits, radix) = match text.strip_prefix("0x").or(text.strip_prefix("0X")) {
        Some(digits) => (digits, 16),
        None => (text, 10),
    };
    // A sign is not a digit.
    let plain = digits.bytes().all(|digit| digit.is_ascii_hexdigit());
    match plain {
        true => u32::from_str_radix(digits, radix).ok(),
        false => None,
    }
}
