//! What is wrong with a daughter card's table that the library refuses. The number is the library's; here its entry is looked for.

/// Where entry k of a table stands.
fn place_of(table: u16, k: usize) -> usize {
    usize::from(table) + 2 * k
}

/// A byte that is not there counts as 0.
fn byte(memory: &[u8], at: usize) -> u8 {
    memory.get(at).copied().unwrap_or(0)
}

/// The record that entry k points to, if the entry is there.
fn record_of(memory: &[u8], table: u16, k: usize) -> Option<usize> {
    let pair = memory.get(place_of(table, k)..)?.get(..2)?;
    Some(u16::from_le_bytes([pair[0], pair[1]]).into())
}

/// The first entry at fault, where it and its record stand, and what is wrong there.
pub fn wrong(memory: &[u8], table: u16, number: u32) -> String {
    let (mut inputs, mut outputs) = (0, 0);
    for k in 0..65_535 {
        let at = format!("entry {k} at 0x{:04X}", place_of(table, k));
        let Some(record) = record_of(memory, table, k) else {
            return format!("{at}: the entry is past the memory's end");
        };
        let fault = match number {
            41 => unreadable(memory, record),
            _ => overfull(memory, record, &mut inputs, &mut outputs),
        };
        if let Some(fault) = fault {
            return format!("{at}, record at 0x{record:04X}: {fault}");
        }
    }
    head::sentence(number)
}

/// For 41.
fn unreadable(memory: &[u8], record: usize) -> Option<String> {
    let cut = || Some("the record goes past the memory's end".to_string());
    let (mark, kind) = (byte(memory, record), byte(memory, record + 2));
    let direction = byte(memory, record + 3);
    match mark {
        _ if record == 0 => Some("the table ends".to_string()),
        _ if record >= memory.len() => cut(),
        0xA0 if !has_strings(memory, record + 14, 2) => cut(),
        0xA0 if kind > 7 => Some(format!("there is no type {kind}")),
        0xA0 if ![0x00, 0x40, 0x80].contains(&direction) => {
            Some(format!("there is no direction 0x{direction:02X}"))
        }
        0xB0 if !has_strings(memory, record + 4, 1) => cut(),
        0xB0 if kind > 1 => Some(format!("there is no mode type {kind}")),
        0xA0 | 0xB0 => None,
        mark => Some(format!(
            "neither a field nor a mode begins with 0x{mark:02X}"
        )),
    }
}

/// Whether so many strings stand there, each with its NUL.
fn has_strings(memory: &[u8], at: usize, strings: usize) -> bool {
    let rest = memory.get(at..).unwrap_or_default();
    rest.iter()
        .filter(|byte| **byte == 0)
        .nth(strings - 1)
        .is_some()
}

/// For 42. The bits so far are carried on.
fn overfull(memory: &[u8], record: usize, inputs: &mut u32, outputs: &mut u32) -> Option<String> {
    if record == 0 {
        return Some("the table ends".to_string());
    }
    // A mode holds no bits.
    if byte(memory, record) != 0xA0 {
        return None;
    }
    let (width, direction) = (
        u32::from(byte(memory, record + 1)),
        byte(memory, record + 3),
    );
    *inputs += if direction != 0x80 { width } else { 0 };
    *outputs += if direction != 0x00 { width } else { 0 };
    match (width, *inputs, *outputs) {
        (width, ..) if width == 0 || width > 64 => {
            Some(format!("a field of {width} bits, not 1 to 64"))
        }
        (_, inputs, _) if inputs > 96 => {
            Some(format!("the inputs have {inputs} bits with it, above 96"))
        }
        (.., outputs) if outputs > 96 => {
            Some(format!("the outputs have {outputs} bits with it, above 96"))
        }
        _ => None,
    }
}
