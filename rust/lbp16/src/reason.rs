//! Why a packet is refused, in the words of the program `why`.

use crate::json::Object;
use crate::shown::Hex;
use crate::state::State;
use head::{Fields, Reason};
use std::fmt::Write;

/// The rule that a packet breaks. 1 means other things too, but not of a packet.
pub fn rule(number: u32) -> String {
    match number {
        1 => "the store is not whole, or a pointer stands above the size of its space or info area"
            .to_string(),
        _ => head::sentence(number),
    }
}

/// A packet's refusal in lines, and for scripts; nothing if it is accepted.
pub fn of(packet: &[u8], state: &State) -> Option<(String, Object)> {
    let reason = head::why(packet, &state.store, &state.pointers)?;
    let said = format!("{}: {}", reason.refusal, rule(reason.refusal.number));
    let mut lines = format!("{said}\n");
    let mut object = Object::new()
        .number("refused", reason.refusal.number)
        .number("place", reason.refusal.place)
        .text("message", said);
    // 1 and 2 are of no command.
    if reason.refusal.number > 2 {
        let place = reason.refusal.place as usize;
        let _ = writeln!(lines, "{}", command(packet, state, &reason));
        if place > 0 {
            let front = Hex(&packet[..place]);
            let _ = writeln!(
                lines,
                "the {place} bytes before it are an accepted packet: {front}"
            );
        }
        object = object
            .number("command", reason.index)
            .object("fields", &fields(&reason.fields));
    }
    Some((lines, object))
}

fn fields(fields: &Fields) -> Object {
    Object::new()
        .flag("write", fields.write)
        .flag("address", fields.address)
        .flag("info", fields.info)
        .number("space", fields.space)
        .number("element_bytes", 1_u64 << fields.size)
        .flag("increment", fields.increment)
        .number("count", fields.count)
}

/// The command at fault: its place, its bytes and what they say.
fn command(packet: &[u8], state: &State, reason: &Reason) -> String {
    let place = reason.refusal.place as usize;
    let (rest, fields) = (&packet[place..], &reason.fields);
    let data = usize::from(fields.count) << fields.size;
    let bytes = 2 + 2 * usize::from(fields.address) + if fields.write { data } else { 0 };
    let shown = &rest[..rest.len().min(if rest.len() < 2 { 1 } else { bytes })];
    let last = place + shown.len().max(1) - 1;
    let mut line = format!(
        "command {}, bytes {place} to {last}, {}: ",
        reason.index,
        Hex(shown)
    );
    if rest.len() < 2 {
        return line + "word cut off";
    }
    let _ = write!(
        line,
        "{}{}, space {}, {}-byte elements, {}increment, count {}, {}",
        if fields.info { "info " } else { "" },
        if fields.write { "write" } else { "read" },
        fields.space,
        1 << fields.size,
        if fields.increment { "" } else { "no " },
        fields.count,
        address(rest, fields, &pointers_before(packet, place, state)),
    );
    line
}

fn address(rest: &[u8], fields: &Fields, pointers: &[u32]) -> String {
    match (fields.address, rest.get(2..4)) {
        (true, Some(given)) => {
            format!("address 0x{:04X}", u16::from_le_bytes([given[0], given[1]]))
        }
        (true, None) => "address cut off".to_string(),
        (false, _) => {
            let pointer = pointer(fields).map_or(0, |k| pointers[k]);
            format!("address from the pointer (0x{pointer:04X})")
        }
    }
}

/// Which pointer a command without an address starts from. A write never uses that of an info area.
fn pointer(fields: &Fields) -> Option<usize> {
    let info = 4 * usize::from(fields.info && !fields.write);
    let space = [0, 2, 6, 7].iter().position(|space| *space == fields.space);
    space.map(|space| space + info)
}

/// The pointers that the commands before it leave; these are an accepted packet.
fn pointers_before(packet: &[u8], place: usize, state: &State) -> [u32; 8] {
    let mut before = state.clone();
    let _ = before.run(&packet[..place]);
    before.pointers
}
