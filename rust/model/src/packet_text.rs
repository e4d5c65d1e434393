//! A packet in words: a line for each accepted command, and of a refused packet the refusal and the command that it is of.

use crate::area::{Area, POINTERS};
use crate::packet::{checked_pointers, start_at, Action, Command};
use crate::sentence::sentence;
use crate::store::Space;
use crate::words::Fields;
use crate::{put, Refusal};
use std::fmt::Write;

/// The packet's text, and the pointers that it leaves: those before it where it is refused.
///
/// The only refusal is 1, of the pointers.
pub fn packet_text(packet: &[u8], pointers: &[u32]) -> Result<(String, [u32; POINTERS]), Refusal> {
    let pointers = checked_pointers(pointers).ok_or(Refusal::whole(1))?;
    let mut walk = match start_at(packet, pointers) {
        Ok(walk) => walk,
        Err(refusal) => return Ok((refused(refusal), pointers)),
    };
    let mut text = String::new();
    for index in 0.. {
        if walk.at_end() {
            break;
        }
        let place = walk.place();
        let before = walk.pointers();
        match walk.command() {
            Ok(command) => text.push_str(&line(place, &command)),
            Err(refusal) => {
                text.push_str(&refused(refusal));
                text.push_str(&command_at(packet, place as usize, index, before));
                return Ok((text, pointers));
            }
        }
    }
    if packet.is_empty() {
        text.push_str("  no commands\n");
    }
    Ok((text, walk.pointers()))
}

/// The same into a room. The refusals are 1, and 26 with the bytes needed.
pub fn put_packet_text(
    packet: &[u8],
    pointers: &mut [u32],
    out: &mut [u8],
) -> Result<usize, Refusal> {
    let (text, after) = packet_text(packet, pointers)?;
    put(text.as_bytes(), out)?;
    pointers.copy_from_slice(&after);
    Ok(text.len())
}

fn line(place: u64, command: &Command) -> String {
    let (kind, data) = match command.action {
        Action::Read => ("read", None),
        Action::ReadInfo(_) => ("info read", None),
        Action::Write(data) => ("write", Some(data)),
    };
    let space = match command.area.space {
        Space::Registers => "registers",
        Space::Eeprom => "eeprom",
        Space::Status => "status",
        Space::Information => "information",
    };
    let address = match command.given {
        true => hex_address(command.address),
        false => format!("from the pointer ({})", hex_address(command.address)),
    };
    let plural = if command.count == 1 { "" } else { "s" };
    let increment = if command.increment { "" } else { "no " };
    let mut text = format!(
        "  {place}: {kind} {space} {address}, {} element{plural}, {increment}increment",
        command.count
    );
    if let Some(data) = data {
        text.push(':');
        for element in data.chunks(command.area.element() as usize) {
            text.push_str(" 0x");
            for byte in element.iter().rev() {
                write!(text, "{byte:02X}").expect("a string takes all");
            }
        }
    }
    text + "\n"
}

fn hex_address(address: u32) -> String {
    format!("0x{address:04X}")
}

fn refused(refusal: Refusal) -> String {
    let Refusal { number, place } = refusal;
    format!("  refused {number} at {place}: {}\n", sentence(number))
}

/// The refused command: its bytes as its own word asks for them, as far as they are there, and what they say.
fn command_at(packet: &[u8], place: usize, index: u64, pointers: [u32; POINTERS]) -> String {
    let rest = &packet[place..];
    let word = rest.first_chunk().map(|word| u16::from_le_bytes(*word));
    let fields = Fields::from_word(word.unwrap_or(0));
    let element = 1 << fields.size;
    let header = if fields.address { 4 } else { 2 };
    let data = if fields.write {
        usize::from(fields.count) * element
    } else {
        0
    };
    let shown = &rest[..rest.len().min(header + data)];
    let bytes: String = shown.iter().map(|byte| format!(" {byte:02X}")).collect();
    let last = place + shown.len() - 1;
    let says = match word {
        None => ": word cut off\n".to_string(),
        Some(_) => format!(
            ": {}{}",
            said(fields, element),
            address_said(fields, rest, pointers)
        ),
    };
    format!("  command {index}, bytes {place} to {last},{bytes}{says}")
}

fn said(fields: Fields, element: usize) -> String {
    let info = if fields.info { "info " } else { "" };
    let kind = if fields.write { "write" } else { "read" };
    let increment = if fields.increment { "" } else { "no " };
    format!(
        "{info}{kind}, space {}, {element}-byte elements, {increment}increment, count {}",
        fields.space, fields.count
    )
}

fn address_said(fields: Fields, rest: &[u8], pointers: [u32; POINTERS]) -> String {
    if !fields.address {
        let info = fields.info && !fields.write;
        let pointer = match Space::from_number(fields.space) {
            Some(space) => pointers[Area { space, info }.index()],
            None => 0,
        };
        return format!(", address from the pointer ({})\n", hex_address(pointer));
    }
    match rest.get(2..4) {
        None => ", address cut off\n".to_string(),
        Some(given) => {
            let given = u16::from_le_bytes([given[0], given[1]]);
            format!(", address {}\n", hex_address(given.into()))
        }
    }
}
