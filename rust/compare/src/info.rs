//! Counts the packets that end as they do by an info command or an info pointer.

use crate::tally::Tally;
use crate::trace::{self, Command};
use crate::Answer;
use model::area::{Area, INFO_BYTES, POINTERS};
use model::words::Fields;

/// An info write is refused before its data is looked at, so 9 to 11 can't arise.
const ENDINGS: [u32; 9] = [0, 1, 3, 4, 5, 6, 7, 8, 12];

const SITUATIONS: [&str; 9] = [
    WHOLE[0],
    WHOLE[1],
    WHOLE[2],
    WHOLE[3],
    NO_ADDRESS,
    STILL,
    MOVED_TO_END,
    POINTER_MOVED,
    POINTER_65536,
];
/// In the order of the spaces.
const WHOLE: [&str; 4] = [
    "whole info area of space 0",
    "whole info area of space 2",
    "whole info area of space 6",
    "whole info area of space 7",
];
const NO_ADDRESS: &str = "info read without an address";
const STILL: &str = "info read of several elements without increment";
const MOVED_TO_END: &str = "info pointer moved to its area's end";
const POINTER_MOVED: &str = "pointer shown that moved within the packet";
const POINTER_65536: &str = "pointer of 65,536 shown";

pub fn tally() -> Tally {
    Tally::apart("info", &ENDINGS, &SITUATIONS)
}

/// Counts a packet that ran from these pointers with rooms of the right lengths, if it is one for
/// this tally.
pub fn count(tally: &mut Tally, packet: &[u8], pointers: [u32; POINTERS], (number, value): Answer) {
    let above = |area: &Area| area.info && pointers[area.index()] > area.bytes();
    let by_info = match number {
        0 => count_reads(tally, &trace::commands(packet, pointers)),
        1 => Area::ALL.iter().any(above),
        2 => false,
        _ => starts_with_info(&packet[value as usize..]),
    };
    if by_info {
        tally.ending(number);
    }
}

/// Counts what an accepted packet's info reads came to, and answers whether there are any.
fn count_reads(tally: &mut Tally, commands: &[Command]) -> bool {
    for command in commands.iter().filter(|command| command.area.info) {
        let (fields, space) = (command.fields, command.area.space);
        let end = command.address + command.moved();
        let moved_to_end = fields.increment && end == INFO_BYTES as u32;
        tally.situation(WHOLE[space.index()], moved_to_end && command.address == 0);
        tally.situation(NO_ADDRESS, !fields.address);
        tally.situation(STILL, !fields.increment && fields.count > 1);
        tally.situation(MOVED_TO_END, moved_to_end);
        let shown = command.reaches(6);
        tally.situation(POINTER_MOVED, shown && command.pointer_moved);
        tally.situation(POINTER_65536, shown && command.pointer == 65_536);
    }
    commands.iter().any(|command| command.area.info)
}

/// Whether a whole command word with the info bit stands there.
fn starts_with_info(bytes: &[u8]) -> bool {
    let word = bytes.first_chunk().map(|word| u16::from_le_bytes(*word));
    word.is_some_and(|word| Fields::from_word(word).info)
}
