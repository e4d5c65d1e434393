//! The parts of the command, in the order in which one meets them.

mod asm;
mod compile;
mod dis;
mod either;
mod fix;
mod guard;
mod judge;
mod packets;
mod panel;
mod play;
mod serve;
mod tight;
mod why;

use crate::ending::Done;
use crate::words::Words;

pub struct Part {
    pub name: &'static str,
    /// What it does, in a few words.
    pub does: &'static str,
    pub help: &'static str,
    pub run: fn(Words) -> Done,
}

macro_rules! parts {
    ($($name:ident: $does:literal,)*) => {
        &[$(Part { name: stringify!($name), does: $does, help: $name::HELP, run: $name::run }),*]
    };
}

pub const PARTS: &[Part] = parts! {
    asm: "a text to a cue list",
    dis: "a cue list to text",
    compile: "a cue list to packets, by the packing rule",
    tight: "the same in fewer bytes; --check says whether other packets will do",
    fix: "a damaged list to a playable one, with an account",
    packets: "compiled packets in words",
    why: "whether a packet is accepted, and why not",
    judge: "whether our card would have answered as a recording or a capture says",
    guard: "whether a list writes protected cells",
    either: "whether two lists may be run in either order",
    panel: "a daughter card's readings",
    serve: "the card on the wire",
    play: "packets to a card, replies recorded",
};

pub fn named(name: &str) -> Option<&'static Part> {
    PARTS.iter().find(|part| part.name == name)
}
