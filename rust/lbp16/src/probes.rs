//! Reads of the card's packet count.

use crate::ending::{Refused, Stop};
use crate::json::Object;
use crate::shown::Count;
use crate::wire::{Sent, Wire};

/// A read of the packet count, by its address.
pub const PROBE: [u8; 4] = [0x01, 0x59, 0x0A, 0x00];

/// How far a count may have gone on between two probes of one question, by far.
const FAR: u16 = 1_000;

/// Probes that were sent, and the counts that were heard.
pub struct Probes {
    pub sent: u16,
    pub least: u16,
    pub most: u16,
    /// Those that were not answered. Each may have been taken, or not.
    pub silent: Vec<Sent>,
}

impl Probes {
    pub fn unheard(&self) -> u16 {
        self.silent.len() as u16
    }
}

/// Probes until one is answered in time. Others may be answered late; the order in which the card took them is that of their counts.
/// `base` is a count that none is below, where one is known.
pub fn send(wire: &mut Wire, tries: u64, base: Option<u16>) -> Result<Probes, Stop> {
    let mut sent = Vec::new();
    while sent.last().is_none_or(|last: &Sent| last.reply.is_none()) {
        if sent.len() as u64 == tries {
            return Err(wire.silent(tries));
        }
        sent.push(wire.send(&PROBE)?);
        wire.listen(&mut sent, true)?;
    }
    if sent.len() > 1 {
        wire.settle(&mut sent)?;
    }
    let number = sent.len() as u16;
    let (heard, silent): (Vec<Sent>, Vec<Sent>) =
        sent.into_iter().partition(|one| one.reply.is_some());
    let mut counts = Vec::new();
    for reply in heard.iter().filter_map(|probe| probe.reply.as_deref()) {
        match reply {
            [low, high] => counts.push(u16::from_le_bytes([*low, *high])),
            _ => return Err(another_length("a probe's reply", reply.len(), 2)),
        }
    }
    let base = base.unwrap_or(counts[0].wrapping_sub(FAR));
    counts.sort_by_key(|count| count.wrapping_sub(base));
    wire.keep(heard);
    Ok(Probes {
        sent: number,
        least: counts[0],
        most: counts[counts.len() - 1],
        silent,
    })
}

pub fn another_length(what: &str, found: usize, due: usize) -> Stop {
    stop(format!(
        "{what} has {}, where {due} are due",
        Count(found as u64, "byte")
    ))
}

pub fn stop(message: String) -> Stop {
    let object = Object::new()
        .flag("accepted", false)
        .text("message", &message);
    Stop::Refused(Refused { message, object })
}
