//! Sends packets to a card one after the other, and knows of each whether the card took it.
//!
//! Beside the card runs a copy of it, by the library's rules. It says how long a reply must be, and which number the card's packet
//! count must have: the count tells whether a packet without a reply was taken.

use crate::again::may_be_sent_again;
use crate::ending::Stop;
use crate::frames::framed;
use crate::output::Output;
use crate::probes::{self, another_length, stop, Probes, PROBE};
use crate::shown::Count;
use crate::state::State;
use crate::wire::{Sent, Wire};
use std::mem;

/// Where the packet count stands in the store.
const COUNT: usize = 65_664 + 0x0A;

pub struct Player {
    pub wire: Wire,
    /// The copy of the card.
    pub copy: State,
    /// How often a read is sent at most.
    pub tries: u64,
    pub recording: Option<Output>,
    pub told: Told,
    /// Reads that were sent again and not answered; if one is taken late, its port tells it.
    late: Vec<Sent>,
}

/// What there is to tell at the end.
#[derive(Default)]
pub struct Told {
    /// Those that were sent, the one at which it stopped too.
    pub packets: u64,
    pub replies: u64,
    pub reply_bytes: u64,
    pub again: u64,
    pub probes: u64,
}

/// Whether the card took a packet, by its packet count.
enum Taken {
    Yes,
    No,
    Unknown,
    /// The count is neither.
    Other,
}

impl Player {
    pub fn new(wire: Wire, copy: State, tries: u64, recording: Option<Output>) -> Player {
        Player {
            wire,
            copy,
            tries,
            recording,
            told: Told::default(),
            late: Vec::new(),
        }
    }

    /// The packet count that the card must have now.
    fn count(&self) -> u16 {
        u16::from_le_bytes([self.copy.store[COUNT], self.copy.store[COUNT + 1]])
    }

    fn record(&mut self, packet: &[u8], reply: &[u8]) -> Result<(), Stop> {
        match &mut self.recording {
            Some(recording) => recording.put(&[packet, reply].map(framed).concat()),
            None => Ok(()),
        }
    }

    /// Asks for the count before anything is sent. Where the card's store is not known, the answer says it.
    pub fn begin(&mut self, known: bool) -> Result<(), Stop> {
        let probes = self.probes(known.then(|| self.count()))?;
        if !known {
            self.copy.store[COUNT..COUNT + 2].copy_from_slice(&probes.least.to_le_bytes());
        }
        if probes.most.wrapping_sub(self.count()) >= probes.sent {
            return Err(stop(format!(
                "the card's packet count is {} and the store's {}: this is not the card's store",
                probes.least,
                self.count()
            )));
        }
        self.counted(probes)
    }

    /// Sends a packet that the copy accepts.
    pub fn play(&mut self, packet: &[u8]) -> Result<(), Stop> {
        self.told.packets += 1;
        let before = self.count();
        let length = self.copy.run(packet).map_or(0, |ran| ran.length);
        match length {
            0 => self.play_silent(packet, before),
            _ => self.play_answered(packet, before, length),
        }
    }

    /// A packet without a reply: the count says whether it was taken.
    fn play_silent(&mut self, packet: &[u8], before: u16) -> Result<(), Stop> {
        let sent = self.wire.send(packet)?;
        self.record(packet, &[])?;
        let probes = self.probes(Some(before))?;
        self.wire.keep(vec![sent]);
        self.nothing_late()?;
        match self.taken(before, probes.least, probes.unheard()) {
            Taken::Yes => self.counted(probes),
            Taken::No => Err(self.told_at_stop(
                &probes,
                "the card did not take it: it refused it, or it was lost",
            )),
            Taken::Unknown => Err(self.told_at_stop(
                &probes,
                "a probe was lost too: whether the card took it can't be told",
            )),
            Taken::Other => Err(self.other_count(&probes)),
        }
    }

    /// What a probe's count says of a packet, the count `before` it and the copy's after it being known. So many others were not
    /// answered, and each may have been taken before that probe.
    fn taken(&self, before: u16, value: u16, unheard: u16) -> Taken {
        let may_be = |count: u16| value.wrapping_sub(count) <= unheard;
        match (may_be(self.count()), may_be(before)) {
            (true, false) => Taken::Yes,
            (false, true) => Taken::No,
            (true, true) => Taken::Unknown,
            (false, false) => Taken::Other,
        }
    }

    /// A packet with a reply; one of reads that all give their address is sent again where none comes.
    fn play_answered(&mut self, packet: &[u8], before: u16, length: usize) -> Result<(), Stop> {
        let tries = if may_be_sent_again(packet) {
            self.tries
        } else {
            1
        };
        let mut sent = Vec::new();
        while (sent.len() as u64) < tries && !heard(&sent) {
            sent.push(self.wire.send(packet)?);
            self.wire.listen(&mut sent, false)?;
        }
        self.told.again += sent.len() as u64 - 1;
        if sent.len() > 1 || !heard(&sent) {
            self.wire.settle(&mut sent)?;
        }
        let Some(reply) = sent.iter().find_map(|one| one.reply.clone()) else {
            return self.unanswered(packet, before, sent.len());
        };
        self.record(packet, &reply)?;
        if let Some(other) = sent
            .iter()
            .filter_map(|one| one.reply.as_ref())
            .find(|reply| reply.len() != length)
        {
            return Err(another_length("its reply", other.len(), length));
        }
        self.told.replies += 1;
        self.told.reply_bytes += length as u64;
        match sent.len() {
            1 => {
                self.wire.keep(sent);
                Ok(())
            }
            _ => self.count_copies(packet, &reply, sent),
        }
    }

    /// A packet was sent several times. The count says how often it was taken.
    fn count_copies(&mut self, packet: &[u8], reply: &[u8], sent: Vec<Sent>) -> Result<(), Stop> {
        let probes = self.probes(Some(self.count()))?;
        let more = probes
            .least
            .wrapping_sub(self.count())
            .min(sent.len() as u16 - 1);
        for _ in 0..more {
            // What was read by address reads the same again.
            self.record(packet, reply)?;
            let _ = self.copy.run(packet);
        }
        self.nothing_late()?;
        let all = usize::from(more) + 1 == sent.len();
        let (done, silent): (Vec<Sent>, Vec<Sent>) =
            sent.into_iter().partition(|one| all || one.reply.is_some());
        self.wire.keep(done);
        self.watch(silent)?;
        self.counted(probes)
    }

    /// No reply came to any of the packets sent.
    fn unanswered(&mut self, packet: &[u8], before: u16, sent: usize) -> Result<(), Stop> {
        self.record(packet, &[])?;
        let probes = self.probes(Some(before))?;
        self.record(&PROBE, &probes.most.to_le_bytes())?;
        let times = Count(sent as u64, "time");
        let unheard = sent as u16 - 1 + probes.unheard();
        Err(stop(match self.taken(before, probes.least, unheard) {
            Taken::No => {
                format!("sent {times} and not answered: the card refused it, or it was lost")
            }
            Taken::Yes => {
                format!("sent {times} and not answered, but the card took it: its reply was lost")
            }
            _ => format!("sent {times} and not answered; whether the card took it can't be told"),
        }))
    }

    fn probes(&mut self, base: Option<u16>) -> Result<Probes, Stop> {
        probes::send(&mut self.wire, self.tries, base)
    }

    /// The probes up to the last count heard are recorded, and done by the copy. Those that are not among them may come late.
    fn counted(&mut self, probes: Probes) -> Result<(), Stop> {
        let before_last = probes.most.wrapping_sub(self.count());
        if before_last >= probes.sent {
            return Err(self.other_count(&probes));
        }
        for _ in 0..=before_last {
            let count = self.count();
            self.record(&PROBE, &count.to_le_bytes())?;
            let _ = self.copy.run(&PROBE);
            self.told.probes += 1;
        }
        match before_last + 1 < probes.sent {
            true => self.watch(probes.silent),
            false => {
                self.wire.keep(probes.silent);
                Ok(())
            }
        }
    }

    /// From now on it is noticed if one of these is taken after all.
    fn watch(&mut self, silent: Vec<Sent>) -> Result<(), Stop> {
        self.late = self.wire.watched(mem::take(&mut self.late), silent)?;
        Ok(())
    }

    /// Whether a packet that was taken for lost was taken late: then the order is not known.
    fn nothing_late(&mut self) -> Result<(), Stop> {
        self.wire.look(&mut self.late)?;
        match heard(&self.late) {
            true => Err(stop(
                "a packet sent earlier came late, so the order is not known".into(),
            )),
            false => Ok(()),
        }
    }

    fn told_at_stop(&mut self, probes: &Probes, what: &str) -> Stop {
        match self.record(&PROBE, &probes.most.to_le_bytes()) {
            Ok(()) => stop(what.into()),
            Err(lost) => lost,
        }
    }

    fn other_count(&mut self, probes: &Probes) -> Stop {
        let what = format!(
            "the card's packet count is {}, and {} was due: a packet came twice, somebody else \
             sends to the card, or it was started anew",
            probes.least,
            self.count()
        );
        self.told_at_stop(probes, &what)
    }

    /// At the end: each packet was taken, and none twice.
    pub fn end(&mut self) -> Result<(), Stop> {
        let probes = self.probes(Some(self.count()))?;
        self.nothing_late()?;
        self.counted(probes)
    }
}

fn heard(sent: &[Sent]) -> bool {
    sent.iter().any(|one| one.reply.is_some())
}
