//! Long sequences of packets and bursts with one guard, after which its bytes must be what they were.

use super::Part;
use crate::tally::Tally;
use crate::{bursts, drafts, guards};
use model::guard::{MOST_RANGES, PROTECTED};
use model::store::STORE_BYTES;

/// The most calls in a sequence.
const MOST_CALLS: usize = 200;

const SITUATIONS: [&str; 5] = [REFUSED, CHANGED, BESIDE, SEVERAL, ALL_RANGES];
const REFUSED: &str = "sequence with packets or bursts refused with 71";
const CHANGED: &str = "sequence that changed a hundred bytes or more";
const BESIDE: &str = "sequence that changed a byte right beside a protected one";
const SEVERAL: &str = "sequence of a hundred calls or more";
const ALL_RANGES: &str = "sequence with 64 ranges";

pub fn tally() -> Tally {
    Tally::new("sequences", &[0], &SITUATIONS)
}

impl Part {
    /// Packets and bursts of any kind, from any store and pointers. Pointers and rooms change in
    /// between; the store's bytes only by the calls.
    pub(super) fn sequence(&mut self) -> Result<(), String> {
        let rng = &mut self.rng;
        self.card.store.change(|store| rng.fill(store));
        let guard = guards::sound(rng);
        let before = self.card.store.before()[..STORE_BYTES].to_vec();
        let protected_before = self.refused();
        let calls = self.rng.between(1, MOST_CALLS);
        for call in 0..calls {
            self.call(&guard)
                .map_err(|what| format!("call {call} of a sequence: {what}"))?;
        }
        let (library, _) = self.card.store.lend(STORE_BYTES);
        for at in guards::ranges(&guard).flatten() {
            if library[at] != before[at] {
                return Err(format!(
                    "after {calls} calls the protected byte at {at} is {:02X}, and was {:02X}\n\
                     guard {guard:?}",
                    library[at], before[at]
                ));
            }
        }
        let changed = |at: &usize| library[*at] != before[*at];
        let ends = || guards::ranges(&guard).filter(|range| !range.is_empty());
        let mut beside = ends().flat_map(|range| [range.start.wrapping_sub(1), range.end]);
        let beside = beside.any(|at| at < STORE_BYTES && changed(&at));
        let changes = (0..STORE_BYTES).filter(changed).count();
        let refused = self.refused() > protected_before;
        let tally = &mut self.sequences;
        tally.ending(0);
        tally.situation(REFUSED, refused);
        tally.situation(CHANGED, changes >= 100);
        tally.situation(BESIDE, beside);
        tally.situation(SEVERAL, calls >= 100);
        tally.situation(ALL_RANGES, guard.len() == 2 * MOST_RANGES);
        Ok(())
    }

    fn call(&mut self, guard: &[u32]) -> Result<(), String> {
        let rng = &mut self.rng;
        if rng.one_in(3) {
            let words = bursts::any(rng);
            return self.burst_with(&words, guard);
        }
        self.card.change_pointers(rng);
        let packet = drafts::packet(rng, self.card.card_pointers());
        self.packet_with(&packet, guard)
    }

    /// How many packets and bursts were refused with 71 so far.
    fn refused(&self) -> u64 {
        self.runs.met(PROTECTED) + self.bursts.met(PROTECTED)
    }
}
