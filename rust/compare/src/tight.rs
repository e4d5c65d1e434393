//! Compares tighter packing: what the library's planner puts out, and both checkers on proposals of
//! every origin, good and spoilt. What is accepted is played as a show.

use crate::cues;
use crate::lent::Lent;
use crate::proposals::{Change, Proposal, CHANGES};
use crate::rng::Rng;
use crate::shows;
use crate::tally::Tally;
use crate::{hex, numbers, same_answer, same_count, same_input, wrapped, Outcome};
use head::tight::exports;
use model::cue::{Record, Records};
use model::packing::compile;
use model::store::Space;
use model::tight::{check, tighten, REJECTED};

const PLAN_ENDINGS: [u32; 6] = [0, 21, 22, 23, 24, 26];
const PLAN_SITUATIONS: [&str; 8] = [
    EMPTY,
    SHORTER,
    FEWER_PACKETS,
    EIGHT,
    ONE_WRITE,
    EXACT_ROOM,
    ROOM_FOR_PLAN,
    HUNDRED_THOUSAND,
];
const EMPTY: &str = "empty list";
const SHORTER: &str = "output shorter than the packing rule's";
const FEWER_PACKETS: &str = "fewer packets than the packing rule's";
const EIGHT: &str = "127 reads of one cell in 8 bytes";
const ONE_WRITE: &str = "several writes of one cell in one command";
const EXACT_ROOM: &str = "room just for the packing rule's output";
const ROOM_FOR_PLAN: &str = "refused 26 with room for the implementation's own output";
const HUNDRED_THOUSAND: &str = "list of 100,000 records";

const CHECK_ENDINGS: [u32; 6] = [0, 21, 22, 23, 24, REJECTED];
const CHECK_SITUATIONS: [&str; 12] = [
    ORIGINS[0],
    ORIGINS[1],
    ORIGINS[2],
    FILLED,
    TOO_LONG,
    ONE_BYTE,
    BYTES,
    OTHER_LIST,
    SWAPPED_RECORDS,
    BAD_LIST,
    BAD_BOTH,
    LONG_LIST,
];
/// The packing rule's output, the library's planner's and the implementation's.
const ORIGINS: [&str; 3] = [
    "the packing rule's output, accepted",
    "the library's plan, accepted",
    "the implementation's plan, accepted",
];
const FILLED: &str = "plan filled up to the packing rule's length, accepted";
const TOO_LONG: &str = "plan filled up past the packing rule's length, rejected";
const ONE_BYTE: &str = "one byte too many, rejected";
const BYTES: &str = "some bytes changed, lost or added, rejected";
const OTHER_LIST: &str = "another list's output, rejected";
const SWAPPED_RECORDS: &str = "the list's records in another order, rejected";
const BAD_LIST: &str = "bad list beside a good output of what precedes";
const BAD_BOTH: &str = "bad list beside bytes that are no output";
const LONG_LIST: &str = "list of 100,000 records, accepted";

/// Compares the planner and the checkers on `count` lists, and on long ones besides.
pub fn compare(seed: u64, count: u64) -> Outcome {
    let mut part = Part {
        rng: Rng::new(seed),
        plans: Tally::new("tighten", &PLAN_ENDINGS, &PLAN_SITUATIONS),
        checks: Tally::new("tight_check", &CHECK_ENDINGS, &check_situations()),
        shows: Tally::new("tight shows", &[0], &[]),
    };
    for case in 0..count {
        let list = part.list();
        let result = part.case(&list);
        result.map_err(|what| format!("list {case}: {what}\nlist of {}", hex(&list)))?;
    }
    for variant in 0..cues::LONG_LISTS {
        let list = cues::long(&mut part.rng, variant);
        let result = part.long(&list);
        result.map_err(|what| format!("long list {variant}: {what}"))?;
    }
    Ok(vec![part.plans, part.checks, part.shows])
}

fn check_situations() -> Vec<&'static str> {
    let changes = CHANGES.iter().flat_map(Change::situations);
    CHECK_SITUATIONS.into_iter().chain(changes).collect()
}

struct Part {
    rng: Rng,
    plans: Tally,
    checks: Tally,
    shows: Tally,
}

impl Part {
    /// Mostly a good list, often one that can be packed tightly.
    fn list(&mut self) -> Vec<u8> {
        let rng = &mut self.rng;
        match rng.below(10) {
            0 | 1 => {
                let count = rng.pick(&[1, 2, 3, 126, 127, 127, 128, 400]);
                cues::repeats(rng, count).bytes().to_vec()
            }
            2 => cues::any(rng),
            _ => cues::good(rng).bytes().to_vec(),
        }
    }

    fn case(&mut self, list: &[u8]) -> Result<(), String> {
        let room = self.room(list);
        self.plan(list, room)?;
        let mut rule = vec![0; 4 * list.len()];
        match compile(list, &mut rule) {
            Ok(compiled) => rule.truncate(compiled.bytes),
            Err(refusal) => return self.bad_list(list, refusal.place as usize),
        }
        let library = self.plan(list, rule.len())?.expect("a good list");
        let own = planned(list);
        let outputs = [&rule[..], &library, &own];
        for (output, origin) in outputs.iter().zip(ORIGINS) {
            if self.check(list, output)? != 0 {
                return Err(format!("not {origin}: {}", hex(output)));
            }
            self.checks.situation(origin, true);
        }
        for output in outputs {
            self.changes(list, output, rule.len())?;
            self.fill(list, output, rule.len())?;
            self.spoil_bytes(list, output)?;
        }
        self.other_lists(list, &own)
    }

    /// A room's length: enough, too small for the packing rule's output, or just enough for a plan.
    fn room(&mut self, list: &[u8]) -> usize {
        let rng = &mut self.rng;
        let needed = match compile(list, &mut []) {
            Ok(_) => 0,
            Err(refusal) if refusal.number == 26 => refusal.place as usize,
            Err(_) => 100,
        };
        match rng.below(6) {
            0 => needed.saturating_sub(1),
            1 => rng.below(needed + 1),
            2 => needed + rng.below(2_000),
            _ => match tighten(list, &mut vec![0; needed]) {
                Ok(plan) => plan.bytes,
                Err(_) => needed,
            },
        }
    }

    /// Has the library plan a list, and answers its output. Both checkers must accept that.
    fn plan(&mut self, list: &[u8], room: usize) -> Result<Option<Vec<u8>>, String> {
        let rng = &mut self.rng;
        let mut out = Lent::new("output", room, 0);
        out.change(|out| rng.fill(out));
        let rule = compile(list, &mut vec![0; room]);
        let (library, _) = out.lend(room);
        let lent = list.to_vec();
        let (number, value, packets) = exports::tighten(&lent, library);
        same_input(&lent, list)?;
        let bytes = match rule {
            Ok(rule) if number == 0 && value <= rule.bytes as u64 => value as usize,
            Ok(rule) => {
                let answer = (number, value);
                return Err(format!(
                    "planned: {answer:?}, the rule: {} bytes",
                    rule.bytes
                ));
            }
            Err(refusal) => {
                same_answer((number, value), (refusal.number, refusal.place))?;
                same_count("packets", packets, 0)?;
                0
            }
        };
        out.accept(bytes);
        out.compare(number != 0)?;
        self.plans.ending(number);
        let Ok(rule) = rule else {
            let fits = number == 26 && planned(list).len() <= room;
            self.plans.situation(ROOM_FOR_PLAN, fits);
            return Ok(None);
        };
        let output = out.model()[..bytes].to_vec();
        let checked = wrapped(&head::tight_check(list, &output), |&packets| packets);
        same_answer(checked, (0, packets)).map_err(|what| format!("own plan: {what}"))?;
        self.check(list, &output)?;
        self.repeats(list, &output)?;

        let tally = &mut self.plans;
        tally.situation(EMPTY, list.is_empty());
        tally.situation(SHORTER, bytes < rule.bytes);
        tally.situation(FEWER_PACKETS, packets < rule.packets);
        tally.situation(EXACT_ROOM, room == rule.bytes && room > 0);
        Ok(Some(output))
    }

    /// 2 to 127 accesses of one cell must come out as one command.
    fn repeats(&mut self, list: &[u8], output: &[u8]) -> Result<(), String> {
        let records = Records::new(list).map_while(Result::ok);
        let records: Vec<Record> = records.take(128).collect();
        let Some(first) = records.first() else {
            return Ok(());
        };
        let cell = |record: &Record| (record.space, record.address, record.is_write());
        let same = records.iter().all(|record| cell(record) == cell(first));
        if !same || !(2..=127).contains(&records.len()) {
            return Ok(());
        }
        let unlock = if first.space == Space::Eeprom { 6 } else { 0 };
        let expected = match first.is_write() {
            true => 8 + unlock + records.len() * first.space.element() as usize,
            false => 8,
        };
        let count = records.len();
        self.plans
            .situation(EIGHT, count == 127 && !first.is_write());
        self.plans.situation(ONE_WRITE, first.is_write());
        match output.len() == expected {
            true => Ok(()),
            false => Err(format!("{count} accesses of one cell: {}", hex(output))),
        }
    }

    /// Asks both checkers, and plays what they accept now and then. Answers their number.
    fn check(&mut self, list: &[u8], output: &[u8]) -> Result<u32, String> {
        let expected = numbers(&check(list, output), |&packets| packets);
        let lent = [list.to_vec(), output.to_vec()];
        let answer = exports::tight_check(&lent[0], &lent[1]);
        same_answer(answer, expected)
            .and_then(|()| same_input(&lent[0], list))
            .and_then(|()| same_input(&lent[1], output))
            .map_err(|what| format!("check: {what}\noutput of {}", hex(output)))?;
        self.checks.ending(expected.0);
        if expected.0 == 0 && self.rng.one_in(6) {
            shows::played(&mut self.rng, list, output)
                .map_err(|what| format!("show: {what}\noutput of {}", hex(output)))?;
            self.shows.ending(0);
        }
        Ok(expected.0)
    }

    /// Asks the checkers and counts how that ended.
    fn count_check(
        &mut self,
        list: &[u8],
        output: &[u8],
        accepted: Option<&'static str>,
        rejected: Option<&'static str>,
    ) -> Result<(), String> {
        let situation = match self.check(list, output)? {
            0 => accepted,
            _ => rejected,
        };
        if let Some(situation) = situation {
            self.checks.situation(situation, true);
        }
        Ok(())
    }

    /// Some of the changes, one by one.
    fn changes(&mut self, list: &[u8], output: &[u8], longest: usize) -> Result<(), String> {
        for _ in 0..3 {
            let change = &CHANGES[self.rng.below(CHANGES.len())];
            let Some(changed) = change.of(&mut self.rng, output) else {
                continue;
            };
            let accepted = self.check(list, &changed)? == 0;
            if let Some(situation) = change.situation(accepted, changed.len(), longest) {
                self.checks.situation(situation, true);
            }
        }
        Ok(())
    }

    /// Fills an output up to the packing rule's length, and past it.
    fn fill(&mut self, list: &[u8], output: &[u8], length: usize) -> Result<(), String> {
        let mut proposal = Proposal::of(output);
        proposal.fill(&mut self.rng, length);
        let mut filled = proposal.output();
        let full = (output.len() < length && filled.len() == length).then_some(FILLED);
        self.count_check(list, &filled, full, None)?;
        filled.push(self.rng.byte());
        self.count_check(list, &filled, None, Some(ONE_BYTE))?;
        proposal.fill(&mut self.rng, length + 2);
        self.count_check(list, &proposal.output(), None, Some(TOO_LONG))
    }

    /// Changes, takes out or puts in bytes anywhere.
    fn spoil_bytes(&mut self, list: &[u8], output: &[u8]) -> Result<(), String> {
        let rng = &mut self.rng;
        let mut bytes = output.to_vec();
        for _ in 0..rng.pick(&[1, 1, 2, 5]) {
            if bytes.is_empty() {
                break;
            }
            // Often at the marks and the first words.
            let some = bytes.len().min(12);
            let at = match rng.coin() {
                true => rng.below(some),
                false => rng.below(bytes.len()),
            };
            match rng.below(5) {
                0 => bytes.truncate(at),
                1 => drop(bytes.remove(at)),
                2 => bytes.insert(at, rng.byte()),
                3 => bytes[at] = rng.byte(),
                _ => bytes[at] ^= 1 << rng.below(8),
            }
        }
        self.count_check(list, &bytes, None, Some(BYTES))
    }

    /// The output for another list, and for the same records in another order.
    fn other_lists(&mut self, list: &[u8], output: &[u8]) -> Result<(), String> {
        let other = cues::good(&mut self.rng);
        self.count_check(other.bytes(), output, None, Some(OTHER_LIST))?;
        let mut starts = vec![0];
        for record in Records::new(list).map_while(Result::ok) {
            let bytes = if record.is_write() { 10 } else { 6 };
            starts.push(starts[starts.len() - 1] + bytes);
        }
        if starts.len() < 3 {
            return Ok(());
        }
        let first = self.rng.below(starts.len() - 2);
        let [from, middle, end] = [starts[first], starts[first + 1], starts[first + 2]];
        let swapped = [
            &list[..from],
            &list[middle..end],
            &list[from..middle],
            &list[end..],
        ];
        let swapped = swapped.concat();
        self.count_check(&swapped, output, None, Some(SWAPPED_RECORDS))
    }

    /// A bad list is refused whatever is proposed: the output for the records before the bad one,
    /// or anything.
    fn bad_list(&mut self, list: &[u8], place: usize) -> Result<(), String> {
        let good = Records::new(list).map_while(Result::ok).take(place);
        let bytes = good.map(|record| if record.is_write() { 10 } else { 6 });
        let front = bytes.sum();
        self.count_check(list, &planned(&list[..front]), None, Some(BAD_LIST))?;
        let mut bytes = [0; 20];
        self.rng.fill(&mut bytes);
        self.count_check(list, &bytes, None, Some(BAD_BOTH))
    }

    fn long(&mut self, list: &[u8]) -> Result<(), String> {
        let mut rule = vec![0; 4 * list.len()];
        let room = match compile(list, &mut rule) {
            Ok(compiled) => compiled.bytes,
            Err(_) => 100,
        };
        rule.truncate(room);
        let library = self.plan(list, room)?;
        for output in [rule, library.unwrap_or_default(), planned(list)] {
            let number = self.check(list, &output)?;
            self.checks.situation(LONG_LIST, number == 0);
            self.plans.situation(HUNDRED_THOUSAND, number == 0);
        }
        Ok(())
    }
}

/// The implementation's plan for a list, empty for a bad one.
fn planned(list: &[u8]) -> Vec<u8> {
    let mut out = vec![0; 4 * list.len()];
    let bytes = tighten(list, &mut out).map_or(0, |planned| planned.bytes);
    out.truncate(bytes);
    out
}
