//! Runs the comparison. Exits with 1 where anything differs or an ending was never met, and with
//! 2 where it was called wrongly.

use compare::tally::{print_endings, Tally};
use compare::Outcome;
use std::process::ExitCode;
use std::time::Instant;

const USAGE: &str = "usage: compare [PART]... [--PART N]... [--seed N] [--names]
Without a part named, all are run; --PART N makes N cases of a part; --names lists the parts.";

/// A part of the comparison: its name, how many cases it makes unless told otherwise (0 where that
/// is not to be chosen), and what runs it, given the seed and that number.
struct Part(&'static str, u64, fn(u64, u64) -> Outcome);

const PARTS: &[Part] = &[
    Part("words", 0, |seed, _| compare::words::compare(seed)),
    Part("headers", 50_000, compare::headers::compare),
    Part("packets", 500_000, compare::packets::compare),
    Part("packet_texts", 50_000, compare::packet_texts::compare),
    Part("bursts", 200_000, compare::bursts::compare),
    Part("lists", 30_000, compare::lists::compare),
    Part("shows", 8_000, compare::shows::compare),
    Part("independent", 5_000, compare::independent::compare),
    Part("salvage", 20_000, compare::salvage::compare),
    Part("list_why", 20_000, compare::list_why::compare),
    Part("sentences", 2_000, compare::sentences::compare),
    Part("sserial", 60_000, compare::sserial::compare),
    Part("panel", 400_000, compare::panel::compare),
    Part("parts", 6_000, compare::parts::compare),
    Part("recordings", 8_000, compare::recordings::compare),
    Part("tight", 6_000, compare::tight::compare),
    Part("interlock", 80_000, compare::interlock::compare),
    Part("captures", 20_000, compare::captures::compare),
    Part("texts", 20_000, compare::texts::compare),
];

struct Options {
    parts: Vec<&'static str>,
    seed: u64,
    /// How many cases each of [`PARTS`] makes.
    counts: Vec<u64>,
}

fn main() -> ExitCode {
    if std::env::args().skip(1).eq(["--names"]) {
        PARTS.iter().for_each(|part| println!("{}", part.0));
        return ExitCode::SUCCESS;
    }
    let options = match options(std::env::args().skip(1)) {
        Ok(options) => options,
        Err(problem) => {
            eprintln!("compare: {problem}\n{USAGE}");
            return ExitCode::from(2);
        }
    };
    println!("compare: seed {}", options.seed);
    match run_all(&options) {
        Ok(tallies) => verdict(&tallies),
        Err(difference) => {
            eprintln!("\ncompare: FAILED (seed {}): {difference}", options.seed);
            ExitCode::FAILURE
        }
    }
}

fn options(mut arguments: impl Iterator<Item = String>) -> Result<Options, String> {
    let mut options = Options {
        parts: Vec::new(),
        seed: 1,
        counts: PARTS.iter().map(|part| part.1).collect(),
    };
    while let Some(argument) = arguments.next() {
        let unknown = || format!("no part or option '{argument}' here");
        let number = match argument.strip_prefix("--") {
            None => {
                let part = place(&argument).ok_or_else(unknown)?;
                options.parts.push(PARTS[part].0);
                continue;
            }
            Some("seed") => &mut options.seed,
            Some(name) => {
                let counted = place(name).filter(|&part| PARTS[part].1 > 0);
                &mut options.counts[counted.ok_or_else(unknown)?]
            }
        };
        let value = arguments.next().and_then(|value| value.parse().ok());
        *number = value.ok_or_else(|| format!("{argument} needs a number"))?;
    }
    if options.parts.is_empty() {
        options.parts = PARTS.iter().map(|part| part.0).collect();
    }
    Ok(options)
}

/// A part's place in [`PARTS`].
fn place(name: &str) -> Option<usize> {
    PARTS.iter().position(|part| part.0 == name)
}

fn run_all(options: &Options) -> Outcome {
    let mut tallies = Vec::new();
    for part in &options.parts {
        let start = Instant::now();
        let found = run(part, options).map_err(|difference| format!("{part}: {difference}"))?;
        let calls: u64 = found.iter().map(Tally::own_calls).sum();
        let seconds = start.elapsed().as_secs_f64();
        println!("{part}: {calls} equal, {seconds:.1} s");
        tallies.extend(found);
    }
    Ok(tallies)
}

fn run(part: &str, options: &Options) -> Outcome {
    let part = place(part).expect("a part that was named");
    PARTS[part].2(options.seed, options.counts[part])
}

fn verdict(tallies: &[Tally]) -> ExitCode {
    print_endings(tallies);
    for tally in tallies {
        tally.print_situations();
    }
    let never_met: Vec<String> = tallies.iter().flat_map(Tally::never_met).collect();
    if never_met.is_empty() {
        println!("\ncompare: all equal, every ending met");
        return ExitCode::SUCCESS;
    }
    eprintln!("\ncompare: FAILED: never met:");
    for name in never_met {
        eprintln!("  {name}");
    }
    ExitCode::FAILURE
}
