//! Measures the library beside the independent implementation, in one process and by turns.
//!
//! `bench` measures all cases, `bench NAME...` only some, `bench --names` lists them. `bench --sizes`
//! shows how many bytes and packets tighter packing saves.
//! `bench --count NAME N` makes the library's call N times and nothing else, for an instruction
//! counter.

use model::area::{Area, POINTERS};
use model::packet;
use model::spi;
use model::store::{Space, STORE_BYTES};
use model::words::Fields;
use model::PACKET_BYTES;
use std::hint::black_box;
use std::process::ExitCode;
use std::time::{Duration, Instant};

#[path = "bench/capture.rs"]
mod capture;
#[path = "bench/guarded.rs"]
mod guarded;
#[path = "bench/parts.rs"]
mod parts;
#[path = "bench/text.rs"]
mod text;
#[path = "bench/tight.rs"]
mod tight;

/// How often each side is timed. The lowest time counts, since other work on the machine only
/// adds.
const ROUNDS: usize = 40;
/// How long one timing of one side lasts, about.
const ROUND: Duration = Duration::from_millis(2);

/// How many commands the packets have that show how time grows with them.
const COMMANDS: [usize; 4] = [1, 10, 100, 368];

/// One call to be measured, on both sides.
struct Case {
    name: String,
    what: String,
    /// The bytes that the call has to move.
    bytes: usize,
    library: Box<dyn FnMut()>,
    model: Box<dyn FnMut()>,
}

/// Nanoseconds for one call.
struct Times {
    library: f64,
    model: f64,
    memcpy: f64,
}

fn main() -> ExitCode {
    let words: Vec<String> = std::env::args().skip(1).collect();
    let words: Vec<&str> = words.iter().map(String::as_str).collect();
    let result = match words[..] {
        ["--names"] => {
            all_cases()
                .iter()
                .for_each(|case| println!("{}", case.name));
            Ok(())
        }
        ["--count", name, times] => count(name, times),
        ["--sizes"] => {
            tight::print_sizes();
            Ok(())
        }
        [] => {
            measure_all(all_cases());
            tight::print_sizes();
            Ok(())
        }
        _ => choose(all_cases(), &words).map(measure_all),
    };
    match result {
        Ok(()) => ExitCode::SUCCESS,
        Err(problem) => {
            eprintln!("bench: {problem}");
            ExitCode::from(2)
        }
    }
}

fn all_cases() -> Vec<Case> {
    let mut cases = packet_cases();
    cases.extend(guarded::cases());
    cases.extend(burst_cases());
    cases.extend(lists::cases());
    cases.extend(parts::cases());
    cases.extend(text::cases());
    cases.extend(tight::cases());
    cases.extend(capture::cases());
    cases
}

/// Makes the library's call of one case some times.
fn count(name: &str, times: &str) -> Result<(), String> {
    let times: u64 = times
        .parse()
        .map_err(|_| format!("'{times}' is no count"))?;
    let named = |cases: Vec<Case>| cases.into_iter().find(|case| case.name == name);
    // The lists take long to make, so they are made last.
    let case = named(packet_cases())
        .or_else(|| named(guarded::cases()))
        .or_else(|| named(burst_cases()))
        .or_else(|| named(lists::cases()))
        .or_else(|| named(parts::cases()))
        .or_else(|| named(capture::cases()))
        .or_else(|| named(text::cases()))
        .or_else(|| named(tight::cases()));
    let mut case = case.ok_or_else(|| unknown(name))?;
    for _ in 0..times {
        (case.library)();
    }
    Ok(())
}

fn choose(cases: Vec<Case>, names: &[&str]) -> Result<Vec<Case>, String> {
    let known = |name: &&&str| cases.iter().any(|case| case.name == **name);
    if let Some(name) = names.iter().find(|name| !known(name)) {
        return Err(unknown(name));
    }
    let chosen = |case: &Case| names.contains(&case.name.as_str());
    Ok(cases.into_iter().filter(chosen).collect())
}

fn unknown(name: &str) -> String {
    format!("no case is named '{name}'; bench --names lists them")
}

fn measure_all(mut cases: Vec<Case>) {
    println!("Nanoseconds for one call, the lowest of {ROUNDS} rounds by turns.\n");
    println!("| case | call | library | Rust | library/Rust | bytes | memcpy |");
    println!("|---|---|---:|---:|---:|---:|---:|");
    let mut measured = Vec::new();
    for case in &mut cases {
        let times = measure(case);
        println!(
            "| {} | {} | {:.0} | {:.0} | {:.2} | {} | {:.1} |",
            case.name,
            case.what,
            times.library,
            times.model,
            times.library / times.model,
            case.bytes,
            times.memcpy
        );
        measured.push((case.name.clone(), times));
    }
    print_growth(&measured, ("packet", "command"), &["small"], &COMMANDS);
    lists::print_growth(&measured);
}

fn measure(case: &mut Case) -> Times {
    let mut copy = copy(case.bytes);
    let calls = [
        calls_in_a_round(&mut case.library),
        calls_in_a_round(&mut case.model),
        calls_in_a_round(&mut copy),
    ];
    let mut lowest = [f64::INFINITY; 3];
    for _ in 0..ROUNDS {
        let sides: [&mut dyn FnMut(); 3] = [&mut case.library, &mut case.model, &mut copy];
        for (side, (calls, lowest)) in sides.into_iter().zip(calls.iter().zip(&mut lowest)) {
            *lowest = lowest.min(time(side, *calls));
        }
    }
    let [library, model, memcpy] = lowest;
    Times {
        library,
        model,
        memcpy,
    }
}

/// Prints what one of many costs in calls of different sizes, if all of them were measured.
fn print_growth(
    measured: &[(String, Times)],
    (whole, one): (&str, &str),
    shapes: &[&str],
    sizes: &[usize],
) {
    let find = |shape: &str, size: usize| {
        let name = format!("{shape}{size}");
        let found = measured.iter().find(|(known, _)| *known == name);
        found.map(|(_, times)| (shape.to_string(), size, times))
    };
    let all = shapes
        .iter()
        .flat_map(|&shape| sizes.iter().map(move |&size| (shape, size)))
        .map(|(shape, size)| find(shape, size))
        .collect::<Option<Vec<_>>>();
    let Some(rows) = all else { return };
    println!("\nNanoseconds for one {one}, as {whole}s grow.\n");
    println!("| {whole} | {one}s | library | Rust |");
    println!("|---|---:|---:|---:|");
    for (shape, size, times) in rows {
        let each = |time: f64| time / size as f64;
        let (library, model) = (each(times.library), each(times.model));
        println!("| {shape} | {size} | {library:.2} | {model:.2} |");
    }
}

fn calls_in_a_round(call: &mut dyn FnMut()) -> u32 {
    let mut calls = 1;
    while time(call, calls) * f64::from(calls) < ROUND.as_nanos() as f64 {
        calls *= 2;
    }
    calls
}

/// Nanoseconds for one of `calls` calls.
fn time(call: &mut dyn FnMut(), calls: u32) -> f64 {
    let start = Instant::now();
    for _ in 0..calls {
        call();
    }
    start.elapsed().as_nanos() as f64 / f64::from(calls)
}

/// Copies that many bytes.
fn copy(bytes: usize) -> impl FnMut() {
    let from = vec![1; bytes];
    let mut to = vec![0; bytes];
    move || {
        to.copy_from_slice(black_box(&from));
        black_box(&mut to);
    }
}

// Packets.

fn packet_cases() -> Vec<Case> {
    let mut cases = Vec::new();
    let mut add = |name: &str, what: &str, bytes: usize, packet: Vec<u8>, ending: u32| {
        cases.push(packet_case(name, what, bytes, packet, ending));
    };
    let reads = |space: Space, first, increment, counts: &[usize]| {
        commands(false, space.into(), first, increment, counts)
    };
    let writes = |space: Space, first, increment, counts: &[usize]| {
        commands(true, space.into(), first, increment, counts)
    };

    let packet = reads(Space::Registers, 0, true, &[127, 127, 114]);
    add("reads368", "368 reads of 4 bytes", 1_472, packet, 0);
    let packet = writes(Space::Registers, 0, true, &[127, 127, 111]);
    add("writes365", "365 writes of 4 bytes", 1_460, packet, 0);
    let packet = reads(Space::Registers, 0, false, &[127, 127, 114]);
    add(
        "reads368still",
        "the reads without increment",
        1_472,
        packet,
        0,
    );
    let packet = writes(Space::Registers, 0, false, &[127, 127, 111]);
    add(
        "writes365still",
        "the writes without increment",
        1_460,
        packet,
        0,
    );

    let counts = [vec![64; 11], vec![32]].concat();
    let packet = reads(Space::Eeprom, 0, true, &counts);
    add("reads736of2", "736 reads of 2 bytes", 1_472, packet, 0);
    let unlock = vec![0x01, 0xD9, 0x1A, 0x00, 0x02, 0x5A];
    let counts = [vec![48; 14], vec![31]].concat();
    let packet = [unlock, writes(Space::Eeprom, 0x20, true, &counts)].concat();
    add(
        "writes703of2",
        "unlock and 703 writes of 2 bytes",
        1_406,
        packet,
        0,
    );
    let counts = [vec![127; 5], vec![101]].concat();
    let packet = reads(Space::Status, 0, false, &counts);
    add(
        "reads736of2still",
        "the 2-byte reads without increment",
        1_472,
        packet,
        0,
    );
    let counts = [vec![127; 5], vec![89]].concat();
    let packet = writes(Space::Status, 0, false, &counts);
    add(
        "writes724of2still",
        "724 2-byte writes without increment",
        1_448,
        packet,
        0,
    );

    let packet = commands(false, Area::info(Space::Registers), 0, true, &[8; 92]);
    add("info92", "92 info areas read whole", 1_472, packet, 0);

    for commands in COMMANDS {
        let packet = reads(Space::Registers, 0, true, &vec![1; commands]);
        let what = format!("{commands} commands of one 4-byte read");
        add(&format!("small{commands}"), &what, 4 * commands, packet, 0);
    }
    let packet = writes(Space::Registers, 0, true, &[1; 184]);
    add(
        "small184",
        "184 commands of one 4-byte write",
        736,
        packet,
        0,
    );

    let mut packet = reads(Space::Registers, 0, true, &[127, 127, 114]);
    packet[8] += 1;
    add(
        "refused3",
        "refused with 12 at the last of 3 commands",
        12,
        packet,
        12,
    );
    let mut packet = writes(Space::Registers, 0, true, &[1; 184]);
    packet.pop();
    add(
        "refused184",
        "refused with 11 at the last of 184 commands",
        1_471,
        packet,
        11,
    );
    cases
}

/// Commands with an address each, the elements neighbours unless there are too many for that.
fn commands(write: bool, area: Area, first: u16, increment: bool, counts: &[usize]) -> Vec<u8> {
    let mut packet = Vec::new();
    let mut address = first;
    for &count in counts {
        let fields = Fields {
            write,
            address: true,
            info: area.info,
            space: area.space.number(),
            size: area.size(),
            increment,
            count: count as u8,
        };
        let word = fields.to_word().expect("fields in range");
        packet.extend(word.to_le_bytes());
        packet.extend(address.to_le_bytes());
        let bytes = count * area.element() as usize;
        if write {
            packet.extend((0..bytes).map(|k| k as u8));
        }
        if area == Space::Registers.into() {
            address += bytes as u16;
        }
    }
    packet
}

fn packet_case(name: &str, what: &str, bytes: usize, packet: Vec<u8>, ending: u32) -> Case {
    let other = packet.clone();
    let (mut store, mut pointers, mut reply) = card();
    let library = move || {
        let answer = head::run(black_box(&packet), &mut store, &mut pointers, &mut reply);
        assert_eq!(answer.map_or_else(|refusal| refusal.number, |_| 0), ending);
    };
    let (mut store, mut pointers, mut reply) = card();
    let model = move || {
        let answer = packet::run(black_box(&other), &mut store, &mut pointers, &mut reply);
        assert_eq!(answer.map_or_else(|refusal| refusal.number, |_| 0), ending);
    };
    Case {
        name: name.to_string(),
        what: what.to_string(),
        bytes,
        library: Box::new(library),
        model: Box::new(model),
    }
}

fn card() -> (Vec<u8>, [u32; POINTERS], Vec<u8>) {
    let store = (0..STORE_BYTES).map(|at| at as u8).collect();
    (store, [0; POINTERS], vec![0; PACKET_BYTES])
}

// Bursts.

fn burst_cases() -> Vec<Case> {
    vec![
        burst_case("burstread", "burst that reads 127 words", 0x1000_AFF0),
        burst_case("burstwrite", "burst that writes 127 words", 0x1000_BFF0),
        burst_case("burstreadstill", "the reads without increment", 0x1000_A7F0),
        burst_case(
            "burstwritestill",
            "the writes without increment",
            0x1000_B7F0,
        ),
    ]
}

fn burst_case(name: &str, what: &str, header: u32) -> Case {
    let words: Vec<u32> = std::iter::once(header).chain(1..128).collect();
    let other = words.clone();
    let (mut store, _, _) = card();
    let mut answer = [0; 128];
    let library = move || {
        let result = head::spi(black_box(&words), &mut store, &mut answer);
        assert!(result.is_ok());
        black_box(&mut answer);
    };
    let (mut store, _, _) = card();
    let mut answer = [0; 128];
    let model = move || {
        let result = spi::burst(black_box(&other), &mut store, &mut answer);
        assert!(result.is_ok());
        black_box(&mut answer);
    };
    Case {
        name: name.to_string(),
        what: what.to_string(),
        bytes: 127 * 4,
        library: Box::new(library),
        model: Box::new(model),
    }
}

// Lists.

mod lists {
    use super::{black_box, Case, Space, Times};
    use compare::cues::List;
    use model::packing;

    const SIZES: [usize; 3] = [1_000, 10_000, 100_000];
    const SHAPES: [&str; 2] = ["joined", "single"];

    pub fn cases() -> Vec<Case> {
        let joined = SIZES.map(|records| case("joined", "rising writes", joined(records)));
        let single =
            SIZES.map(|records| case("single", "reads and writes by turns", single(records)));
        joined.into_iter().chain(single).collect()
    }

    /// Writes to neighbouring registers, which all join.
    fn joined(records: usize) -> List {
        let mut list = List::default();
        for k in 0..records as u32 {
            list.write(Space::Registers, 4 * k % 65_536, k);
        }
        list
    }

    /// Reads and writes by turns, each a command of its own.
    fn single(records: usize) -> List {
        let mut list = List::default();
        for k in 0..records as u32 {
            match k % 2 {
                0 => list.read(Space::Registers, 4 * k % 65_536),
                _ => list.write(Space::Registers, 4 * k % 65_536, k),
            }
        }
        list
    }

    fn case(shape: &str, what: &str, list: List) -> Case {
        let records = list.records();
        let mut out = vec![0; 4 * list.bytes().len()];
        let compiled = packing::compile(list.bytes(), &mut out).expect("a good list");
        let mut other_out = out.clone();
        let list = list.bytes().to_vec();
        let other = list.clone();
        let library = move || {
            let answer = head::compile(black_box(&list), &mut out);
            assert_eq!(
                answer.map(|compiled| compiled.packets),
                Ok(compiled.packets)
            );
        };
        let model = move || {
            let answer = packing::compile(black_box(&other), &mut other_out);
            assert_eq!(answer, Ok(compiled));
        };
        Case {
            name: format!("{shape}{records}"),
            what: format!("list of {records}: {what}"),
            bytes: compiled.bytes,
            library: Box::new(library),
            model: Box::new(model),
        }
    }

    /// Prints what a record costs in lists of different lengths.
    pub fn print_growth(measured: &[(String, Times)]) {
        super::print_growth(measured, ("list", "record"), &SHAPES, &SIZES);
    }
}
