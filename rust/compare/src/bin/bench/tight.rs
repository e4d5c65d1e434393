//! Tighter packing: its bytes and packets beside the packing rule's, and its time.

use super::Case;
use compare::cues::{self, List};
use compare::rng::Rng;
use model::packing::{compile, Compiled};
use model::store::Space;
use model::tight::{check, tighten};
use std::hint::black_box;

const RECORDS: u32 = 90_000;
/// A tenth of it, to see that time grows with the list.
const FEW: u32 = RECORDS / 10;

/// A list that stands for a kind of show.
struct Show {
    name: &'static str,
    what: &'static str,
    records: usize,
    list: Vec<u8>,
}

impl Show {
    fn new(name: &'static str, what: &'static str, list: List) -> Show {
        Show {
            name,
            what,
            records: list.records(),
            list: list.bytes().to_vec(),
        }
    }
}

fn shows() -> Vec<Show> {
    vec![
        Show::new("blocks", "rising blocks of 30 registers", blocks()),
        Show::new("stream", "one register written again and again", stream()),
        Show::new("turns", "reads and writes by turns", turns()),
        Show::new("setup", "EEPROM cells set and read back", setup()),
        Show::new("polling", "one status cell polled", polling()),
        random("random", RECORDS),
    ]
}

/// Blocks of neighbouring registers, each block elsewhere.
fn blocks() -> List {
    made(|list, k| list.write(Space::Registers, 4 * (k + 1_000 * (k / 30)) % 65_536, k))
}

fn stream() -> List {
    made(|list, k| list.write(Space::Registers, 0x1000, k))
}

/// A register set and read back, then the next.
fn turns() -> List {
    made(|list, k| {
        let address = 4 * (k / 2) % 65_536;
        match k % 2 {
            0 => list.write(Space::Registers, address, k),
            _ => list.read(Space::Registers, address),
        }
    })
}

/// Eight neighbouring cells written and then read back.
fn setup() -> List {
    made(|list, k| {
        let address = 0x20 + 2 * (k % 8) + 16 * (k / 16 % 6);
        match k / 8 % 2 {
            0 => list.write(Space::Eeprom, address, k & 0xFFFF),
            _ => list.read(Space::Eeprom, address),
        }
    })
}

fn polling() -> List {
    made(|list, _| list.read(Space::Status, 0x08))
}

fn random(name: &'static str, records: u32) -> Show {
    let mut rng = Rng::new(1);
    let mut list = List::default();
    while list.records() < records as usize {
        let most = (records as usize - list.records()).min(200);
        cues::stretch(&mut rng, &mut list, most);
    }
    Show::new(name, "stretches of all kinds at random", list)
}

fn made(mut add: impl FnMut(&mut List, u32)) -> List {
    let mut list = List::default();
    (0..RECORDS).for_each(|k| add(&mut list, k));
    list
}

/// Prints bytes and packets of the packing rule's output and of both plans.
pub fn print_sizes() {
    println!("\nBytes and packets for lists of {RECORDS} records.\n");
    println!(
        "| list | what | rule | packets | library | packets | Rust | packets | library/rule |"
    );
    println!("|---|---|---:|---:|---:|---:|---:|---:|---:|");
    for Show {
        name, what, list, ..
    } in shows()
    {
        let mut out = vec![0; 2 * list.len()];
        let rule = compile(&list, &mut out).expect("a good list");
        let library = head::tighten(&list, &mut out).expect("a good list");
        let model = tighten(&list, &mut out).expect("a good list");
        println!(
            "| {name} | {what} | {} | {} | {} | {} | {} | {} | {:.2} |",
            rule.bytes,
            rule.packets,
            library.bytes,
            library.packets,
            model.bytes,
            model.packets,
            library.bytes as f64 / rule.bytes as f64
        );
    }
}

pub fn cases() -> Vec<Case> {
    let mut shows = shows();
    shows.push(random("randomfew", FEW));
    let plans = shows.iter().map(planned);
    plans.chain(shows.iter().map(checked)).collect()
}

fn planned(show: &Show) -> Case {
    let list = show.list.clone();
    let mut out = vec![0; 2 * list.len()];
    let plan = tighten(&list, &mut out).expect("a good list");
    let (other, mut other_out) = (list.clone(), out.clone());
    Case {
        name: format!("tighten{}", show.name),
        what: format!("list of {} planned: {}", show.records, show.what),
        bytes: plan.bytes,
        library: Box::new(move || {
            let answer = head::tighten(black_box(&list), &mut out);
            assert!(answer.is_ok());
        }),
        model: Box::new(move || {
            let answer = tighten(black_box(&other), &mut other_out);
            assert_eq!(answer, Ok(plan));
        }),
    }
}

/// The implementation's plan checked, the same on both sides.
fn checked(show: &Show) -> Case {
    let list = show.list.clone();
    let mut out = vec![0; 2 * list.len()];
    let Compiled { bytes, packets } = tighten(&list, &mut out).expect("a good list");
    out.truncate(bytes);
    let (other, other_out) = (list.clone(), out.clone());
    Case {
        name: format!("check{}", show.name),
        what: format!("list of {}, plan checked: {}", show.records, show.what),
        bytes,
        library: Box::new(move || {
            let answer = head::tight_check(black_box(&list), &out);
            assert_eq!(answer, Ok(packets));
        }),
        model: Box::new(move || {
            let answer = check(black_box(&other), &other_out);
            assert_eq!(answer, Ok(packets));
        }),
    }
}
