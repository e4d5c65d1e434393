//! The maker's own tool on the card: `rust/mesaflash` runs this, since the tool is not everywhere.

use crate::common::{file, run, Card};
use std::fs;
use std::process::{self, Command};

const EEPROM: usize = 65_536;
const STATUS: usize = 65_664;

/// An address on loopback of this process alone: the tool only knows one port.
fn address() -> String {
    let [.., high, low] = process::id().to_be_bytes();
    format!("127.92.{high}.{}", low.clamp(1, 254))
}

/// How often the tool is called where it finds no board: it waits only shortly for a busy machine.
const TRIES: usize = 10;

/// What the tool writes when it is called with these words.
fn mesaflash(address: &str, words: &[&str]) -> String {
    let mut command = Command::new("mesaflash");
    command
        .args(["--device", "7I92", "--addr", address])
        .args(words);
    let mut output = run(&mut command);
    for _ in 1..TRIES {
        if !String::from_utf8_lossy(&output.stdout).contains("No 7I92 board found") {
            break;
        }
        output = run(&mut command);
    }
    let text = String::from_utf8_lossy(&output.stdout).into_owned();
    assert!(output.status.success(), "{words:?}: {text}");
    text
}

/// What the tool reads of the board.
const IDROM: [&str; 7] = [
    "Configuration Name: HOSTMOT2",
    "BoardName : MESA7I92",
    "Number of IO Ports: 2",
    "Width of one I/O port: 17",
    "Module: WatchDog",
    "Module: IOPort",
    "Module: LED",
];

#[test]
#[ignore = "needs mesaflash: rust/mesaflash runs it"]
fn mesaflash_on_the_card() {
    let address = address();
    let saved = file("mesaflash-store");
    let save = saved.to_str().expect("a plain name");
    let card = Card::start(&["--address", &address, "--hostmot2", "--save", save]);

    let found = mesaflash(&address, &[]);
    assert!(found.contains(&format!("ETH device 7I92 at ip={address}")));
    let idrom = mesaflash(&address, &["--readhmid"]);
    for expected in IDROM {
        assert!(idrom.contains(expected), "no {expected} in:\n{idrom}");
    }
    mesaflash(&address, &["--wpo", "0x1004=0x12345678"]);
    let read = mesaflash(&address, &["--rpo", "0x1004"]);
    assert_eq!(read.trim(), "12345678");
    let set = mesaflash(&address, &["--set", "ip=10.1.2.3"]);
    assert!(set.contains("Board IP updated successfully."));

    let lines = card.stop("TERM");
    let store = fs::read(&saved).expect("the store");
    assert_eq!(store[0x1004..0x1008], 0x1234_5678_u32.to_le_bytes());
    assert_eq!(store[EEPROM + 0x20..EEPROM + 0x24], [3, 2, 1, 10]);
    // The unlock cell is cleared, and every accepted packet counted.
    assert_eq!(store[STATUS + 0x1A..STATUS + 0x1C], [0, 0]);
    let accepted = lines.iter().filter(|line| line.contains(": accepted"));
    let count = accepted.count() as u16;
    assert!(count > 20);
    assert_eq!(store[STATUS + 0x0A..STATUS + 0x0C], count.to_le_bytes());
    assert!(!lines.iter().any(|line| line.contains(": refused")));
}
