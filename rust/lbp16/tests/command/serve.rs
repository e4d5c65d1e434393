//! What can't be done is said in a clear line, with a failing exit.

use crate::common::{file, run, Card};
use std::fs;
use std::process::Command;

/// Calls the program, which must fail, and answers its exit and the first line that it wrote.
fn fails(words: &[&str]) -> (i32, String) {
    let output = run(Command::new(env!("CARGO_BIN_EXE_lbp16"))
        .arg("serve")
        .args(words));
    assert!(output.stdout.is_empty());
    let text = String::from_utf8(output.stderr).expect("text");
    let line = text.lines().next().expect("a line").to_string();
    (output.status.code().expect("an exit"), line)
}

#[test]
fn called_wrongly() {
    let wrong = |words: &[&str], line: &str| {
        assert_eq!(fails(words), (2, format!("{line}; see lbp16 serve --help")))
    };
    wrong(&["--wrong"], "lbp16 serve: no option '--wrong' here");
    wrong(&["word"], "lbp16 serve: 'word' is a file too many");
    wrong(&["--port"], "lbp16 serve: --port needs a number");
    wrong(&["--port", "70000"], "lbp16 serve: '70000' is no port");
    wrong(&["--address"], "lbp16 serve: --address needs an IP address");
    wrong(
        &["--address", "here"],
        "lbp16 serve: 'here' is no IP address",
    );
    wrong(&["--store"], "lbp16 serve: --store needs a file");
    wrong(
        &["--hostmot2", "--save"],
        "lbp16 serve: --save needs a file",
    );
    wrong(&["--save-start"], "lbp16 serve: --save-start needs a file");
}

#[test]
fn cells_that_cannot_be_protected() {
    let wrong = |words: &[&str], line: &str| {
        assert_eq!(fails(words), (2, format!("{line}; see lbp16 serve --help")))
    };
    wrong(
        &["--protect"],
        "lbp16 serve: --protect needs SPACE:FIRST-LAST",
    );
    for text in [
        "here", "0:", "0:1", "0:1-", "0:-2", ":1-2", "0:1-2-3", "0:+1-2", "0:1 - 2",
    ] {
        let line = format!("lbp16 serve: '{text}' is not SPACE:FIRST-LAST in numbers");
        wrong(&["--protect", text], &line);
    }
    for text in ["0:a-b", "0:0x-1", "0:0x1G-0x20", "0:1-4294967296"] {
        let line = format!("lbp16 serve: '{text}' is not SPACE:FIRST-LAST in numbers");
        wrong(&["--protect", text], &line);
    }
    let line = "lbp16 serve: '1:0-3': a card has spaces 0, 2, 6 and 7";
    wrong(&["--protect", "1:0-3"], line);
    let line = "lbp16 serve: '0:4-3': the first address is above the last";
    wrong(&["--protect", "0:4-3"], line);
    let line = "lbp16 serve: '0:0xFFFC-0x10000': space 0 has 65536 bytes";
    wrong(&["--protect", "0:0xFFFC-0x10000"], line);
    let line = "lbp16 serve: '7:0-32': space 7 has 32 bytes";
    wrong(&["--protect", "7:0-32"], line);
}

#[test]
fn guards_that_are_not_sound() {
    let refused = |words: &[&str], text: &str, place: usize| {
        let (exit, line) = fails(words);
        let expected =
            format!("lbp16 serve: '{text}': refused 70 at {place}: the guard is not sound: ");
        assert_eq!(exit, 2);
        assert!(line.starts_with(&expected), "{line}");
    };
    // The packet count and the unlock cell, by one byte of them.
    refused(&["--protect", "6:0-31"], "6:0-31", 0);
    let words = ["--protect", "0:0-3", "--protect", "6:11-0x0C"];
    refused(&words, "6:11-0x0C", 1);
    refused(&["--protect", "6:0x1A-0x1A"], "6:0x1A-0x1A", 0);
    let many = ["--protect", "0:0-3"].repeat(65);
    refused(&many, "0:0-3", 64);
}

#[test]
fn usage_when_asked() {
    let output = run(Command::new(env!("CARGO_BIN_EXE_lbp16")).args(["serve", "--help"]));
    assert!(output.status.success());
    assert!(output.stdout.starts_with(b"usage: lbp16 serve "));
}

#[test]
fn store_to_begin_with() {
    let path = file("options-start");
    let name = path.to_str().expect("a plain name");
    let start = |words: &[&str]| {
        let mut command = Command::new(env!("CARGO_BIN_EXE_lbp16"));
        let output = run(command
            .arg("serve")
            .args(words)
            .args(["--save-start", name]));
        assert!(output.status.success());
        let line = format!("lbp16 serve: store written to {name}\n");
        assert_eq!(output.stdout, line.as_bytes());
        fs::read(&path).expect("the store")
    };
    assert_eq!(start(&[]), vec![0; 65_728]);
    let plain = start(&["--hostmot2"]);
    assert_eq!(plain.len(), 65_728);
    assert_eq!(plain[0x100..0x10C], *b"\xFE\xCA\xAA\x55HOSTMOT2");
    // It begins with a file's store where one is named, and fills its cells in.
    fs::write(&path, vec![0xEE; 65_728]).unwrap();
    let other = start(&["--store", name, "--hostmot2"]);
    assert_eq!(other[0x100..0x10C], plain[0x100..0x10C]);
    assert_eq!(other[..0x100], [0xEE; 0x100]);
}

#[test]
fn address_in_use() {
    let card = Card::start(&["--port", "0"]);
    let port = card.address.rsplit(':').next().expect("a port");
    let (exit, line) = fails(&["--port", port]);
    assert_eq!(exit, 2);
    let expected = format!("lbp16 serve: 127.0.0.1:{port}: Address already in use");
    assert!(line.starts_with(&expected), "{line}");
}

#[test]
fn address_of_no_one_here() {
    let (exit, line) = fails(&["--address", "192.0.2.1", "--port", "0"]);
    assert_eq!(exit, 2);
    assert!(line.starts_with("lbp16 serve: 192.0.2.1:0: "), "{line}");
}

#[test]
fn store_of_another_size() {
    let path = file("options-store");
    let name = path.to_str().expect("a plain name");
    let fails = |bytes: usize, line: &str| {
        fs::write(&path, vec![0; bytes]).unwrap();
        let line = format!("lbp16 serve: {name}: {line}");
        assert_eq!(fails(&["--port", "0", "--store", name]), (2, line));
    };
    fails(0, "0 bytes where a store has 65728");
    fails(65_727, "65727 bytes where a store has 65728");
    fails(65_729, "more than the 65728 bytes of a store");
}

#[test]
fn files_that_are_not_to_be_had() {
    let missing = file("options-missing");
    let name = missing.to_str().expect("a plain name");
    let (exit, line) = fails(&["--port", "0", "--store", name]);
    assert_eq!(exit, 2);
    assert!(
        line.starts_with(&format!("lbp16 serve: cannot read {name}: ")),
        "{line}"
    );
    let below = missing.join("store");
    let name = below.to_str().expect("a plain name");
    for words in [
        &["--port", "0", "--save", name],
        &["--hostmot2", "--save-start", name][..],
    ] {
        let (exit, line) = fails(words);
        assert_eq!(exit, 2);
        assert!(
            line.starts_with(&format!("lbp16 serve: cannot write {name}: ")),
            "{line}"
        );
    }
}
