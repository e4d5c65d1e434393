//! How the command is called: help, version, files, streams and exit status.

use crate::common::{filled, lbp16, says};
use std::io::Read;
use std::process::{Command, Stdio};

const PARTS: [&str; 13] = [
    "asm", "dis", "compile", "tight", "fix", "packets", "why", "judge", "guard", "either", "panel",
    "serve", "play",
];

#[test]
fn help_of_the_command_and_of_each_part() {
    let ended = lbp16(&["--help"], b"");
    assert_eq!((ended.exit, &ended.err[..]), (0, ""));
    let help = String::from_utf8(ended.out).unwrap();
    for part in PARTS {
        assert!(help.contains(&format!("\n  {part:9}")), "{part}");
        let ended = lbp16(&[part, "--help"], b"");
        assert_eq!((ended.exit, &ended.err[..]), (0, ""));
        let usage = format!("usage: lbp16 {part} ");
        assert!(ended.out.starts_with(usage.as_bytes()), "{part}");
    }
}

#[test]
fn version_names_the_kit() {
    let ended = lbp16(&["--version"], b"");
    let kit = include_str!("../../../../.ci/kit").trim();
    let out = String::from_utf8(ended.out).unwrap();
    assert!(out.starts_with("lbp16 ") && out.ends_with(&format!("\nlibrary proved with {kit}\n")));
    assert_eq!((ended.exit, &ended.err[..]), (0, ""));
}

#[test]
fn called_wrongly() {
    says(&[], b"", 2, "lbp16: say which part; see lbp16 --help\n");
    says(
        &["send"],
        b"",
        2,
        "lbp16: there is no part 'send'; see lbp16 --help\n",
    );
    for part in PARTS {
        let said = format!("lbp16 {part}: no option '--wrong' here; see lbp16 {part} --help\n");
        says(&[part, "--wrong"], b"", 2, &said);
    }
    for part in [
        "asm", "dis", "compile", "tight", "fix", "packets", "why", "judge", "panel",
    ] {
        let said = format!("lbp16 {part}: 'two' is a file too many; see lbp16 {part} --help\n");
        says(&[part, "one", "two"], b"", 2, &said);
        let said = format!("lbp16 {part}: --json takes no value; see lbp16 {part} --help\n");
        says(&[part, "--json=yes"], b"", 2, &said);
    }
    says(
        &["asm", "-o"],
        b"",
        2,
        "lbp16 asm: -o needs a file; see lbp16 asm --help\n",
    );
    let said = "lbp16 play: --tries needs a number, not '0'; see lbp16 play --help\n";
    says(&["play", "--tries", "0"], b"", 2, said);
}

#[test]
fn a_file_that_cannot_be_read() {
    for part in [
        "asm", "dis", "compile", "tight", "fix", "packets", "why", "judge", "panel",
    ] {
        let said = format!("lbp16 {part}: cannot read /nowhere: No such file or directory\n");
        says(&[part, "/nowhere"], b"", 2, &said);
        let said = format!("lbp16 {part}: cannot read /: Is a directory\n");
        says(&[part, "/"], b"", 2, &said);
    }
    let store = filled("calling-store", &[0; 10]);
    let said = format!("lbp16 judge: {store}: 10 bytes where a store has 65728\n");
    says(&["judge", "--store", &store], b"", 2, &said);
}

#[test]
fn behind_two_dashes_all_are_files() {
    let said = "lbp16 dis: cannot read --help: No such file or directory\n";
    says(&["dis", "--", "--help"], b"", 2, said);
}

#[test]
fn nobody_reads_the_answer() {
    let list = b"WR\0\0\x08\0\x01\0\0\0".repeat(100_000);
    let list = filled("calling-long.cue", &list);
    let mut child = Command::new(env!("CARGO_BIN_EXE_lbp16"))
        .args(["dis", &list])
        .stdout(Stdio::piped())
        .stderr(Stdio::piped())
        .spawn()
        .expect("the program");
    drop(child.stdout.take());
    let mut err = String::new();
    child
        .stderr
        .take()
        .expect("its messages")
        .read_to_string(&mut err)
        .unwrap();
    assert_eq!((child.wait().unwrap().code(), &err[..]), (Some(2), ""));
}

#[test]
fn an_answer_that_cannot_be_written() {
    let command = "exec \"$0\" dis \"$1\" > /dev/full";
    let list = filled("calling-full.cue", b"RD\0\0\0\0");
    let output = Command::new("sh")
        .args(["-c", command, env!("CARGO_BIN_EXE_lbp16"), &list])
        .output();
    let output = output.expect("a shell");
    let said = "lbp16 dis: cannot write standard output: No space left on device\n";
    assert_eq!(String::from_utf8_lossy(&output.stderr), said);
    assert_eq!(output.status.code(), Some(2));
}
