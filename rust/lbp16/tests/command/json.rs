//! `--json`: one object that any reader of JSON takes, whatever the bytes.

use crate::common::{filled, lb, lbp16};
use std::io::Write;
use std::process::{Command, Stdio};

/// The object of an answer, checked by Python's reader.
fn object(words: &[&str], input: &[u8], exit: i32) -> String {
    let ended = lbp16(words, input);
    assert_eq!((ended.exit, &ended.err[..]), (exit, ""), "{words:?}");
    let check = "import json,sys; o=json.load(sys.stdin); assert type(o) is dict and type(o['accepted']) is bool";
    let mut python = Command::new("python3")
        .args(["-c", check])
        .stdin(Stdio::piped())
        .spawn()
        .expect("python3");
    python
        .stdin
        .take()
        .expect("its input")
        .write_all(&ended.out)
        .unwrap();
    let text = String::from_utf8(ended.out).expect("text");
    assert!(python.wait().unwrap().success(), "{words:?}: {text}");
    assert_eq!(text.lines().count(), 1);
    text
}

const LIST: &[u8] = b"WR\0\0\x08\0\x01\0\0\0";

#[test]
fn of_what_is_made() {
    let made = object(&["compile", "--json"], LIST, 0);
    let expected =
        "{\"accepted\": true, \"file\": \"(standard input)\", \"packets\": 1, \"bytes\": 12, \
                    \"hex\": \"4C42080081C2080001000000\"}\n";
    assert_eq!(made, expected);
    let output = filled("json-output.lb", b"old");
    let made = object(&["tight", "--json", "-o", &output], LIST, 0);
    assert!(made.contains(&format!("\"output\": \"{output}\"")) && !made.contains("hex"));
    let made = object(&["dis", "--json"], LIST, 0);
    assert!(made.contains("\"text\": \"write registers 0x0008 0x00000001\\n\""));
    object(&["asm", "--json"], b"read registers 4\n", 0);
    let made = object(
        &["fix", "--json", "--strict"],
        &[LIST, b"x", LIST].concat(),
        0,
    );
    assert!(
        made.contains("\"skipped\": [{\"byte\": 10, \"bytes\": 1}], \"left_out\": [{\"byte\": 0, "),
        "{made}"
    );
}

#[test]
fn of_refusals() {
    let refused = object(&["compile", "--json"], b"RD\x09\0\0\0", 1);
    assert!(
        refused.contains("\"accepted\": false")
            && refused.contains("\"refused\": 23, \"place\": 0, \"byte\": 0")
    );
    let refused = object(&["asm", "--json"], b"\n\"\\\xFF\x01 x\n", 1);
    assert!(refused.contains("\"refused\": 81, \"line\": 2"));
    object(&["dis", "--json"], b"\xFF\xFE", 1);
    object(&["tight", "--json"], b"\x01\x02\x03", 1);
    // A name that is no UTF-8, with quotes.
    let odd = filled("json-\"odd\\\n name", b"RD");
    object(&["compile", "--json", &odd], b"", 1);
}

#[test]
fn of_verdicts() {
    object(&["why", "--json"], &[0x81, 0x42, 0, 0], 0);
    let refused = object(&["why", "--json"], &[0x80, 0x42, 0, 0], 1);
    assert!(refused.contains("\"reason\": {\"refused\": 7, \"place\": 0, "));
    assert!(
        refused.contains("\"space\": 0, \"element_bytes\": 4, \"increment\": true, \"count\": 0}")
    );
    let recording = [lb(&[0x81, 0x42, 0, 0]), lb(&[0, 0, 0, 7])].concat();
    let refused = object(&["judge", "--json"], &recording, 1);
    assert!(refused.contains(
        "\"packet\": 0, \"byte\": 3, \"expected\": \"00000000\", \"found\": \"00000007\""
    ));
    object(&["judge", "--json"], &recording[..8], 1);
    object(&["judge", "--json"], b"", 0);
    object(&["judge", "--json"], &[0xD4, 0xC3, 0xB2, 0xA1], 1);
    object(&["guard", "--json", "--protect", "0:0-3"], LIST, 0);
    object(&["guard", "--json", "--protect", "0:8-8"], LIST, 1);
    let list = filled("json-list.cue", LIST);
    object(&["either", "--json", &list, "-"], LIST, 1);
    object(&["either", "--json", &list, "-"], b"", 0);
    object(&["tight", "--json", "--check", "-", &list], b"", 1);
}

#[test]
fn of_a_daughter_card() {
    let mut card = vec![0; 14];
    card.extend([
        4, 0, 0, 0, 0xA0, 8, 2, 0, 0, 0, 0, 0, 0, 0, 0x80, 0x3F, 0, 0, 0xFF, 0, b'"', 0x1F, 0,
    ]);
    let shown = object(&["panel", "--json"], &card, 0);
    assert!(
        shown.contains("\"reading\": 0e0, \"unit\": \"\u{FFFD}\", \"name\": \"\\\"\\u001f\""),
        "{shown}"
    );
    object(&["panel", "--json"], &[0xEE; 20], 1);
}
