//! The parts that take cue lists.

use crate::common::{answers, filled, lbp16, says};
use model::store::Space;

/// Read register 4, write register 8.
const LIST: &[u8] = b"RD\0\0\x04\0WR\0\0\x08\0\x01\0\0\0";
const TEXT: &[u8] = b"# two cues\nread registers 4\nwrite registers 8 1\n";
/// The second record writes the EEPROM below 0x20.
const BAD: &[u8] = b"RD\0\0\x04\0WR\x02\0\x10\0\x01\0\0\0";
const PACKETS: &[u8] = b"LB\x0C\0\x81\x42\x04\0\x81\xC2\x08\0\x01\0\0\0";
const REASON: &str = "refused 23 at 1 (byte 6): write eeprom 0x0010 0x0001: read-only below 0x20\n";

#[test]
fn text_to_a_list_and_back() {
    let ended = lbp16(&["asm", "-"], TEXT);
    assert_eq!((ended.exit, &ended.out[..], &ended.err[..]), (0, LIST, ""));
    let text = "read registers 0x0004\nwrite registers 0x0008 0x00000001\n";
    answers(&["dis"], LIST, 0, text);
    assert_eq!(lbp16(&["asm"], text.as_bytes()).out, LIST);
}

#[test]
fn a_line_is_named_by_file_and_line() {
    let name = filled("lists-line.txt", b"read registers 4\n\nread lamp\n");
    let said = format!("{name}:3: refused 83: \"lamp\" is not defined above\n");
    says(&["asm", &name], b"", 1, &said);
    says(&["compile", &name], b"", 1, &said);
    // Of a text's record too.
    let name = filled("lists-guard.txt", TEXT);
    let said = format!(
        "{name}:3: refused 71 at 1 (byte 6): write registers 0x0008 0x00000001: a write to a protected cell\n"
    );
    answers(&["guard", "--protect", "0:8-8", &name], b"", 1, &said);
}

/// Texts whose last line is refused, and the number, the word and what is wrong with it.
const LINES: &[(&str, &str)] = &[
    (
        "raed registers 4",
        "81: \"raed\" and what follows are none of: ",
    ),
    ("read lamps 4", "82: \"lamps\" is no space: "),
    ("read registers 65536", "82: \"65536\" is no address: "),
    ("write registers 4 0x", "82: \"0x\" is no value: "),
    ("name status registers 4", "83: \"status\" is no name: "),
    (
        "name a 0 4\nname a 0 8",
        "83: \"a\" is defined above already\n",
    ),
    (
        "read 5 4",
        "23: \"5\" is a space that the card does not have\n",
    ),
    (
        "read registers 6",
        "23: \"6\" is no multiple of an element's bytes: ",
    ),
    (
        "read eeprom 0x80",
        "23: \"0x80\" is past the end of the space\n",
    ),
    ("write eeprom 0x10 1", "23: \"0x10\" is read only\n"),
    ("name a 2 0x10\nwrite a 1", "23: \"a\" is read only\n"),
    ("read status 0x1A", "23: \"0x1A\" is the unlock cell, "),
    ("read status 10", "23: \"10\" is the packet count, "),
    (
        "write eeprom 0x20 65536",
        "24: \"65536\" has more than the 2 bytes ",
    ),
];

#[test]
fn the_word_at_fault() {
    for (text, said) in LINES {
        let ended = lbp16(&["asm"], text.as_bytes());
        let place = format!("(standard input):{}: refused ", text.lines().count());
        assert!(
            ended.err.starts_with(&(place + said)),
            "{text}: {}",
            ended.err
        );
        assert_eq!((ended.exit, ended.out.len()), (1, 0));
    }
}

#[test]
fn a_bad_list_is_refused_by_every_part() {
    let name = filled("lists-bad.cue", BAD);
    let said = format!("{name}: {REASON}");
    for part in ["dis", "compile", "tight"] {
        says(&[part, &name], b"", 1, &said);
    }
    says(&["guard", "--protect", "0:0-3", &name], b"", 1, &said);
    says(&["either", "-", &name], LIST, 1, &said);
    says(&["tight", "--check", "-", &name], PACKETS, 1, &said);
    says(&["compile"], BAD, 1, &format!("(standard input): {REASON}"));
}

#[test]
fn packets_of_lists_and_texts() {
    for input in [LIST, TEXT] {
        let ended = lbp16(&["compile"], input);
        assert_eq!((ended.exit, &ended.out[..]), (0, PACKETS));
    }
    // An empty input is the empty list, and the empty text.
    assert_eq!(lbp16(&["compile"], b"").exit, 0);
    assert_eq!(lbp16(&["compile", "--text"], b"").out, b"");
    // What begins with a mark is a list, unless told otherwise; "RD" alone is one that is cut.
    let said = "(standard input): refused 22 at 0 (byte 0): read: cut off, 2 bytes left of 6\n";
    says(&["compile"], b"RD", 1, said);
    let ended = lbp16(&["compile", "--text"], b"RD");
    assert!(ended.exit == 1 && ended.err.starts_with("(standard input):1: refused 81: "));
    // A damaged list is no text.
    let said = "(standard input): refused 22 at 0 (byte 0): mark 44 00: neither RD nor WR\n";
    says(&["compile"], &LIST[1..], 1, said);
    let ended = lbp16(&["compile", "--list"], TEXT);
    assert!(ended.err.contains("refused 22 at 0 (byte 0): mark 23 20"));
}

#[test]
fn a_list_of_any_length() {
    let most = b"WR\0\0\x08\0\x01\0\0\0".repeat(100_000);
    let ended = lbp16(&["compile"], &most);
    assert_eq!(ended.exit, 0);
    let more = [&most[..], b"RD"].concat();
    let line = "refused 21 at 100000 (byte 1000000): a list has at most 100,000 records";
    says(
        &["compile"],
        &more,
        1,
        &format!("(standard input): {line}\n"),
    );
    // A text may be longer than a list.
    let text = b"write registers 8 1 # a comment\n".repeat(100_000);
    assert_eq!(lbp16(&["compile"], &text).out, ended.out);
}

#[test]
fn fewer_bytes_and_their_check() {
    let reads = LIST[..6].repeat(3);
    let list = filled("lists-reads.cue", &reads);
    let tight = b"LB\x04\0\x03\x42\x04\0";
    assert_eq!(lbp16(&["tight", &list], b"").out, tight);
    let check = ["tight", "--check", "-", &list];
    answers(&check, tight, 0, "(standard input): accepted, 1 packet\n");
    let said = "refused 50: list good, and the output proposed for it rejected";
    answers(&check, PACKETS, 1, &format!("(standard input): {said}\n"));
    let said = "lbp16 tight: standard input can be only one of the two; see lbp16 tight --help\n";
    says(&["tight", "--check", "-"], b"", 2, said);
}

#[test]
fn a_damaged_list() {
    // A byte was lost in the second record's mark.
    let damaged = [LIST, b"D\0\0\x04\0", LIST].concat();
    let ended = lbp16(&["fix"], &damaged);
    assert_eq!((ended.exit, ended.out), (0, [LIST, LIST].concat()));
    let account = "record at 6, 57 52 00 00 08 00 01 00 00 00: look at it\n\
                   skipped 5 at 16\nkept records 4, bytes 32\n";
    assert_eq!(ended.err, account);
    let ended = lbp16(&["fix", "--strict"], &damaged);
    assert_eq!((ended.exit, ended.out), (0, [&LIST[..6], LIST].concat()));
    assert_eq!(
        ended.err,
        account
            .replace("look at it", "left out")
            .replace("4, bytes 32", "3, bytes 22")
    );
    let log = filled("lists-log", b"old");
    let ended = lbp16(&["fix", "--log", &log], &damaged);
    assert_eq!((ended.exit, &ended.err[..]), (0, ""));
    assert_eq!(std::fs::read_to_string(log).unwrap(), account);
}

#[test]
fn protected_cells() {
    let name = filled("lists-protected.cue", LIST);
    let passes = format!("{name}: passes, 2 records\n");
    answers(&["guard", "--protect", "0:4-7", &name], b"", 0, &passes);
    let held = format!(
        "{name}: refused 71 at 1 (byte 6): write registers 0x0008 0x00000001: a write to a protected cell\n"
    );
    answers(
        &["guard", "--protect", "0:4-7", "--protect=0:0xB-0xB", &name],
        b"",
        1,
        &held,
    );
    let usage = "lbp16 guard: say with --protect SPACE:FIRST-LAST what is protected; see lbp16 guard --help\n";
    says(&["guard", &name], b"", 2, usage);
}

#[test]
fn two_lists() {
    let lamps = filled("lists-lamps.txt", b"write registers 8 1\n");
    let tilt = filled("lists-tilt.txt", b"\nread registers 4\n");
    let both = format!("{lamps} and {tilt} may be run in either order\n");
    answers(&["either", &lamps, &tilt], b"", 0, &both);
    let tilt = filled("lists-clash.txt", b"read registers 4\n\nread registers 8\n");
    let clash = format!(
        "{tilt}:3: refused 51 at 1 (byte 6): read registers 0x0008: \
         a record of the second list writes a cell that the first names, or names one that it writes\n"
    );
    answers(&["either", &lamps, &tilt], b"", 1, &clash);
    says(
        &["either", &lamps],
        b"",
        2,
        "lbp16 either: give two files; see lbp16 either --help\n",
    );
}

/// The exit status of `guard` with cells FIRST to LAST of a space protected, and its message.
fn guarded(space: Space, first: u32, last: u32, list: &[u8]) -> (i32, String) {
    let range = format!("{}:{first}-{last}", space.number());
    let ended = lbp16(&["guard", "--protect", &range], list);
    (ended.exit, ended.err)
}

#[test]
fn a_space_ends_where_the_card_has_its_end() {
    for space in Space::ALL {
        let bytes = space.bytes();
        assert_eq!(guarded(space, bytes - 1, bytes - 1, b"").0, 0, "{space:?}");
        let (exit, message) = guarded(space, bytes, bytes, b"");
        assert_eq!(exit, 2, "{space:?}");
        let said = format!("space {} has {bytes} bytes", space.number());
        assert!(message.contains(&said), "{message}");
    }
}

#[test]
fn a_range_protects_its_own_space_alone() {
    let writable = |space: &Space| space.first_writable().is_some();
    for space in Space::ALL.into_iter().filter(writable) {
        let last = space.bytes() - space.element();
        let mut list = vec![b'W', b'R', space.number(), 0];
        list.extend((last as u16).to_le_bytes());
        list.extend([1, 0, 0, 0]);
        for other in Space::ALL {
            // The last element of each: in space 6 it is neither the unlock cell nor the packet count.
            let (first, end) = (other.bytes() - other.element(), other.bytes() - 1);
            let expected = i32::from(other == space);
            assert_eq!(
                guarded(other, first, end, &list).0,
                expected,
                "{space:?}, {other:?}"
            );
        }
    }
}
