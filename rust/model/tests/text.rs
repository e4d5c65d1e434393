//! Cue lists as text, and back.

use model::text::{assemble, list_text, Assembled, Written};
use model::Refusal;

fn refused<T>(number: u32, place: u64) -> Result<T, Refusal> {
    Err(Refusal { number, place })
}

/// The list that a text is assembled to. Each room is tried that it could have: too small ones are
/// refused, and what lies beyond the list stays.
fn assembled(text: impl AsRef<[u8]>) -> Result<Vec<u8>, Refusal> {
    let text = text.as_ref();
    let mut out = vec![0xEE; text.len() + 20];
    let Assembled { bytes, records } = assemble(text, &mut out).inspect_err(|_| {
        assert!(out.iter().all(|&byte| byte == 0xEE));
    })?;
    assert!(out[bytes..].iter().all(|&byte| byte == 0xEE));
    out.truncate(bytes);
    if bytes > 0 {
        let mut small = vec![0xEE; bytes - 1];
        assert_eq!(assemble(text, &mut small), refused(26, bytes as u64));
        assert!(small.iter().all(|&byte| byte == 0xEE));
    }
    let mut exact = vec![0xEE; bytes];
    assert_eq!(assemble(text, &mut exact), Ok(Assembled { bytes, records }));
    assert_eq!(exact, out);
    assert_eq!(count(&out), records);
    Ok(out)
}

/// How many records a list has.
fn count(list: &[u8]) -> u64 {
    model::cue::Records::new(list)
        .inspect(|record| assert!(record.is_ok()))
        .count() as u64
}

/// The text of a list, with rooms as above.
fn text(list: &[u8]) -> Result<String, Refusal> {
    let mut out = vec![0xEE; 4 * list.len() + 20];
    let Written { bytes, lines } = list_text(list, &mut out).inspect_err(|_| {
        assert!(out.iter().all(|&byte| byte == 0xEE));
    })?;
    assert!(out[bytes..].iter().all(|&byte| byte == 0xEE));
    out.truncate(bytes);
    if bytes > 0 {
        let mut small = vec![0xEE; bytes - 1];
        assert_eq!(list_text(list, &mut small), refused(26, bytes as u64));
        assert!(small.iter().all(|&byte| byte == 0xEE));
    }
    let mut exact = vec![0xEE; bytes];
    assert_eq!(list_text(list, &mut exact), Ok(Written { bytes, lines }));
    assert_eq!(exact, out);
    let text = String::from_utf8(out).expect("letters and digits");
    assert_eq!(text.lines().count() as u64, lines);
    Ok(text)
}

/// The text must be refused with this number at its line.
fn refuses(text: impl AsRef<[u8]>, number: u32, line: u64) {
    let text = text.as_ref();
    let shown = String::from_utf8_lossy(text);
    assert_eq!(assembled(text), refused(number, line), "{shown:?}");
}

/// Both texts must be assembled to the same list, and not to the empty one.
fn same(one: impl AsRef<[u8]>, other: impl AsRef<[u8]>) {
    let shown = String::from_utf8_lossy(one.as_ref()).into_owned();
    let list = assembled(one).expect("a good text");
    assert!(!list.is_empty());
    assert_eq!(Ok(list), assembled(other), "{shown:?}");
}

// Forms.

#[test]
fn each_form() {
    let read = *b"RD\x00\x00\x10\x00";
    assert_eq!(assembled("read registers 0x0010\n"), Ok(read.into()));
    let write = *b"WR\x02\x00\x22\x00\xA8\xC0\x00\x00";
    assert_eq!(assembled("write eeprom 0x0022 0xC0A8\n"), Ok(write.into()));
    assert_eq!(assembled("name led status 0x14\n"), Ok(vec![]));
    let list = b"RD\x06\x00\x14\x00WR\x06\x00\x14\x00\x07\x00\x00\x00";
    let text = "name led status 0x14\nread led\nwrite led 7\n";
    assert_eq!(assembled(text), Ok(list.to_vec()));
}

#[test]
fn values_have_four_bytes() {
    let list = *b"WR\x00\x00\x04\xFF\x78\x56\x34\x12";
    assert_eq!(
        assembled("write registers 0xFF04 0x12345678"),
        Ok(list.into())
    );
}

#[test]
fn no_record() {
    for text in ["", "\n", "\n\n\n", " \t\r", "# a comment", "#", "\r\n#\r\n"] {
        assert_eq!(assembled(text), Ok(vec![]));
    }
}

#[test]
fn last_line_without_a_newline() {
    same("read registers 4", "read registers 4\n");
    same("#\nread registers 4 # last", "read registers 4\n");
    refuses("read registers 4\nread", 81, 2);
}

#[test]
fn blanks_tabs_and_carriage_returns() {
    let plain = "write registers 4 5\n";
    same("  write\tregisters\r4 \t\r 5\r\n", plain);
    same("\r\r\twrite registers 4 5\t \r", plain);
    // Every other byte belongs to a word.
    for other in ["\x0B", "\x0C", "\0", "\u{A0}", ",", ";", "\""] {
        refuses(format!("write registers 4{other}5"), 82, 1);
        refuses(format!("write{other} registers 4 5"), 81, 1);
        refuses(format!("write registers 4 {other} 5"), 81, 1);
    }
    // A carriage return ends no line.
    refuses("read registers 4\rread registers 8\n", 81, 1);
}

#[test]
fn comments_anywhere() {
    let plain = "read registers 4\nread registers 8\n";
    same("read registers 4#5\nread registers 8 # 9 10\n", plain);
    same(
        "#read x\n  # \nread registers 4 ## \n\nread registers 8",
        plain,
    );
    // What stands before it counts.
    refuses("read#registers 4\n", 81, 1);
    refuses("read registers#4\n", 83, 1);
    refuses("name a#b registers 4\n", 81, 1);
    refuses("write registers 4 #5\n", 83, 1);
    // It ends with its line.
    refuses("# read registers 4\nread\n", 81, 2);
    // Names, too, end where it starts.
    same("name a registers 4\nread a#b\n", "read registers 4\n");
}

#[test]
fn small_and_capital_letters_differ() {
    for text in ["Read registers 4", "READ registers 4", "reaD registers 4"] {
        refuses(text, 81, 1);
    }
    refuses("read Registers 4", 82, 1);
    refuses("name lamp registers 4\nread Lamp", 83, 2);
    same(
        "name lamp registers 4\nname Lamp registers 8\nread Lamp\nread lamp",
        "read registers 8\nread registers 4",
    );
    same("name Read registers 4\nread Read", "read registers 4");
}

// Numbers.

#[test]
fn spaces_by_number() {
    for (word, numbers) in [
        ("registers", ["0", "0x0", "0X00", "000"]),
        ("eeprom", ["2", "0x2", "0X02", "0002"]),
        ("status", ["6", "0x6", "0X006", "006"]),
        ("information", ["7", "0x7", "0X07", "07"]),
    ] {
        for number in numbers {
            same(format!("read {number} 0x8"), format!("read {word} 8"));
        }
    }
}

#[test]
fn spellings() {
    let value = "write registers 0xFFFC 0xFFABCDEF\n";
    same("write registers 65532 4289449455\n", value);
    same("write registers 0xfffc 0xffabcdef\n", value);
    same("write registers 0XFfFc 0XfFaBcDeF\n", value);
    same("write 00 0065532 00004289449455\n", value);
    same("write registers 0x00FFFC 0X00000000FFABCDEF\n", value);
    let zeros = "0".repeat(1_000);
    same(
        format!("write {zeros} 0x{zeros}fffC {zeros}4289449455"),
        value,
    );
    same("write registers 0 4294967295", "write 0 0 0xFFFFFFFF");
    same(format!("write 0 {zeros} 0x{zeros}"), "write 0 0 0");
}

#[test]
fn words_that_are_no_numbers() {
    let words = [
        "0x", "0X", "x10", "00x10", "0x0x4", "1a", "4h", "0xG", "-4", "+4", "0x-4", "1_0", "4.",
        "4,", "0b1", "o4", "four", "\u{664}",
    ];
    for word in words {
        refuses(format!("read {word} 4"), 82, 1);
        refuses(format!("read registers {word}"), 82, 1);
        refuses(format!("write registers 4 {word}"), 82, 1);
        refuses(format!("name a registers {word}"), 82, 1);
        refuses(format!("name a {word} 4"), 82, 1);
        refuses(format!("name a registers 4\nwrite a {word}"), 82, 2);
    }
    // A space's name is one only where a space stands.
    refuses("read registers registers", 82, 1);
    refuses("write registers 4 status", 82, 1);
}

#[test]
fn numbers_that_are_too_large() {
    // The last ones are 4 modulo a power of 2.
    let spaces = [
        "256",
        "0x100",
        "0256",
        "65540",
        "0x100000004",
        "18446744073709551620",
    ];
    for word in spaces {
        refuses(format!("read {word} 4"), 82, 1);
        refuses(format!("name a {word} 4"), 82, 1);
    }
    let addresses = [
        "65536",
        "0x10000",
        "0x00010004",
        "4294967300",
        "0x10000000000000004",
    ];
    for word in addresses {
        refuses(format!("read registers {word}"), 82, 1);
        refuses(format!("write registers {word} 4"), 82, 1);
        refuses(format!("name a registers {word}"), 82, 1);
    }
    let values = [
        "4294967296",
        "0x100000000",
        "0X00100000004",
        "18446744073709551620",
        "340282366920938463463374607431768211460",
        "99999999999999999999999999999999999999999999999999",
    ];
    for word in values {
        refuses(format!("write registers 4 {word}"), 82, 1);
        refuses(format!("name a registers 4\nwrite a {word}"), 82, 2);
    }
    // 255 is a number for a space, and no space of a card.
    refuses("read 255 4", 23, 1);
    refuses("read registers 65535", 23, 1);
}

// Refusals.

#[test]
fn lines_of_no_form() {
    for text in [
        "read",
        "read a b c",
        "read registers 4 5",
        "write",
        "write a",
        "write registers 4 5 6",
        "name",
        "name a",
        "name a registers",
        "name a registers 4 5",
        "registers 4",
        "lamp",
        "readregisters 4",
        "read, registers 4",
        "4",
        "\u{FEFF}read registers 4",
        "reads registers 4",
        "name a registers 4 5 6 7 8 9",
    ] {
        refuses(text, 81, 1);
        refuses(format!("read registers 4\n\n{text} # that\nfoo"), 81, 3);
    }
}

#[test]
fn three_words_are_of_the_first_form() {
    refuses("read lamp 0x10\n", 82, 1);
    refuses("name lamp registers 0x10\nread lamp 0x10\n", 82, 2);
    refuses("name lamp registers 0x10\nwrite lamp 0x10 5\n", 82, 2);
}

#[test]
fn words_that_are_no_names() {
    let long = "a".repeat(33);
    let words = [
        "4",
        "0x10",
        "_a",
        "-a",
        ".a",
        "4a",
        "a+",
        "a/b",
        "a:",
        "a(",
        "a=b",
        "\u{E4}",
        "a\u{E4}",
        "a\0",
        "registers",
        "eeprom",
        "status",
        "information",
        "read",
        "write",
        "name",
        &long,
    ];
    for word in words {
        refuses(format!("name {word} registers 4\n"), 83, 1);
        refuses(format!("read {word}\n"), 83, 1);
        refuses(format!("write {word} 4\n"), 83, 1);
    }
}

#[test]
fn names() {
    let longest = format!("a{}", "Z9_-.".repeat(6) + "b");
    assert_eq!(longest.len(), 32);
    let words = [
        "a",
        "Z",
        "a-b",
        "a_",
        "a.",
        "lamp.1",
        "X10",
        "reader",
        "registers2",
        "Registers",
        "names",
        "r",
        "e-e.p_r0m",
        "infor",
        &longest,
    ];
    for word in words {
        same(
            format!("name {word} registers 4\nread {word}\nwrite {word} 5\n"),
            "read registers 4\nwrite registers 4 5\n",
        );
    }
    // One is the other's beginning.
    same(
        "name ab registers 4\nname a registers 8\nname abc registers 12\nread abc\nread a\nread ab",
        "read 0 12\nread 0 8\nread 0 4",
    );
    // Two for one cell.
    same(
        "name a 0 4\nname b 0 4\nread b\nread a",
        "read 0 4\nread 0 4",
    );
}

#[test]
fn names_above_their_definition_and_defined_twice() {
    refuses("read lamp\nname lamp registers 4\n", 83, 1);
    refuses("write lamp 5\nname lamp registers 4\n", 83, 1);
    refuses("name lamp registers 4\nread lamp2\n", 83, 2);
    refuses("name lamp registers 4\nread lam\n", 83, 2);
    refuses(
        "name lamp registers 4\nread 0 4\nname lamp registers 4\n",
        83,
        3,
    );
    refuses("name lamp registers 4\nname lamp status 0\n", 83, 2);
    // A comment defines none.
    refuses("# name lamp registers 4\nread lamp\n", 83, 2);
}

#[test]
fn a_thousand_names() {
    let define = |count: usize| -> String {
        (0..count)
            .map(|k| format!("name n{k} registers {}\n", 4 * k))
            .collect()
    };
    let good = define(1_000) + "read n0\nread n999\n";
    same(&good, "read 0 0\nread 0 3996\n");
    refuses(define(1_001), 83, 1_001);
    refuses(define(1_000) + "\nname n0 registers 4", 83, 1_002);
    refuses(define(1_000) + "read n1000", 83, 1_001);
    refuses(
        define(1_000) + "read 0 4\nname n1000 registers 3",
        83,
        1_002,
    );
    refuses(define(1_000) + "name n1000 registers x", 82, 1_001);
}

#[test]
fn records_that_the_compiler_refuses() {
    for space in ["1", "3", "4", "5", "8", "0x80", "255"] {
        refuses(format!("read {space} 0"), 23, 1);
        refuses(format!("write {space} 0 0"), 23, 1);
        refuses(format!("name a {space} 0"), 23, 1);
    }
    for cell in [
        "registers 2",
        "registers 1",
        "registers 0xFFFF",
        "registers 0xFFFE",
        "eeprom 1",
        "eeprom 128",
        "eeprom 0x7F",
        "status 32",
        "status 3",
        "information 32",
        "information 0xFFFE",
        "status 0x0A",
        "status 0x1A",
        "status 26",
        "6 10",
    ] {
        refuses(format!("read {cell}"), 23, 1);
        refuses(format!("write {cell} 0"), 23, 1);
        refuses(format!("\nname a {cell}\n"), 23, 2);
    }
    // What is read only can be read, and have a name.
    for cell in ["information 0", "7 30", "eeprom 0", "eeprom 0x1E"] {
        same(
            format!("name a {cell}\nread a\nread {cell}"),
            format!("read {cell}\nread {cell}"),
        );
        refuses(format!("write {cell} 0"), 23, 1);
        refuses(format!("name a {cell}\nread a\nwrite a 0"), 23, 3);
    }
    same("write eeprom 0x20 1", "write 2 32 1");
    same("write eeprom 0x7E 0xFFFF", "write 2 126 65535");
    for cell in ["eeprom 0x20", "status 0", "status 0x1C"] {
        refuses(format!("write {cell} 65536"), 24, 1);
        refuses(format!("write {cell} 0xFFFF0000"), 24, 1);
        refuses(format!("name a {cell}\nwrite a 0x10000"), 24, 2);
    }
}

#[test]
fn the_first_number_of_a_line() {
    // Number of words before all else.
    refuses("write lamp x y z", 81, 1);
    // A number that is none before a name that is none.
    refuses("write lamp x", 82, 1);
    refuses("write 4lamp 0x100000000", 82, 1);
    refuses("name 4lamp 256 0", 82, 1);
    refuses("name read registers 65536", 82, 1);
    refuses("name a registers 4\nname a registers -", 82, 2);
    // A name before the record that it makes.
    refuses("name 4lamp 1 0", 83, 1);
    refuses("name a registers 4\nname a registers 3", 83, 2);
    // 23 before 24.
    refuses("write eeprom 0 0x10000", 23, 1);
    refuses("write 1 0 0x10000", 23, 1);
    refuses("write status 0x1A 0x10000", 23, 1);
    refuses("name a eeprom 2\nwrite a 0x10000", 23, 2);
}

#[test]
fn the_earliest_line() {
    refuses("read 1 0\nread lamp\nread x y\nread", 23, 1);
    refuses("read lamp\nread 1 0\nread x y\nread", 83, 1);
    refuses("\nread x y\nread\n", 82, 2);
    refuses("read\nread x y\n", 81, 1);
    // Lines are counted, not records: empty ones, comments and names too.
    refuses("# one\n\r\nname a 0 4\nread a\n\t\nread b", 83, 6);
}

#[test]
fn a_hundred_thousand_records() {
    let most = "read 0 4\n".repeat(100_000);
    assert_eq!(assembled(&most), Ok(b"RD\x00\x00\x04\x00".repeat(100_000)));
    let line = |more: &str| format!("{most}{more}");
    refuses(line("read 0 4\n"), 21, 100_001);
    refuses(line("read 0 4"), 21, 100_001);
    refuses(line("\n# more\nwrite 0 4 5"), 21, 100_003);
    // Names may follow, and comments.
    same(line("name a 0 4\n\n# end\nname b 2 0x20"), &most);
    refuses(line("name a 0 4\nread a"), 21, 100_002);
    refuses(line("name a 0 3\n"), 23, 100_001);
    refuses(line("name a 0 4\nname a 0 4\n"), 83, 100_002);
    // On its line 21 stands behind 81 to 83, and before 23 and 24.
    refuses(line("read"), 81, 100_001);
    refuses(line("read x 4"), 82, 100_001);
    refuses(line("read x"), 83, 100_001);
    refuses(line("read 1 4"), 21, 100_001);
    refuses(line("write 2 0x20 65536"), 21, 100_001);
    // An earlier line comes first.
    refuses(format!("read 0 3\n{most}read 0 4"), 23, 1);
}

#[test]
fn room_comes_last() {
    let refusal = |text: &str, room: usize| assemble(text.as_bytes(), &mut vec![0; room]);
    let text = "read 0 4\nwrite 0 4 5\n";
    assert_eq!(refusal(text, 0), refused(26, 16));
    assert_eq!(refusal(text, 15), refused(26, 16));
    let whole = Assembled {
        bytes: 16,
        records: 2,
    };
    assert_eq!(refusal(text, 16), Ok(whole));
    assert_eq!(refusal("read 0 4\nread 0 4\nread", 6), refused(81, 3));
    assert_eq!(refusal("read 0 4\nread 0 4\nread 0 3", 0), refused(23, 3));
}

// Lists as text.

#[test]
fn lines_for_records() {
    assert_eq!(text(b""), Ok(String::new()));
    let list = b"RD\x00\x00\x10\x00WR\x02\x00\x22\x00\xA8\xC0\x00\x00";
    let lines = "read registers 0x0010\nwrite eeprom 0x0022 0xC0A8\n";
    assert_eq!(text(list), Ok(lines.to_string()));
    let list = [
        &b"WR\x00\x00\xFC\xFF\xEF\xCD\xAB\x00"[..],
        b"RD\x06\x00\x1E\x00",
        b"WR\x06\x00\x00\x00\x00\x00\x00\x00",
        b"RD\x07\x00\x0A\x00",
        b"RD\x02\x00\x7E\x00",
    ];
    let lines =
        "write registers 0xFFFC 0x00ABCDEF\nread status 0x001E\nwrite status 0x0000 0x0000\n\
                 read information 0x000A\nread eeprom 0x007E\n";
    assert_eq!(text(&list.concat()), Ok(lines.to_string()));
}

#[test]
fn bad_lists_have_no_text() {
    let read = b"RD\x00\x00\x04\x00";
    assert_eq!(text(&[&read[..], b"RX"].concat()), refused(22, 1));
    assert_eq!(text(&[&read[..], b"R"].concat()), refused(22, 1));
    assert_eq!(text(&[&read[..], &read[..5]].concat()), refused(22, 1));
    assert_eq!(text(b"RD\x01\x00\x04\x00"), refused(23, 0));
    assert_eq!(text(b"WR\x07\x00\x04\x00\x01\x00\x00\x00"), refused(23, 0));
    assert_eq!(text(b"RD\x00\x01\x04\x00"), refused(24, 0));
    assert_eq!(text(b"WR\x02\x00\x20\x00\x01\x00\x01\x00"), refused(24, 0));
    assert_eq!(text(&read.repeat(100_001)), refused(21, 100_000));
    let long = [&read.repeat(100_000)[..], b"?"].concat();
    assert_eq!(text(&long), refused(21, 100_000));
    // Its own refusal comes before that of the room.
    assert_eq!(list_text(b"RD\x00\x00\x04\x00?", &mut []), refused(22, 1));
}

#[test]
fn and_back() {
    let list = [
        &b"WR\x00\x00\xFC\xFF\xEF\xCD\xAB\x89"[..],
        b"RD\x00\x00\x00\x00",
        b"WR\x02\x00\x7E\x00\xFF\xFF\x00\x00",
        b"RD\x02\x00\x00\x00",
        b"WR\x06\x00\x1C\x00\x01\x00\x00\x00",
        b"RD\x07\x00\x1E\x00",
    ]
    .concat();
    let long = list.repeat(16_666);
    for list in [list, long, vec![]] {
        let text = text(&list).expect("a good list");
        assert_eq!(assembled(text), Ok(list));
    }
}

#[test]
fn the_opening_of_a_show() {
    let list = include_bytes!("../../../lists/opening.cue");
    let show = "\
        # The motors, and where they stand\n\
        name tilt    registers 0x2000\n\
        name pan     registers 0x2004\n\
        name lift    registers 0x2008\n\
        name go      registers 0x200C\n\
        name ledmode status    0x14\n\
        name address eeprom    0x20\n\
        \n\
        write tilt 0x10000\n\
        write pan  0x18000\n\
        write lift 0x18000\n\
        write go   1\n\
        read tilt\n\
        read pan\n\
        write ledmode 0\n\
        write address 0x0020 # low word\n\
        read address";
    assert_eq!(assembled(show), Ok(list.to_vec()));
    let plain = "write registers 0x2000 0x00010000\nwrite registers 0x2004 0x00018000\n\
                 write registers 0x2008 0x00018000\nwrite registers 0x200C 0x00000001\n\
                 read registers 0x2000\nread registers 0x2004\nwrite status 0x0014 0x0000\n\
                 write eeprom 0x0020 0x0020\nread eeprom 0x0020\n";
    assert_eq!(text(list), Ok(plain.to_string()));
}
