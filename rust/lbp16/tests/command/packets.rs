//! The parts that take packets, recordings and a daughter card.

use crate::common::{answers, filled, lb, lbp16, says};

/// Two reads, the second from a pointer past the end.
const PAST: [u8; 6] = [0x81, 0x42, 0xFC, 0xFF, 0x81, 0x02];
const WHY: &str = "refused 8 at 4: address not a multiple of the element size, \
                   or an element past the end of the space or info area\n\
                   command 1, bytes 4 to 5, 81 02: read, space 0, 4-byte elements, increment, count 1, \
                   address from the pointer (0x10000)\n\
                   the 4 bytes before it are an accepted packet: 81 42 FC FF\n";

#[test]
fn one_packet() {
    answers(&["why"], &PAST[..4], 0, "accepted\n");
    answers(&["why"], b"", 0, "accepted, no commands\n");
    answers(&["why"], &PAST, 1, WHY);
    answers(&["why", "--hex"], b"81 42:FC ff\n8102\n", 1, WHY);
    answers(&["why", "--packet", "8142FCFF 8102"], b"", 1, WHY);
    let line = "refused 2 at 0: the packet is above 1,472 bytes\n";
    answers(&["why"], &[0x81; 1_473], 1, line);
    let said = "lbp16 why: (standard input): an odd number of hexadecimal digits\n";
    says(&["why", "--hex"], b"814", 2, said);
    let said = "lbp16 why: --packet: something else than hexadecimal digits\n";
    says(&["why", "--packet", "8G"], b"", 2, said);
}

#[test]
fn packets_behind_marks() {
    let first = lb(&PAST[..4]);
    answers(&["why"], &first, 0, "accepted, 1 packet\n");
    // The second runs on what the first left.
    let both = [first, lb(&PAST[4..])].concat();
    let ended = lbp16(&["why"], &both);
    let out = String::from_utf8(ended.out).unwrap();
    assert!(
        ended.exit == 1 && out.starts_with("packet 1: refused 8 at 0: "),
        "{out}"
    );
    // 4C 42 is a word too: the same bytes as one packet.
    let ended = lbp16(&["why", "--raw"], &both);
    assert!(ended.exit == 1 && ended.out.starts_with(b"refused "));
}

#[test]
fn a_packet_in_a_state() {
    let mut numbers = [0_u8; 32];
    numbers[0] = 0xFC;
    numbers[1] = 0xFF;
    let pointers = filled("packets-pointers", &numbers);
    answers(
        &["why", "--pointers", &pointers],
        &[0x81, 0x02],
        0,
        "accepted\n",
    );
    let ended = lbp16(&["why", "--pointers", &pointers], &[0x82, 0x02]);
    assert!(ended.exit == 1 && ended.out.starts_with(b"refused 8 at 0: "));
    numbers[2] = 1;
    let pointers = filled("packets-pointers-above", &numbers);
    let line = "refused 1 at 0: the store is not whole, or a pointer stands above the size of its space or info area\n";
    answers(&["why", "--pointers", &pointers], &[0x81, 0x02], 1, line);
    says(
        &["judge", "--pointers", &pointers],
        b"",
        2,
        &format!("lbp16 judge: (standard input): {line}"),
    );
}

#[test]
fn an_input_that_may_be_meant_otherwise() {
    let cut = [&lb(&[0x81, 0x42, 0x00, 0x00])[..], b"LB"].concat();
    let ended = lbp16(&["why"], &cut);
    let line =
        "the input begins with a packet behind \"LB\", and is cut or has no mark further on\n";
    assert!(String::from_utf8(ended.out).unwrap().ends_with(line));
    let ended = lbp16(&["why", "--raw"], &cut);
    assert!(!String::from_utf8(ended.out).unwrap().contains("behind"));
    let ended = lbp16(&["why"], b"81 42 00 00\n");
    let line = "the input looks like hexadecimal text: try --hex\n";
    assert!(String::from_utf8(ended.out).unwrap().ends_with(line));
    answers(&["why", "--hex"], b"81 42 00 00\n", 0, "accepted\n");
}

#[test]
fn packets_in_words() {
    let good = lb(&[0x81, 0xC2, 0x10, 0x00, 0x01, 0x00, 0x00, 0x00, 0x01, 0x02]);
    let words = "packet 0, 10 bytes\n  \
                 0: write registers 0x0010, 1 element, increment: 0x00000001\n  \
                 8: read registers from the pointer (0x0014), 1 element, no increment\n";
    answers(&["packets"], &good, 0, words);
    // The next packet starts where this one left the pointers.
    let both = [&good[..], &lb(&[0x01, 0x02])].concat();
    let more = "packet 1, 2 bytes\n  0: read registers from the pointer (0x0014), 1 element, no increment\n";
    answers(&["packets"], &both, 0, &format!("{words}{more}"));
    let ended = lbp16(&["packets", "--raw"], &PAST);
    let out = String::from_utf8(ended.out).unwrap();
    assert!(ended.exit == 1 && out.contains("refused 8 at 4: "), "{out}");
    // An output that is cut, and a packet alone, are not taken for something else.
    let line = "(standard input): not packets behind \"LB\" and their lengths, as lbp16 compile makes them\n";
    says(&["packets"], &good[..good.len() - 1], 1, line);
    says(&["packets"], &PAST, 1, line);
    says(
        &["packets", "--store", "x"],
        b"",
        2,
        "lbp16 packets: no option '--store' here; see lbp16 packets --help\n",
    );
}

#[test]
fn a_recording() {
    let read = lb(&[0x81, 0x42, 0, 0]);
    let yes = [&read[..], &lb(&[0; 4])].concat();
    answers(&["judge"], b"", 0, "yes, 0 packets: nothing to judge\n");
    answers(&["judge"], &yes, 0, "yes, 1 packet\n");
    answers(&["judge"], &yes.repeat(400_000), 0, "yes, 400000 packets\n");
    answers(&["judge"], &read, 1, "part 1 is cut\n");
    answers(&["judge"], &yes[1..], 1, "part 0 has no mark\n");
    let short = [&read[..], &lb(&[0; 3])].concat();
    answers(
        &["judge"],
        &short,
        1,
        "packet 0: its reply has another length\n",
    );
    let wrong = [&yes[..], &read, &lb(&[0, 0, 0, 7])].concat();
    let said =
        "packet 1, byte 3 of its reply is wrong\nexpected 00 00 00 00\nfound    00 00 00 07\n";
    answers(&["judge"], &wrong, 1, said);
    let refused = [lb(&[0x80, 0x42, 0, 0]), lb(&[])].concat();
    let said = "packet 0 is refused: 80 42 00 00\nrefused 7 at 0: count 0, no element is named\n\
                command 0, bytes 0 to 3, 80 42 00 00: read, space 0, 4-byte elements, increment, count 0, \
                address 0x0000\nit has no reply: a card does not answer what it refuses\n";
    answers(&["judge"], &refused, 1, said);
    let mut store = vec![0; 65_728];
    store[3] = 7;
    let store = filled("packets-store", &store);
    let answered = [&read[..], &lb(&[0, 0, 0, 7])].concat();
    answers(
        &["judge", "--store", &store],
        &answered,
        0,
        "yes, 1 packet\n",
    );
}

#[test]
fn what_is_no_capture() {
    let magic = [0xD4, 0xC3, 0xB2, 0xA1];
    let said = "(standard input): refused 91: no capture that is read here: \
                fewer than 24 bytes, another magic or another link type\n";
    says(&["judge"], &magic, 1, said);
    let said = "lbp16 judge: (standard input): a pcapng file, which is not read here: \
                editcap -F pcap IN OUT makes a capture of it that is\n";
    says(&["judge"], &[0x0A, 0x0D, 0x0D, 0x0A], 2, said);
}

/// A card with a table at 0: two fields of 8 bits, maximum 100.
fn card(kind: u8) -> Vec<u8> {
    let mut card = vec![0, 0, 0xFF, 0x80, 0, 0];
    card.extend([0; 8]);
    card.extend([
        6, 0, 6, 0, 0, 0, 0xA0, 8, kind, 0, 0, 0, 0, 0, 0, 0, 0xC8, 0x42, 0, 0,
    ]);
    card.extend(b"%\0LAMP\0");
    card
}

#[test]
fn readings_of_a_daughter_card() {
    answers(&["panel"], &card(2), 0, "LAMP: 100.000 %\nLAMP: 50.196 %\n");
    answers(
        &["panel"],
        &card(3),
        0,
        "LAMP: -1 (signed, width 8)\nLAMP: -128 (signed, width 8)\n",
    );
    let said = "(standard input): the table is refused with 41: entry 0 at 0x0000, record at 0x0006: there is no type 8\n";
    says(&["panel"], &card(8), 1, said);
    let said = "lbp16 panel: (standard input): no table address and three registers\n";
    says(&["panel"], b"short", 2, said);
}
