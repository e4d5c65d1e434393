//! Packets sent to the card, and what it answers and logs.

use crate::common::{file, Card, LIMIT};
use std::fs;
use std::net::UdpSocket;

const STORE_BYTES: usize = 65_728;
/// The cell of the packet count in the store.
const COUNT: usize = 65_664 + 0x0A;

/// A socket that talks to the card.
fn client(card: &Card) -> UdpSocket {
    let socket = UdpSocket::bind("127.0.0.1:0").expect("a socket");
    socket.connect(&card.address).expect("the card's address");
    socket.set_read_timeout(Some(LIMIT)).expect("a limit");
    socket
}

fn reply(socket: &UdpSocket) -> Vec<u8> {
    let mut room = [0; 2_000];
    let length = socket.recv(&mut room).expect("a reply in time");
    room[..length].to_vec()
}

#[test]
fn answers_and_logs() {
    let card = Card::start(&["--port", "0"]);
    let socket = client(&card);
    let write = [0x81, 0xC2, 0x00, 0x10, 1, 2, 3, 4];
    socket.send(&write).unwrap();
    assert_eq!(
        card.line(),
        "8 bytes, 81 C2 00 10 01 02 03 04: accepted, no reply"
    );
    socket.send(&[0x81, 0x42, 0x00, 0x10]).unwrap();
    assert_eq!(reply(&socket), [1, 2, 3, 4]);
    assert_eq!(
        card.line(),
        "4 bytes, 81 42 00 10: accepted, reply of 4 bytes, 01 02 03 04"
    );
    // A refused packet is not answered and not counted.
    socket.send(&[0x81, 0x42, 0xFC, 0xFF, 0x81, 0x02]).unwrap();
    assert_eq!(
        card.line(),
        "6 bytes, 81 42 FC FF 81 02: refused 8 at 4: \
         address not a multiple of the element size, or an element past the end of the space or info area"
    );
    socket.send(&[0x01, 0x59, 0x0A, 0x00]).unwrap();
    assert_eq!(reply(&socket), [2, 0]);
}

#[test]
fn protected_cells() {
    let words = [
        "--protect",
        "0:0x1004-4103",
        "--protect",
        "2:32-0x21",
        "--port",
        "0",
    ];
    let card = Card::start(&words);
    let socket = client(&card);
    let send = |packet: &[u8], expected: &str| {
        socket.send(packet).unwrap();
        let line = card.line();
        assert!(line.ends_with(expected), "{line}");
    };
    let refused = "refused 71 at 0: a write to a protected cell";
    send(&[0x81, 0xC2, 0x00, 0x10, 1, 2, 3, 4], "accepted, no reply");
    send(&[0x81, 0xC2, 0x04, 0x10, 1, 2, 3, 4], refused);
    // Two registers, the second of them protected.
    send(&[0x82, 0xC2, 0x00, 0x10, 5, 6, 7, 8, 1, 2, 3, 4], refused);
    // The EEPROM's cell 0x20, behind the unlock.
    let unlocked = [
        0x01, 0xD9, 0x1A, 0x00, 0x02, 0x5A, 0x81, 0xC9, 0x20, 0x00, 1, 2,
    ];
    send(&unlocked, "refused 71 at 6: a write to a protected cell");
    // Another fault behind it is named instead.
    let faulty = [&unlocked[..], &[0x80, 0x02]].concat();
    send(&faulty, "refused 7 at 12: count 0, no element is named");
    // Both are read, and as they were.
    let read = [0x82, 0x42, 0x00, 0x10, 0x81, 0x49, 0x20, 0x00];
    send(
        &read,
        "accepted, reply of 10 bytes, 01 02 03 04 00 00 00 00 00 00",
    );
    assert_eq!(reply(&socket), [1, 2, 3, 4, 0, 0, 0, 0, 0, 0]);
}

#[test]
fn no_packet_stops_it() {
    let mut card = Card::start(&["--port", "0", "--hostmot2"]);
    let socket = client(&card);
    let send = |packet: &[u8], expected: &str| {
        socket.send(packet).unwrap();
        let line = card.line();
        assert!(line.contains(expected), "{line}");
    };
    send(&[], "0 bytes: accepted, no reply");
    send(&[0x81], "1 byte, 81: refused 3 at 0: ");
    send(&[0x81; 1_473], " 81 ...: refused 2 at 0: ");
    send(&[0xFF; 60_000], " FF ...: refused 2 at 0: ");
    for length in 0..200_u8 {
        let packet: Vec<u8> = (0..length).map(|k| k.wrapping_mul(length) ^ 0xA5).collect();
        send(&packet, " byte");
    }
    assert!(card.runs());
}

#[test]
fn flash_is_answered_outside_the_library_only_if_asked() {
    let flash = [0x01, 0x4E, 0x08, 0x00];
    let card = Card::start(&["--port", "0", "--hostmot2"]);
    let socket = client(&card);
    socket.send(&flash).unwrap();
    assert_eq!(reply(&socket), [0x14, 0, 0, 0]);
    assert_eq!(
        card.line(),
        "4 bytes, 01 4E 08 00: answered outside the library with 4 bytes, 14 00 00 00"
    );
    // It wasn't counted.
    socket.send(&[0x01, 0x59, 0x0A, 0x00]).unwrap();
    assert_eq!(reply(&socket), [0, 0]);

    let card = Card::start(&["--port", "0"]);
    client(&card).send(&flash).unwrap();
    let line = card.line();
    assert!(line.starts_with("4 bytes, 01 4E 08 00: refused 5 at 0: "));
}

#[test]
fn store_from_a_file_and_back() {
    let (from, to) = (file("wire-from"), file("wire-to"));
    let mut store: Vec<u8> = (0..STORE_BYTES).map(|at| at as u8).collect();
    fs::write(&from, &store).unwrap();
    let [from, to] = [&from, &to].map(|path| path.to_str().expect("a plain name"));
    for signal in ["INT", "TERM", "HUP"] {
        let card = Card::start(&["--port", "0", "--store", from, "--save", to]);
        let socket = client(&card);
        socket.send(&[0x81, 0x42, 0x08, 0x00]).unwrap();
        assert_eq!(reply(&socket), [8, 9, 10, 11]);
        card.line();
        let lines = card.stop(signal);
        assert_eq!(lines, [format!("lbp16 serve: store written to {to}")]);
        // The packet was counted, and the unlock cell cleared.
        let mut saved = store.clone();
        saved[COUNT] += 1;
        saved[COUNT + 0x10..COUNT + 0x12].fill(0);
        assert!(fs::read(to).unwrap() == saved);
    }
    // Begun with what was saved, and saved to the same file.
    store = fs::read(to).unwrap();
    let card = Card::start(&["--port", "0", "--store", to, "--save", to]);
    assert_eq!(card.stop("TERM").len(), 1);
    assert!(fs::read(to).unwrap() == store);
}
