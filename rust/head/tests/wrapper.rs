//! Some of the documents' examples through the wrapper.

use head::{PACKET_BYTES, POINTERS, Ran, Refusal, STORE_BYTES};

fn ran(length: usize, elements: u64) -> Result<Ran, Refusal> {
    Ok(Ran { length, elements })
}

#[test]
fn refused_packet_changes_nothing() {
    let mut store = vec![0xEE; STORE_BYTES];
    let mut pointers = [0; POINTERS];
    let mut reply = [0xEE; PACKET_BYTES];
    let packet = [0x81, 0x42, 0xFC, 0xFF, 0x81, 0x02];
    let refused = Err(Refusal {
        number: 8,
        place: 4,
    });
    assert_eq!(head::check(&packet, &store, &pointers), refused);
    let answer = head::run(&packet, &mut store, &mut pointers, &mut reply);
    assert_eq!(answer.map(|ran| ran.length), refused);
    assert!(store.iter().all(|&byte| byte == 0xEE));
    assert_eq!(pointers, [0; POINTERS]);
    assert_eq!(reply, [0xEE; PACKET_BYTES]);
}

#[test]
fn pointers_carry_on() {
    let mut store: Vec<u8> = (0..STORE_BYTES).map(|at| at as u8).collect();
    let mut pointers = [0; POINTERS];
    let mut reply = [0xEE; PACKET_BYTES];
    for first in [0, 4] {
        assert_eq!(head::check(&[0x81, 0x02], &store, &pointers), Ok(4));
        let answer = head::run(&[0x81, 0x02], &mut store, &mut pointers, &mut reply);
        assert_eq!(answer, ran(4, 1));
        assert_eq!(reply[..5], [first, first + 1, first + 2, first + 3, 0xEE]);
    }
    assert_eq!(pointers, [8, 0, 0, 0, 0, 0, 0, 0]);
}

#[test]
fn check_changes_nothing() {
    let store = vec![0xEE; STORE_BYTES];
    let pointers = [0xFFFC, 0, 0, 0, 16, 0, 0, 0];
    // An unlock, an EEPROM write and a read of two elements.
    let packet = [
        0x01, 0xD9, 0x1A, 0x00, 0x02, 0x5A, 0x81, 0xC9, 0x20, 0x00, 9, 8, 0x82, 0x49, 0x20, 0x00,
    ];
    assert_eq!(head::check(&packet, &store, &pointers), Ok(4));
    assert!(store.iter().all(|&byte| byte == 0xEE));
    assert_eq!(pointers, [0xFFFC, 0, 0, 0, 16, 0, 0, 0]);
}

#[test]
fn wrong_reply_room_is_refused_by_the_run_alone() {
    let mut store = vec![0; STORE_BYTES];
    let mut pointers = [0; POINTERS];
    let mut reply = [0; PACKET_BYTES - 1];
    let packet = [0; PACKET_BYTES + 1];
    let refused = |number| Err(Refusal { number, place: 0 });
    assert_eq!(head::check(&packet, &store, &pointers), refused(2));
    let answer = head::run(&packet, &mut store, &mut pointers, &mut reply);
    assert_eq!(answer.map(|ran| ran.length), refused(1));
}

#[test]
fn accepted_packets_are_counted() {
    let mut store = vec![0xFF; STORE_BYTES];
    let mut pointers = [0; POINTERS];
    let mut reply = [0; PACKET_BYTES];
    let read = [0x01, 0x59, 0x0A, 0x00];
    for count in [0xFFFF_u16, 0, 1] {
        let answer = head::run(&read, &mut store, &mut pointers, &mut reply);
        assert_eq!(answer, ran(2, 1));
        assert_eq!(reply[..2], count.to_le_bytes());
        let refusal = head::run(&[0], &mut store, &mut pointers, &mut reply).unwrap_err();
        assert_eq!(refusal.to_string(), "refused 3 at 0");
    }
    assert_eq!(store[65_674..65_676], [2, 0]);
}

#[test]
fn most_elements() {
    let mut store = vec![0; STORE_BYTES];
    let mut pointers = [0; POINTERS];
    let mut reply = [0; PACKET_BYTES];
    // 736 reads of the EEPROM and 724 writes of the status space, all at the pointers.
    let mut packet = Vec::new();
    for count in [127, 127, 127, 127, 127, 101] {
        packet.extend([count, 0x09]);
    }
    for count in [127, 127, 127, 127, 127, 89] {
        packet.extend([count, 0x99]);
        packet.resize(packet.len() + 2 * usize::from(count), 0);
    }
    assert_eq!(packet.len(), PACKET_BYTES);
    let answer = head::run(&packet, &mut store, &mut pointers, &mut reply);
    assert_eq!(answer, ran(PACKET_BYTES, 1_460));
    // One element more is refused, and none is reported.
    packet[10] += 1;
    let answer = head::exports::run(&packet, &mut store, &mut pointers, &mut reply);
    assert_eq!(answer, (12, 10, 0));
}

#[test]
fn info_areas() {
    let mut store = vec![0xEE; STORE_BYTES];
    let mut pointers = [0; POINTERS];
    let mut reply = [0; PACKET_BYTES];
    // Reads register 4, and then the whole info area of the registers.
    let packet = [0x81, 0x42, 4, 0, 0x88, 0x61, 0, 0];
    let answer = head::run(&packet, &mut store, &mut pointers, &mut reply);
    assert_eq!(answer, ran(20, 9));
    let info = [
        0x00, 0x5A, 0x04, 0x81, 0x10, 0, 8, 0, 0, 0, 0, 0, 0, 0, 0, 0,
    ];
    assert_eq!(reply[4..20], info);
    assert_eq!(pointers, [8, 0, 0, 0, 16, 0, 0, 0]);
    let write = [0x81, 0xE1, 0, 0, 1, 2];
    let refusal = head::run(&write, &mut store, &mut pointers, &mut reply).unwrap_err();
    assert_eq!(refusal.to_string(), "refused 4 at 0");
    pointers[4] = 17;
    let refusal = head::check(&[], &store, &pointers).unwrap_err();
    assert_eq!(refusal.to_string(), "refused 1 at 0");
}

#[test]
fn four_pointers_are_refused() {
    let refusal = head::check(&[], &[0; STORE_BYTES], &[0; 4]).unwrap_err();
    assert_eq!(refusal.to_string(), "refused 1 at 0");
}

#[test]
fn burst() {
    let mut store = vec![0; STORE_BYTES];
    let mut answer = [7; 4];
    assert_eq!(
        head::spi(&[0x1000_B830, 1, 2, 3], &mut store, &mut answer),
        Ok(3)
    );
    assert_eq!(answer, [0; 4]);
    assert_eq!(
        head::spi(&[0x1000_A830, 0, 0, 0], &mut store, &mut answer),
        Ok(3)
    );
    assert_eq!(answer, [0, 1, 2, 3]);
    let refusal = head::spi(&[], &mut store, &mut []).unwrap_err();
    assert_eq!(refusal.to_string(), "refused 31 at 0");
}

#[test]
fn short_burst() {
    let mut store: Vec<u8> = (0..STORE_BYTES).map(|at| at as u8).collect();
    let mut answer = [7; 3];
    assert_eq!(
        head::spi(&[0x1000_A830, 0, 0], &mut store, &mut answer),
        Ok(2)
    );
    assert_eq!(answer, [0, 0x0302_0100, 0x0706_0504]);
    let refusal = head::spi(&[0xFFFC_B820, 1], &mut store, &mut [0; 2]).unwrap_err();
    assert_eq!(refusal.to_string(), "refused 35 at 0");
    let refusal = head::spi(&[0x1000_B810, 1, 2], &mut store, &mut answer).unwrap_err();
    assert_eq!(refusal.to_string(), "refused 34 at 0");
    assert_eq!(store[0xFFFC..0x10000], [0xFC, 0xFD, 0xFE, 0xFF]);
}

#[test]
fn headers() {
    let header = head::header(0x600C_B04F);
    assert_eq!((header.address, header.command), (0x600C, 0xB));
    assert_eq!((header.increment, header.count), (false, 4));
    assert_eq!(head::header_word(&header), Ok(0x600C_B040));
    let refused = |number| Err(Refusal { number, place: 0 });
    let other = head::Header {
        command: 0xC,
        ..header
    };
    assert_eq!(head::header_word(&other), refused(32));
    for count in [0, 128] {
        let other = head::Header { count, ..header };
        assert_eq!(head::header_word(&other), refused(33));
    }
}

#[test]
fn refused_header_keeps_its_word() {
    // The last two have a command and a count whose low bytes alone would be good.
    let refused: [(&[u32], u32); 6] = [
        (&[0, 0xA, 0], 13),
        (&[0x1_0000, 0xC, 0, 0], 13),
        (&[0, 0xA, 2, 1], 13),
        (&[0, 0xC, 0, 0], 32),
        (&[0, 0x10A, 0, 1], 32),
        (&[0, 0xA, 0, 0x101], 33),
    ];
    for (fields, number) in refused {
        let mut word = 0xEEEE_EEEE;
        let answer = head::header::exports::header_word(fields, &mut word);
        assert_eq!((answer, word), (number, 0xEEEE_EEEE));
    }
    for length in [0, 3, 5] {
        let mut fields = vec![7; length];
        assert_eq!(head::header::exports::header(0x1000_A830, &mut fields), 13);
        assert!(fields.iter().all(|&number| number == 7));
    }
}

#[test]
fn list_and_its_room() {
    let list = b"WR\x02\0\x20\0\x20\0\0\0WR\x02\0\x22\0\xA8\xC0\0\0";
    let packet = [
        0x4C, 0x42, 0x0E, 0x00, 0x01, 0xD9, 0x1A, 0x00, 0x02, 0x5A, 0x82, 0xC9, 0x20, 0x00, 0x20,
        0x00, 0xA8, 0xC0,
    ];
    let mut out = [0; 18];
    let compiled = head::compile(list, &mut out).unwrap();
    assert_eq!((compiled.bytes, compiled.packets), (18, 1));
    assert_eq!(out, packet);
    let refusal = head::compile(list, &mut out[..17]).unwrap_err();
    assert_eq!((refusal.number, refusal.place), (26, 18));
}

#[test]
fn reasons() {
    let store = vec![0; STORE_BYTES];
    let packet = [0x81, 0x42, 0xFC, 0xFF, 0x81, 0x02];
    let reason = head::why(&packet, &store, &[0; POINTERS]).unwrap();
    assert_eq!((reason.index, reason.fields), (1, head::fields(0x0281)));
    assert_eq!(
        reason.to_string(),
        "refused 8 at 4: address not a multiple of the element size, or an element past the end of the space or info area"
    );
    assert_eq!(head::why(&packet[..4], &store, &[0; POINTERS]), None);
    assert_eq!(head::why(&[], &store, &[0; POINTERS]), None);
    let reason = head::why(&packet, &store, &[0; 4]).unwrap();
    assert_eq!((reason.refusal.number, reason.index), (1, 0));
    assert_eq!(reason.fields, head::fields(0));
}

#[test]
fn reason_with_another_room_for_fields() {
    let store = vec![0; STORE_BYTES];
    for length in [0, 6, 8] {
        let mut fields = vec![0xEE; length];
        let answer = head::why::exports::why(&[0x81], &store, &[0; POINTERS], &mut fields);
        assert_eq!(answer, (13, 0, 0));
        assert!(fields.iter().all(|&byte| byte == 0xEE));
    }
}

#[test]
fn tighter_packets() {
    let list = b"RD\x06\0\x18\0".repeat(100);
    let mut out = [0xEE; 404];
    let compiled = head::compile(&list, &mut [0; 404]).unwrap();
    assert_eq!(compiled.bytes, 404);
    let planned = head::tighten(&list, &mut out).unwrap();
    assert_eq!((planned.bytes, planned.packets), (8, 1));
    assert_eq!(out[..8], [b'L', b'B', 4, 0, 100, 0x59, 0x18, 0]);
    assert!(out[8..].iter().all(|&byte| byte == 0xEE));
    assert_eq!(head::tight_check(&list, &out[..8]), Ok(1));
    // An empty packet counts.
    let with_empty = [b"LB\0\0", &out[..8]].concat();
    assert_eq!(head::tight_check(&list, &with_empty), Ok(2));
    let rejected = head::tight_check(&list[6..], &out[..8]).unwrap_err();
    assert_eq!(rejected.to_string(), "refused 50 at 0");
    let refused = head::tight_check(&list[..9], &out[..8]).unwrap_err();
    assert_eq!(refused.to_string(), "refused 22 at 1");
    // The room is measured by the packing rule's output.
    let refused = head::tighten(&list, &mut out[..403]).unwrap_err();
    assert_eq!((refused.number, refused.place), (26, 404));
}

#[test]
fn captures() {
    // Raw IPv4 with the high byte first: a request of four bytes to 10.0.0.2 and its reply of two.
    let mut file = vec![0xA1, 0xB2, 0xC3, 0xD4];
    file.resize(23, 0);
    file.push(101);
    let (host, card) = ([10, 0, 0, 1], [10, 0, 0, 2]);
    let (asking, port) = ([0x9C, 0x40], [0x6A, 0x2D]);
    for (from, to, ports, contents) in [
        (host, card, [asking, port], &[0x01, 0x42, 0, 0][..]),
        (card, host, [port, asking], &[7, 8][..]),
    ] {
        let length = contents.len() as u8;
        file.extend([0; 11]);
        file.extend([28 + length, 0, 0, 0, 28 + length]);
        file.extend([0x45, 0, 0, 28 + length, 0, 0, 0, 0, 64, 17, 0, 0]);
        file.extend([from, to].as_flattened());
        file.extend(ports.as_flattened());
        file.extend([0, 8 + length, 0, 0]);
        file.extend(contents);
    }
    let (mut out, mut frames) = ([0xEE; 15], [9; 2]);
    let captured = head::capture(&file, &mut out, &mut frames).unwrap();
    assert_eq!((captured.bytes, captured.packets), (14, 1));
    assert_eq!(out, *b"LB\x04\0\x01\x42\0\0LB\x02\0\x07\x08\xEE");
    assert_eq!(frames, [1, 9]);
    let refusal = head::capture(&file, &mut out[..13], &mut []).unwrap_err();
    assert_eq!((refusal.number, refusal.place), (26, 14));
    let refusal = head::capture(&file, &mut out, &mut []).unwrap_err();
    assert_eq!((refusal.number, refusal.place), (27, 1));
    let cut = head::capture(&file[..file.len() - 1], &mut out, &mut frames);
    assert_eq!(cut.unwrap_err().to_string(), "refused 92 at 2");
    let other = head::capture(&file[1..], &mut out, &mut frames);
    assert_eq!(other.unwrap_err().to_string(), "refused 91 at 0");
}

#[test]
fn text_and_its_list() {
    let text = b"name ip eeprom 0x20 # low half\r\n\r\nwrite ip 0x20\r\nwrite 2 34 0xc0A8";
    let list = b"WR\x02\0\x20\0\x20\0\0\0WR\x02\0\x22\0\xA8\xC0\0\0";
    let mut out = [0xEE; 21];
    let assembled = head::assemble(text, &mut out).unwrap();
    assert_eq!((assembled.bytes, assembled.records), (20, 2));
    assert_eq!(out[..20], *list);
    assert_eq!(out[20], 0xEE);
    let written = b"write eeprom 0x0020 0x0020\nwrite eeprom 0x0022 0xC0A8\n";
    let mut room = [0xEE; 55];
    let answer = head::list_text(list, &mut room).unwrap();
    assert_eq!((answer.bytes, answer.lines), (54, 2));
    assert_eq!(room[..54], *written);
    assert_eq!(room[54], 0xEE);
    assert_eq!(head::assemble(written, &mut out), Ok(assembled));
    assert_eq!(out[..20], *list);
}

#[test]
fn refused_texts() {
    let mut out = [0xEE; 10];
    let mut refused = |text: &[u8]| {
        let (number, place, records) = head::text::exports::assemble(text, &mut out);
        assert_eq!(records, 0);
        assert_eq!(out, [0xEE; 10]);
        (number, place)
    };
    assert_eq!(refused(b"\nread\n"), (head::text::FORM, 2));
    assert_eq!(refused(b"read lamp 0x10"), (head::text::NUMBER, 1));
    assert_eq!(refused(b"#\nread 0 4\nread lamp"), (head::text::NAME, 3));
    assert_eq!(refused(b"write 7 0 0"), (23, 1));
    assert_eq!(refused(b"write 6 0 65536"), (24, 1));
    assert_eq!(refused(b"read 0 4\nread 0 8\n"), (26, 12));
    let text = b"read 0 4\n".repeat(100_001);
    assert_eq!(refused(&text), (21, 100_001));
}

#[test]
fn refused_lists_as_text() {
    let mut out = [0xEE; 43];
    let mut refused = |list: &[u8]| {
        let (number, place, lines) = head::text::exports::list_text(list, &mut out);
        assert_eq!(lines, 0);
        assert_eq!(out, [0xEE; 43]);
        (number, place)
    };
    let read = b"RD\0\0\x04\0";
    assert_eq!(refused(&read.repeat(2)), (26, 44));
    assert_eq!(refused(&read[..5]), (22, 0));
    assert_eq!(refused(b"RD\0\0\x04\0RD\x01\0\x04\0"), (23, 1));
    assert_eq!(refused(b"RD\0\x01\x04\0"), (24, 0));
    assert_eq!(refused(&read.repeat(100_001)), (21, 100_000));
}

#[test]
fn guards() {
    assert_eq!(head::guard(&[]), Ok(0));
    assert_eq!(head::guard(&[0x1000, 4, 65_728, 0]), Ok(2));
    let refused = |place| Err(Refusal { number: 70, place });
    assert_eq!(head::guard(&[0x1000]), refused(0));
    assert_eq!(head::guard(&[0x1000, 4, u32::MAX, 1]), refused(1));
    assert_eq!(head::guard(&[65_675, 1]), refused(0));
    assert_eq!(head::guard(&[0, 0].repeat(65)), refused(64));
}

#[test]
fn guarded_packets() {
    let mut store = vec![0xEE; STORE_BYTES];
    let mut pointers = [0; POINTERS];
    let mut reply = [0xEE; PACKET_BYTES];
    let guard = [0x1007, 1];
    // The second register's last byte is protected.
    let packet = [0x82, 0xC2, 0x00, 0x10, 1, 2, 3, 4, 5, 6, 7, 8];
    let refused = |number, place| Err(Refusal { number, place });
    let checked = head::guarded_check(&packet, &store, &pointers, &guard);
    assert_eq!(checked, refused(71, 0));
    let answer = head::guarded_run(&packet, &mut store, &mut pointers, &mut reply, &guard);
    assert_eq!(answer.map(|ran| ran.length), refused(71, 0));
    assert!(store.iter().all(|&byte| byte == 0xEE));
    assert_eq!(pointers, [0; POINTERS]);
    // A fault of its own comes first, and 70 before all.
    let faulty = [&packet[..], &[0x80, 0x02]].concat();
    let checked = head::guarded_check(&faulty, &store, &pointers, &guard);
    assert_eq!(checked, refused(7, 12));
    let checked = head::guarded_check(&faulty, &store[1..], &pointers, &[0]);
    assert_eq!(checked, refused(70, 0));
    // One register is not protected, and the other is read.
    let packet = [0x81, 0xC2, 0x00, 0x10, 1, 2, 3, 4, 0x81, 0x02];
    assert_eq!(
        head::guarded_check(&packet, &store, &pointers, &guard),
        Ok(4)
    );
    let answer = head::guarded_run(&packet, &mut store, &mut pointers, &mut reply, &guard);
    assert_eq!(answer, ran(4, 2));
    assert_eq!(store[0x1000..0x1005], [1, 2, 3, 4, 0xEE]);
}

#[test]
fn guarded_bursts() {
    let mut store = vec![0; STORE_BYTES];
    let mut answer = [7; 2];
    let refused = |number| Err(Refusal { number, place: 0 });
    // Three registers are promised, and the word of the third did not come.
    let words = [0x1000_B830, 1];
    let burst = head::guarded_spi(&words, &mut store, &mut answer, &[0x100B, 1]);
    assert_eq!(burst, refused(71));
    assert_eq!(answer, [7; 2]);
    let burst = head::guarded_spi(&words, &mut store, &mut answer, &[0x100C, 1]);
    assert_eq!(burst, Ok(1));
    assert_eq!(store[0x1000], 1);
    let read = [0x1000_A830, 0];
    let burst = head::guarded_spi(&read, &mut store, &mut answer, &[0, 65_536]);
    assert_eq!(burst, Ok(1));
    assert_eq!(answer, [0, 1]);
    let burst = head::guarded_spi(&[], &mut store, &mut [], &[0, 65_536]);
    assert_eq!(burst, refused(31));
}

#[test]
fn guarded_lists() {
    let list = b"RD\0\0\x04\0WR\x02\0\x20\0\x01\0\0\0";
    assert_eq!(head::guarded_list(list, &[4, 4, 65_570, 2]), Ok(2));
    let refused = |number, place| Err(Refusal { number, place });
    assert_eq!(head::guarded_list(list, &[65_569, 1]), refused(71, 1));
    let cut = head::guarded_list(&list[..15], &[65_569, 1]);
    assert_eq!(cut, refused(22, 1));
    assert_eq!(head::guarded_list(b"?", &[65_690, 1]), refused(70, 0));
}
