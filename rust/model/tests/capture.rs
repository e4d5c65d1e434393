//! Captures, by the format's pages: pcap, its link types, IPv4 and UDP.

use model::capture::{capture, Captured};
use model::Refusal;

type Host = ([u8; 4], u16);

const CARD: Host = ([10, 0, 0, 2], 27_181);
const HOST: Host = ([10, 0, 0, 1], 40_000);

const MICROSECONDS: u32 = 0xA1B2_C3D4;
const NANOSECONDS: u32 = 0xA1B2_3C4D;
/// The link type of plain IP packets.
const RAW: u32 = 101;
const ETHERNET: u32 = 1;

/// An IPv4 packet with a UDP datagram, without checksums.
fn datagram(from: Host, to: Host, contents: &[u8]) -> Vec<u8> {
    let length = 8 + contents.len() as u16;
    let mut packet = vec![0x45, 0];
    packet.extend((20 + length).to_be_bytes());
    packet.extend([0x12, 0x34, 0x40, 0, 64, 17, 0, 0]);
    packet.extend(from.0);
    packet.extend(to.0);
    packet.extend(from.1.to_be_bytes());
    packet.extend(to.1.to_be_bytes());
    packet.extend(length.to_be_bytes());
    packet.extend([0, 0]);
    packet.extend(contents);
    packet
}

fn request(contents: &[u8]) -> Vec<u8> {
    datagram(HOST, CARD, contents)
}

fn reply(contents: &[u8]) -> Vec<u8> {
    datagram(CARD, HOST, contents)
}

/// A capture with low bytes first and microseconds.
fn captured(link: u32, frames: &[Vec<u8>]) -> Vec<u8> {
    captured_in(u32::to_le_bytes, MICROSECONDS, link, frames)
}

fn captured_in(order: fn(u32) -> [u8; 4], magic: u32, link: u32, frames: &[Vec<u8>]) -> Vec<u8> {
    let mut bytes = order(magic).to_vec();
    // Version, zone, accuracy and snap length.
    bytes.extend([2, 0, 4, 0, 0, 0, 0, 0, 0, 0, 0, 0, 0, 0, 4, 0]);
    bytes.extend(order(link));
    for frame in frames {
        bytes.extend([1, 2, 3, 4, 5, 6, 7, 8]);
        bytes.extend(order(frame.len() as u32));
        bytes.extend(order(frame.len() as u32));
        bytes.extend(frame);
    }
    bytes
}

/// Packets and replies in turn, and the packets' frames.
type Read = (Vec<Vec<u8>>, Vec<u32>);

fn read(bytes: &[u8]) -> Result<Read, Refusal> {
    let mut out = vec![0xEE; bytes.len() + 3];
    let mut frames = vec![0xEEEE_EEEE; bytes.len()];
    let Captured { bytes, packets } = capture(bytes, &mut out, &mut frames)?;
    assert!(out[bytes..].iter().all(|&byte| byte == 0xEE));
    assert!(frames[packets..].iter().all(|&frame| frame == 0xEEEE_EEEE));
    frames.truncate(packets);
    let (mut parts, mut rest) = (Vec::new(), &out[..bytes]);
    while let [b'L', b'B', low, high, behind @ ..] = rest {
        let (part, behind) = behind.split_at(u16::from_le_bytes([*low, *high]).into());
        parts.push(part.to_vec());
        rest = behind;
    }
    assert!(rest.is_empty() && parts.len() == 2 * packets);
    Ok((parts, frames))
}

fn read_raw(frames: &[Vec<u8>]) -> Result<Read, Refusal> {
    read(&captured(RAW, frames))
}

fn gives(parts: &[&[u8]], frames: &[u32]) -> Result<Read, Refusal> {
    let parts = parts.iter().map(|part| part.to_vec()).collect();
    Ok((parts, frames.to_vec()))
}

fn refused(number: u32, place: u64) -> Result<Read, Refusal> {
    Err(Refusal { number, place })
}

#[test]
fn both_orders_and_both_magics() {
    let frames = [request(b"abc"), reply(b"d"), request(b""), reply(b"ef")];
    for order in [u32::to_le_bytes, u32::to_be_bytes] {
        for magic in [MICROSECONDS, NANOSECONDS] {
            let bytes = captured_in(order, magic, RAW, &frames);
            assert_eq!(read(&bytes), gives(&[b"abc", b"d", b"", b"ef"], &[1, 3]));
        }
    }
}

#[test]
fn the_recordings_bytes() {
    let bytes = captured(
        RAW,
        &[request(b"\x81\x42\x00\x10"), reply(b"\x01\x02\x03\x04")],
    );
    let mut out = [0; 16];
    let read = capture(&bytes, &mut out, &mut [0]);
    assert_eq!(read.map(|read| (read.bytes, read.packets)), Ok((16, 1)));
    assert_eq!(
        out,
        *b"LB\x04\x00\x81\x42\x00\x10LB\x04\x00\x01\x02\x03\x04"
    );
}

#[test]
fn each_link_type() {
    let ethernet = [[0xAA; 12].as_slice(), &[0x08, 0x00]].concat();
    let tagged = [[0xAA; 12].as_slice(), &[0x81, 0x00, 0x20, 0x05, 0x08, 0x00]].concat();
    let cooked = [[0xAA; 14].as_slice(), &[0x08, 0x00]].concat();
    let cooked2 = [[0x08, 0x00].as_slice(), &[0xAA; 18]].concat();
    let links: [(u32, &[u8]); 8] = [
        (0, &[2, 0, 0, 0]),
        (1, &ethernet),
        (1, &tagged),
        (12, &[]),
        (101, &[]),
        (228, &[]),
        (113, &cooked),
        (276, &cooked2),
    ];
    for (link, header) in links {
        let frames = [request(b"ab"), reply(b"c")].map(|packet| [header, &packet].concat());
        assert_eq!(read(&captured(link, &frames)), gives(&[b"ab", b"c"], &[1]));
        // A length of a checksum and whatever else stands in the upper half.
        for upper in [0x2000_0000, 0xFFFF_0000] {
            let bytes = captured(link | upper, &frames);
            assert_eq!(read(&bytes), gives(&[b"ab", b"c"], &[1]));
        }
    }
}

#[test]
fn a_family_in_the_files_order() {
    let low = [vec![2, 0, 0, 0], request(b"a")].concat();
    let high = [vec![0, 0, 0, 2], request(b"b")].concat();
    let frames = [low, high];
    let bytes = captured_in(u32::to_le_bytes, MICROSECONDS, 0, &frames);
    assert_eq!(read(&bytes), gives(&[b"a", b""], &[1]));
    let bytes = captured_in(u32::to_be_bytes, MICROSECONDS, 0, &frames);
    assert_eq!(read(&bytes), gives(&[b"b", b""], &[2]));
}

#[test]
fn what_plays_no_part() {
    let mut packet = request(b"ab");
    // Service, id, time to live and both checksums.
    for at in [1, 4, 5, 8, 10, 11, 26, 27] {
        packet[at] = 0xA5;
    }
    // The first two flags.
    packet[6] = 0xC0;
    let mut bytes = captured(RAW, &[packet]);
    // Version, zone, accuracy, snap length, time and the frame's own length.
    bytes[4..20].fill(0xA5);
    bytes[24..32].fill(0xA5);
    bytes[36..40].fill(0xA5);
    assert_eq!(read(&bytes), gives(&[b"ab", b""], &[1]));
}

#[test]
fn not_read_here() {
    let whole = captured(RAW, &[request(b"a")]);
    for end in 0..24 {
        assert_eq!(read(&whole[..end]), refused(91, 0));
    }
    for magic in [0x0A0D_0D0A, 0xA1B2_CD34, 0xA1B2_C3D5, 0xD4C3_B2A0, 0] {
        let bytes = captured_in(u32::to_le_bytes, magic, RAW, &[]);
        assert_eq!(read(&bytes), refused(91, 0));
    }
    for link in [
        2, 10, 11, 13, 102, 105, 112, 114, 127, 227, 229, 275, 277, 0x6500,
    ] {
        assert_eq!(read(&captured(link, &[])), refused(91, 0));
    }
}

#[test]
fn no_request_at_all() {
    assert_eq!(read_raw(&[]), gives(&[], &[]));
    let others = datagram(HOST, ([10, 0, 0, 3], 53), b"?");
    assert_eq!(read_raw(&[others, reply(b"d")]), gives(&[], &[]));
    assert!(capture(&captured(RAW, &[]), &mut [], &mut []).is_ok());
}

/// A frame put before the first request, between it and its reply, and at the end is passed over.
fn passed_over(link: u32, header: &[u8], frame: &[u8]) {
    let request = [header, &request(b"ab")].concat();
    let reply = [header, &reply(b"c")].concat();
    let noise = || frame.to_vec();
    let frames = [noise(), request, noise(), noise(), reply, noise()];
    let read = read(&captured(link, &frames));
    assert_eq!(read, gives(&[b"ab", b"c"], &[2]), "{frame:02X?}");
}

/// The same of a plain packet.
fn packet_passed_over(packet: &[u8]) {
    passed_over(RAW, &[], packet);
}

#[test]
fn ports_that_cannot_be_seen() {
    for whole in [request(b"xyz"), reply(b"xyz")] {
        let with = |at: usize, value: u8| {
            let mut packet = whole.clone();
            packet[at] = value;
            packet
        };
        // The IP header, or the ports behind it, not wholly captured.
        for end in 0..24 {
            packet_passed_over(&whole[..end]);
        }
        // One with options of which a word is missing.
        packet_passed_over(&with(0, 0x4F)[..31]);
        packet_passed_over(&with(0, 0x46)[..27]);
        for version in [0, 3, 5, 6, 15] {
            packet_passed_over(&with(0, version << 4 | 5));
        }
        for words in 0..5 {
            packet_passed_over(&with(0, 0x40 | words));
        }
        // A later fragment, the last one or with more behind it.
        packet_passed_over(&with(7, 1));
        packet_passed_over(&with(6, 0x21));
        packet_passed_over(&with(6, 0x10));
        for protocol in [0, 1, 6, 16, 18, 136] {
            packet_passed_over(&with(9, protocol));
        }
    }
}

#[test]
fn link_headers_that_say_otherwise() {
    let packet = request(b"xyz");
    let ethernet = [[0xAA; 12].as_slice(), &[0x08, 0x00]].concat();
    let cooked = [[0xAA; 14].as_slice(), &[0x08, 0x00]].concat();
    let cooked2 = [[0x08, 0x00].as_slice(), &[0xAA; 18]].concat();
    let tag = [0x81, 0x00, 0x00, 0x05];
    let tagged = |tags: &[u8], kind: [u8; 2]| [&[0xAA; 12], tags, &kind[..], &packet].concat();
    for kind in [[0x08, 0x06], [0x86, 0xDD], [0x08, 0x01], [0x00, 0x08]] {
        passed_over(ETHERNET, &ethernet, &tagged(&[], kind));
        passed_over(ETHERNET, &ethernet, &tagged(&tag, kind));
        let other = [&[0xAA; 14], &kind[..], &packet].concat();
        passed_over(113, &cooked, &other);
        let other = [&kind[..], &[0xAA; 18], &packet].concat();
        passed_over(276, &cooked2, &other);
    }
    // Two tags, and one of another kind.
    passed_over(ETHERNET, &ethernet, &tagged(&tag.repeat(2), [0x08, 0x00]));
    let other = [0x88, 0xA8, 0x00, 0x05];
    passed_over(ETHERNET, &ethernet, &tagged(&other, [0x08, 0x00]));
    for family in [0, 1, 3, 10, 24, 28, 30] {
        passed_over(
            0,
            &[2, 0, 0, 0],
            &[&[family, 0, 0, 0], &packet[..]].concat(),
        );
    }
    passed_over(0, &[2, 0, 0, 0], &[&[2, 1, 0, 0], &packet[..]].concat());
}

#[test]
fn link_headers_not_wholly_captured() {
    let ethernet = [[0xAA; 12].as_slice(), &[0x08, 0x00]].concat();
    let tagged = [[0xAA; 12].as_slice(), &[0x81, 0x00, 0x20, 0x05, 0x08, 0x00]].concat();
    let cooked = [[0xAA; 14].as_slice(), &[0x08, 0x00]].concat();
    let cooked2 = [[0x08, 0x00].as_slice(), &[0xAA; 18]].concat();
    let links: [(u32, &[u8]); 5] = [
        (0, &[2, 0, 0, 0]),
        (1, &ethernet),
        (1, &tagged),
        (113, &cooked),
        (276, &cooked2),
    ];
    for (link, header) in links {
        for end in 0..=header.len() {
            passed_over(link, header, &header[..end]);
        }
    }
}

#[test]
fn datagrams_of_others() {
    let other_card = ([10, 0, 0, 3], 27_181);
    let other_port = (CARD.0, 27_180);
    for (from, to) in [
        (HOST, other_card),
        (other_card, HOST),
        (HOST, other_port),
        (other_port, HOST),
        (HOST, ([10, 0, 0, 3], 40_000)),
    ] {
        let noise = || datagram(from, to, b"xyz");
        let frames = [request(b"ab"), noise(), reply(b"c"), noise()];
        assert_eq!(read_raw(&frames), gives(&[b"ab", b"c"], &[1]));
        // One that is not whole is no fault of the card's.
        let mut cut = noise();
        cut.truncate(25);
        let frames = [request(b"ab"), cut, reply(b"c")];
        assert_eq!(read_raw(&frames), gives(&[b"ab", b"c"], &[1]));
    }
}

#[test]
fn the_card_of_the_first_request() {
    let other = ([10, 0, 0, 3], 27_181);
    let frames = [
        reply(b"early"),
        datagram(HOST, other, b"ab"),
        request(b"x"),
        reply(b"y"),
        datagram(other, HOST, b"c"),
    ];
    assert_eq!(read_raw(&frames), gives(&[b"ab", b"c"], &[2]));
}

#[test]
fn several_hosts() {
    let second = ([10, 0, 0, 9], 50_000);
    let frames = [
        datagram(second, CARD, b"a"),
        datagram(CARD, HOST, b"b"),
        // At the card's own address, as on loopback.
        datagram((CARD.0, 1), CARD, b"c"),
        datagram(CARD, (CARD.0, 1), b"d"),
        // From one card to another: a reply, to whomever.
        request(b"e"),
        datagram(CARD, ([10, 0, 0, 3], 27_181), b"f"),
        // From the card to itself: a request.
        datagram(CARD, CARD, b"g"),
        datagram(CARD, HOST, b"h"),
    ];
    let parts: [&[u8]; 8] = [b"a", b"b", b"c", b"d", b"e", b"f", b"g", b"h"];
    assert_eq!(read_raw(&frames), gives(&parts, &[1, 3, 5, 7]));
}

#[test]
fn requests_without_a_reply() {
    let frames = [request(b"a"), request(b"b"), reply(b"c"), request(b"d")];
    let parts: [&[u8]; 6] = [b"a", b"", b"b", b"c", b"d", b""];
    assert_eq!(read_raw(&frames), gives(&parts, &[1, 2, 4]));
}

#[test]
fn a_late_reply_is_that_of_the_request_before_it() {
    let frames = [request(b"a"), request(b"b"), reply(b"to a")];
    assert_eq!(
        read_raw(&frames),
        gives(&[b"a", b"", b"b", b"to a"], &[1, 2])
    );
    let frames = [request(b"a"), request(b"b"), reply(b"to a"), reply(b"to b")];
    assert_eq!(read_raw(&frames), refused(94, 4));
}

#[test]
fn a_second_reply() {
    let frames = [request(b"a"), reply(b"b"), reply(b"b"), request(b"c")];
    assert_eq!(read_raw(&frames), refused(94, 3));
    // One of no bytes is a reply.
    let frames = [request(b"a"), reply(b""), reply(b"b")];
    assert_eq!(read_raw(&frames), refused(94, 3));
}

#[test]
fn a_reply_before_any_request_is_passed_over() {
    // The card is not known yet: frames before the first request are passed over, whatever they are.
    let mut cut = reply(b"bc");
    cut.pop();
    let frames = [reply(b"x"), reply(b"y"), cut, request(b"a"), reply(b"b")];
    assert_eq!(read_raw(&frames), gives(&[b"a", b"b"], &[4]));
}

#[test]
fn lengths_as_they_are() {
    for bytes in [0, 1, 1_472, 1_473, 65_507] {
        let long = vec![7; bytes];
        let frames = [request(&long), reply(&long)];
        assert_eq!(read_raw(&frames), gives(&[&long, &long], &[1]));
    }
}

#[test]
fn options_and_padding() {
    let mut packet = request(b"ab");
    packet[0] = 0x4F;
    packet[3] += 40;
    packet.splice(20..20, [0xAA; 40]);
    packet.extend([0xBB; 9]);
    let mut answer = reply(b"c");
    answer.push(0xBB);
    let ethernet = [[0xAA; 12].as_slice(), &[0x08, 0x00]].concat();
    let frames = [packet, answer].map(|packet| [&ethernet[..], &packet].concat());
    assert_eq!(
        read(&captured(ETHERNET, &frames)),
        gives(&[b"ab", b"c"], &[1])
    );
}

#[test]
fn cut_at_every_byte() {
    let frames = [request(b"ab"), reply(b"c"), request(b"d")];
    let whole = captured(RAW, &frames);
    let ends = [24, 24 + 46, 24 + 46 + 45, 24 + 46 + 45 + 45];
    assert_eq!(whole.len(), ends[3]);
    for end in 24..=whole.len() {
        let before = ends.iter().rposition(|&start| start <= end).unwrap();
        let expected = match (end == ends[before], before) {
            (false, frame) => refused(92, frame as u64 + 1),
            (true, 0) => gives(&[], &[]),
            (true, 1) => gives(&[b"ab", b""], &[1]),
            (true, 2) => gives(&[b"ab", b"c"], &[1]),
            _ => gives(&[b"ab", b"c", b"d", b""], &[1, 3]),
        };
        assert_eq!(read(&whole[..end]), expected);
    }
}

#[test]
fn more_captured_than_there_is() {
    let mut whole = captured(RAW, &[request(b"ab")]);
    for length in [31_u32, 0x8000_0000, u32::MAX] {
        whole[32..36].copy_from_slice(&length.to_le_bytes());
        assert_eq!(read(&whole), refused(92, 1));
    }
    // A byte less, and the last one is no frame's header.
    whole[32..36].copy_from_slice(&29_u32.to_le_bytes());
    assert_eq!(read(&whole), refused(93, 1));
    whole[32..36].copy_from_slice(&0_u32.to_le_bytes());
    assert_eq!(read(&whole[..40]), gives(&[], &[]));
}

#[test]
fn datagrams_that_are_not_whole() {
    let not_whole = |packet: Vec<u8>, answer: Vec<u8>| {
        assert_eq!(read_raw(&[packet]), refused(93, 1));
        assert_eq!(read_raw(&[request(b"x"), answer]), refused(93, 2));
    };
    let changed = |change: &dyn Fn(&mut Vec<u8>)| {
        let [mut packet, mut answer] = [request(b"abcd"), reply(b"abcd")];
        change(&mut packet);
        change(&mut answer);
        not_whole(packet, answer);
    };
    // More fragments follow.
    changed(&|packet| packet[6] = 0x20);
    // Below 8, also where the IP packet says so too.
    for length in 0..8 {
        changed(&|packet| packet[25] = length);
        changed(&|packet| {
            packet[25] = length;
            packet[3] = 20 + length;
        });
    }
    // Not the IP packet's length less its header.
    changed(&|packet| packet[25] -= 1);
    changed(&|packet| packet[25] += 1);
    changed(&|packet| packet[24] = 1);
    changed(&|packet| packet[3] -= 1);
    changed(&|packet| packet[3] += 1);
    changed(&|packet| packet[2] = 1);
    // An IP packet shorter than its header, by as much as sixteen bits can be short.
    changed(&|packet| {
        packet[2..4].copy_from_slice(&4_u16.to_be_bytes());
        packet[24..26].copy_from_slice(&4_u16.wrapping_sub(20).to_be_bytes());
    });
    // Bytes of it not captured.
    for end in 24..32 {
        changed(&|packet| packet.truncate(end));
    }
    let bytes = captured(RAW, &[request(b"abcd"), reply(b"")[..27].to_vec()]);
    assert_eq!(read(&bytes), refused(93, 2));
}

#[test]
fn the_first_request_not_whole() {
    let mut packet = request(b"abcd");
    packet.pop();
    assert_eq!(
        read_raw(&[reply(b"x"), packet, reply(b"y")]),
        refused(93, 2)
    );
}

#[test]
fn the_earliest_frame_and_there_the_lowest_number() {
    let mut second = reply(b"cd");
    second.pop();
    // A second reply that isn't whole.
    let frames = [request(b"a"), reply(b"b"), second.clone()];
    assert_eq!(read_raw(&frames), refused(93, 3));
    let frames = [request(b"a"), reply(b"b"), reply(b"b"), second];
    assert_eq!(read_raw(&frames), refused(94, 3));
    // One that is cut is not read.
    let mut bytes = captured(RAW, &[request(b"a"), reply(b"b"), reply(b"b")]);
    bytes.pop();
    assert_eq!(read(&bytes), refused(92, 3));
}

#[test]
fn rooms_in_their_order() {
    let bytes = captured(RAW, &[request(b"ab"), reply(b"c"), request(b"d")]);
    let refusal = |room: usize, frame_room: usize| {
        let (mut out, mut frames) = (vec![0xEE; room], vec![7; frame_room]);
        let refusal = capture(&bytes, &mut out, &mut frames).unwrap_err();
        assert!(out.iter().all(|&byte| byte == 0xEE));
        assert!(frames.iter().all(|&frame| frame == 7));
        (refusal.number, refusal.place)
    };
    assert_eq!(refusal(0, 0), (26, 20));
    assert_eq!(refusal(19, 1), (26, 20));
    assert_eq!(refusal(19, 2), (26, 20));
    assert_eq!(refusal(20, 1), (27, 2));
    assert_eq!(refusal(99, 0), (27, 2));
    let read = capture(&bytes, &mut [0; 20], &mut [0; 2]).unwrap();
    assert_eq!((read.bytes, read.packets), (20, 2));
    // A fault of the capture's comes first.
    let read = capture(&bytes[..bytes.len() - 1], &mut [], &mut []);
    assert_eq!(
        read,
        Err(Refusal {
            number: 92,
            place: 3
        })
    );
}

#[test]
fn mesaflash_on_the_card_on_the_wire() {
    const FLASH_ID: &[u8] = &[0x01, 0x4E, 0x08, 0x00];
    let whole = include_bytes!("../../../tests/captures/mesaflash-readhmid.pcap");
    let (parts, frames) = read(whole).unwrap();
    assert_eq!(frames.len(), 191);
    assert_eq!(frames[..4], [1, 3, 5, 7]);
    assert_eq!(
        parts[..2],
        [vec![0x01, 0x42, 0x00, 0x01], vec![0xFE, 0xCA, 0xAA, 0x55]]
    );
    let asked = |parts: &[Vec<u8>]| -> Vec<usize> {
        let packets = parts.iter().step_by(2).enumerate();
        packets
            .filter(|(_, packet)| *packet == FLASH_ID)
            .map(|(at, _)| at)
            .collect()
    };
    let at = asked(&parts);
    assert_eq!(
        at.iter().map(|&at| frames[at]).collect::<Vec<_>>(),
        [5, 371, 378]
    );
    let silent = parts
        .iter()
        .skip(1)
        .step_by(2)
        .position(|reply| reply.is_empty());
    assert_eq!(silent.map(|at| frames[at]), Some(373));

    let less = include_bytes!("../../../tests/captures/mesaflash-188.pcap");
    let (left, frames) = read(less).unwrap();
    assert_eq!(frames.len(), 188);
    let mut expected = parts;
    for at in at.iter().rev() {
        expected.drain(2 * at..2 * at + 2);
    }
    assert_eq!(left, expected);
}
