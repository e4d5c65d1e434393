//! The types over the plain functions: a card, its reply, guards, packets, and how refusals are told.

use head::{Card, Guard, POINTERS, Packets, Refusal, Reply, STORE_BYTES};
use std::error::Error;

/// Write 0x12345678 to register 0x1000, and read it.
const WRITE_AND_READ: [u8; 12] = [
    0x81, 0xC2, 0x00, 0x10, 0x78, 0x56, 0x34, 0x12, 0x81, 0x42, 0x00, 0x10,
];

#[test]
fn card_does_what_the_plain_functions_do() {
    let (mut card, mut reply) = (Card::new(), Reply::new());
    let (mut store, mut pointers) = (vec![0; STORE_BYTES], [0; POINTERS]);
    let mut room = [0; head::PACKET_BYTES];
    let packets: [&[u8]; 4] = [
        &WRITE_AND_READ,
        &[0x82, 0x02],
        &[0x80, 0x02],
        &[0x81, 0x42, 0xFC, 0xFF, 0x81, 0x02],
    ];
    for packet in packets {
        assert_eq!(card.check(packet), head::check(packet, &store, &pointers));
        assert_eq!(card.why(packet), head::why(packet, &store, &pointers));
        let plain = head::run(packet, &mut store, &mut pointers, &mut room);
        match plain {
            Ok(ran) => assert_eq!(card.run(packet, &mut reply), Ok(&room[..ran.length])),
            Err(refusal) => assert_eq!(card.run(packet, &mut reply), Err(refusal)),
        }
        assert_eq!(reply.elements(), plain.map_or(0, |ran| ran.elements));
        assert_eq!(
            (&card.store()[..], card.pointers()),
            (&store[..], &pointers)
        );
    }
}

#[test]
fn refused_run_leaves_no_reply() {
    let (mut card, mut reply) = (Card::new(), Reply::new());
    assert_eq!(
        card.run(&WRITE_AND_READ, &mut reply),
        Ok(&[0x78, 0x56, 0x34, 0x12][..])
    );
    let before = card.clone();
    assert!(card.run(&[0x80, 0x02], &mut reply).is_err());
    assert_eq!((reply.bytes(), reply.elements()), (&[][..], 0));
    assert_eq!(card, before);
}

#[test]
fn card_of_parts() {
    let (store, pointers) = Card::new().into_parts();
    // Each pointer may equal its space's size, or 16 for an info area.
    let most = [65_536, 128, 32, 32, 16, 16, 16, 16];
    assert_eq!(
        Card::from_parts(store.clone(), most).unwrap().pointers(),
        &most
    );
    for k in 0..POINTERS {
        let mut above = pointers;
        above[k] = most[k] + 1;
        let refusal = Card::from_parts(store.clone(), above).unwrap_err();
        assert_eq!(
            refusal,
            Refusal {
                number: 1,
                place: 0
            }
        );
    }
}

#[test]
fn bursts() {
    let mut card = Card::new();
    assert_eq!(card.spi(&[0x1000_B830, 1, 2, 3]), Ok(vec![0; 4]));
    assert_eq!(card.spi(&[0x1000_A830, 0, 0]), Ok(vec![0, 1, 2]));
    assert_eq!(card.spi(&[]).unwrap_err().number, 31);
}

#[test]
fn guarded_card() {
    let guard = Guard::new([0x1000..0x1004, 0x2000..0x2000]).unwrap();
    assert_eq!(guard.numbers(), [0x1000, 4, 0x2000, 0]);
    let (mut card, mut reply) = (Card::new(), Reply::new());
    let protected = |place| Refusal { number: 71, place };
    assert_eq!(
        card.guarded_check(&WRITE_AND_READ, &guard),
        Err(protected(0))
    );
    assert_eq!(
        card.guarded_run(&WRITE_AND_READ, &guard, &mut reply),
        Err(protected(0))
    );
    assert_eq!(
        card.guarded_spi(&[0x1000_B810, 1], &guard),
        Err(protected(0))
    );
    assert_eq!(card, Card::new());
    assert_eq!(
        card.guarded_run(&WRITE_AND_READ[8..], &guard, &mut reply),
        Ok(&[0; 4][..])
    );
    assert_eq!(card.guarded_spi(&[0x1000_A810, 1], &guard), Ok(vec![0, 0]));
}

#[test]
fn guard_that_is_not_sound() {
    let refused = |place| Err(Refusal { number: 70, place });
    assert_eq!(Guard::new([0..4, 65_674..65_676]), refused(1));
    assert_eq!(Guard::new([0..u32::MAX]), refused(0));
    assert_eq!(Guard::new(vec![0..0; 65]), refused(64));
    // A range that ends before it begins has no bytes.
    let backwards = std::ops::Range { start: 8, end: 4 };
    assert_eq!(Guard::new([backwards]).unwrap().numbers(), [8, 0]);
}

#[test]
fn packets_of_a_list() {
    let list: Vec<u8> = (0..369_u16)
        .flat_map(|k| [b"RD\0\0", &(4 * k).to_le_bytes()[..]].concat())
        .collect();
    let packets = Packets::compile(&list).unwrap();
    let first = [0xFF, 0x42, 0, 0, 0xFF, 0x42, 0xFC, 1, 0xF2, 0x42, 0xF8, 3];
    let expected: [&[u8]; 2] = [&first, &[0x81, 0x42, 0xC0, 5]];
    assert_eq!(packets.iter().collect::<Vec<_>>(), expected);
    assert_eq!(packets.len(), 2);
    assert!(Packets::tighten(&list).unwrap().output().len() <= packets.output().len());
    assert_eq!(
        Packets::compile(b"RD"),
        Err(Refusal {
            number: 22,
            place: 0
        })
    );
    assert_eq!(Packets::compile(b"").unwrap().iter().next(), None);
}

#[test]
fn recording_judged_by_a_card() {
    let mut card = Card::new();
    let recording = [
        b"LB\x0C\0",
        &WRITE_AND_READ[..],
        b"LB\x04\0\x78\x56\x34\x12",
    ]
    .concat();
    assert_eq!(card.judge(&recording), head::Verdict::Yes(1));
    assert_eq!(card.store()[0x1000..0x1004], [0x78, 0x56, 0x34, 0x12]);
    assert_eq!(card.judge(&recording[..20]), head::Verdict::Cut(1));
}

#[test]
fn refusals_are_errors_with_the_library_s_sentence() {
    let refusal = Card::new()
        .check(&[0x82, 0xC9, 0x20, 0, 0x20, 0, 0xA8, 0xC0])
        .unwrap_err();
    let error: Box<dyn Error + Send + Sync> = refusal.into();
    assert_eq!(error.to_string(), "refused 10 at 0");
    let sentence = "a write to space 2 while the unlock is closed";
    assert_eq!(format!("{error:#}"), format!("refused 10 at 0: {sentence}"));
    assert_eq!(refusal.sentence(), sentence);
    // The twelve of packets and the two of guards, as any other.
    for number in 1..=100 {
        let refusal = Refusal { number, place: 3 };
        assert_eq!(
            format!("{refusal:#}"),
            format!("refused {number} at 3: {}", head::sentence(number))
        );
    }
    let dependent = head::independent(b"?", b"").unwrap_err();
    assert_eq!(dependent.to_string(), "the first list: refused 22 at 0");
    assert_eq!(dependent.source().unwrap().to_string(), "refused 22 at 0");
}

/// Calls on different memory may run at the same time, and a card may go to another thread.
#[test]
fn cards_on_threads() {
    std::thread::scope(|scope| {
        for value in 0..4_u8 {
            scope.spawn(move || {
                let (mut card, mut reply) = (Card::new(), Reply::new());
                for _ in 0..100 {
                    let packet = [0x81, 0xC2, 0, 0, value, 0, 0, 0, 0x81, 0x42, 0, 0];
                    assert_eq!(card.run(&packet, &mut reply), Ok(&[value, 0, 0, 0][..]));
                }
                assert_eq!(card.store()[65_674], 100);
            });
        }
    });
}
