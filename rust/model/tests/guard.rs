//! The interlock: guards, and what they refuse.

use model::area::POINTERS;
use model::guard::{burst, check, list, run, sound};
use model::packet::Ran;
use model::store::STORE_BYTES;
use model::{packet, spi, Refusal, PACKET_BYTES};

const END: u32 = STORE_BYTES as u32;
const EEPROM: u32 = 65_536;
const STATUS: u32 = 65_664;
const COUNT: u32 = STATUS + 0x0A;
const UNLOCK: u32 = STATUS + 0x1A;

/// Writes 1 to register 0x1000.
const WRITE_1000: [u8; 8] = [0x81, 0xC2, 0x00, 0x10, 1, 0, 0, 0];
/// Writes to the four registers from 0x1000 on.
const WRITE_FOUR: [u8; 4] = [0x84, 0xC2, 0x00, 0x10];
/// Opens the unlock and writes the EEPROM cells 0x20 and 0x22.
const UNLOCKED: [u8; 14] = [
    0x01, 0xD9, 0x1A, 0x00, 0x02, 0x5A, 0x82, 0xC9, 0x20, 0x00, 0x20, 0x00, 0xA8, 0xC0,
];

fn refused<T>(number: u32, place: u64) -> Result<T, Refusal> {
    Err(Refusal { number, place })
}

/// A card in a known state.
#[derive(Clone, PartialEq, Debug)]
struct Card {
    store: Vec<u8>,
    pointers: [u32; POINTERS],
    reply: Vec<u8>,
}

impl Card {
    fn new() -> Card {
        Card {
            store: (0..STORE_BYTES)
                .map(|at| (at * 7 + at / 256) as u8)
                .collect(),
            pointers: [0; POINTERS],
            reply: vec![0xEE; PACKET_BYTES],
        }
    }

    fn run(&mut self, packet: &[u8], guard: &[u32]) -> Result<Ran, Refusal> {
        run(
            packet,
            &mut self.store,
            &mut self.pointers,
            &mut self.reply,
            guard,
        )
    }

    fn plain(&mut self, packet: &[u8]) -> Result<Ran, Refusal> {
        packet::run(packet, &mut self.store, &mut self.pointers, &mut self.reply)
    }
}

/// The packet must be refused by check and run and change nothing.
fn refuses(packet: &[u8], guard: &[u32], number: u32, place: u64) {
    let mut card = Card::new();
    let checked = check(packet, &card.store, &card.pointers, guard);
    assert_eq!(checked, refused(number, place));
    assert_eq!(card.run(packet, guard), refused(number, place));
    assert!(card == Card::new(), "something was changed");
}

/// The packet must do what it does without the guard.
fn passes(packet: &[u8], guard: &[u32]) {
    let (mut card, mut plain) = (Card::new(), Card::new());
    let checked = check(packet, &card.store, &card.pointers, guard);
    assert_eq!(
        checked,
        packet::check(packet, &plain.store, &plain.pointers)
    );
    let expected = plain.plain(packet);
    assert!(expected.is_ok());
    assert_eq!(card.run(packet, guard), expected);
    assert!(card == plain, "it runs otherwise than without the guard");
}

/// A block with so many bytes of data.
fn block(head: [u8; 4], bytes: usize) -> Vec<u8> {
    head.into_iter()
        .chain((0..bytes).map(|k| k as u8))
        .collect()
}

// Soundness.

#[test]
fn sound_guards() {
    assert_eq!(sound(&[]), Ok(0));
    assert_eq!(sound(&[0, 1]), Ok(1));
    assert_eq!(sound(&[END - 1, 1]), Ok(1));
    // Adjacent, overlapping and equal ranges.
    assert_eq!(sound(&[0x1000, 4, 0x1004, 4, 0x1002, 4, 0x1000, 4]), Ok(4));
    assert_eq!(sound(&[0, EEPROM]), Ok(1));
    assert_eq!(sound(&[0, 1].repeat(64)), Ok(64));
}

#[test]
fn ranges_past_the_store() {
    assert_eq!(sound(&[END - 1, 2]), refused(70, 0));
    assert_eq!(sound(&[END, 1]), refused(70, 0));
    assert_eq!(sound(&[0, 1, 8, 4, END + 1, 0]), refused(70, 2));
    assert_eq!(sound(&[0, END + 1]), refused(70, 0));
}

#[test]
fn sums_beyond_32_bits() {
    assert_eq!(sound(&[u32::MAX, 1]), refused(70, 0));
    assert_eq!(sound(&[u32::MAX, 2]), refused(70, 0));
    assert_eq!(sound(&[8, u32::MAX - 4]), refused(70, 0));
    assert_eq!(sound(&[0x8000_0000, 0x8000_0000]), refused(70, 0));
    assert_eq!(sound(&[u32::MAX, u32::MAX]), refused(70, 0));
}

#[test]
fn empty_ranges() {
    for first in [0, 1, COUNT, COUNT + 1, UNLOCK, UNLOCK + 1, END - 1, END] {
        assert_eq!(sound(&[first, 0]), Ok(1));
    }
    assert_eq!(sound(&[END + 1, 0]), refused(70, 0));
    assert_eq!(sound(&[u32::MAX, 0]), refused(70, 0));
    passes(&WRITE_1000, &[0x1000, 0, 0x1002, 0]);
}

#[test]
fn half_pairs() {
    assert_eq!(sound(&[0]), refused(70, 0));
    assert_eq!(sound(&[0, 1, 5]), refused(70, 1));
    // An earlier fault comes first.
    assert_eq!(sound(&[END, 1, 5]), refused(70, 0));
    assert_eq!(
        sound(&[[0, 1].repeat(64), vec![0]].concat()),
        refused(70, 64)
    );
}

#[test]
fn the_65th_pair() {
    assert_eq!(sound(&[0, 1].repeat(65)), refused(70, 64));
    assert_eq!(sound(&[0, 0].repeat(100)), refused(70, 64));
    let late = [[0, 1].repeat(63), vec![UNLOCK, 1], vec![0, 1]].concat();
    assert_eq!(sound(&late), refused(70, 63));
}

#[test]
fn the_cards_own_cells() {
    for cell in [COUNT, UNLOCK] {
        assert_eq!(sound(&[cell, 1]), refused(70, 0));
        assert_eq!(sound(&[cell + 1, 1]), refused(70, 0));
        assert_eq!(sound(&[cell - 1, 2]), refused(70, 0));
        assert_eq!(sound(&[cell - 1, 4]), refused(70, 0));
        // Up to the cell, and from behind it on.
        assert_eq!(sound(&[cell - 8, 8]), Ok(1));
        assert_eq!(sound(&[cell + 2, 4]), Ok(1));
    }
    assert_eq!(sound(&[0, END]), refused(70, 0));
    assert_eq!(sound(&[COUNT + 2, UNLOCK - COUNT - 2]), Ok(1));
    assert_eq!(sound(&[UNLOCK + 2, END - UNLOCK - 2]), Ok(1));
}

#[test]
fn seventy_comes_before_all_else() {
    let bad = [END, 1];
    let mut card = Card::new();
    assert_eq!(card.run(&[0x80, 0x02], &bad), refused(70, 0));
    assert_eq!(
        check(&[0; 1_473], &card.store, &card.pointers, &bad),
        refused(70, 0)
    );
    assert_eq!(check(&[], &[], &[], &bad), refused(70, 0));
    let (store, pointers) = (&mut card.store, &mut card.pointers);
    assert_eq!(run(&[], store, pointers, &mut [], &bad), refused(70, 0));
    assert_eq!(burst(&[], &mut [], &mut [0], &[0, 1, 0]), refused(70, 1));
    assert_eq!(list(b"??", &[0, 1, 0]), refused(70, 1));
}

// Packets.

#[test]
fn each_byte_of_a_cell() {
    for byte in 0x1000..0x1004 {
        refuses(&WRITE_1000, &[byte, 1], 71, 0);
    }
    passes(&WRITE_1000, &[0x0FFF, 1]);
    passes(&WRITE_1000, &[0x1004, 1]);
    passes(&WRITE_1000, &[0x0F00, 0x100, 0x1004, 0x100]);
    passes(&WRITE_1000, &[]);
}

#[test]
fn both_ends_of_the_store() {
    let first = [0x81, 0xC2, 0x00, 0x00, 1, 2, 3, 4];
    refuses(&first, &[0, 1], 71, 0);
    passes(&first, &[4, 1]);
    let last = [0x81, 0xC2, 0xFC, 0xFF, 1, 2, 3, 4];
    refuses(&last, &[EEPROM - 1, 1], 71, 0);
    passes(&last, &[EEPROM, 128]);
    // The end is space 7, which no packet writes.
    refuses(&[0x81, 0xDD, 0x1E, 0x00, 1, 2], &[END - 1, 1], 9, 0);
    passes(&[0x81, 0x5D, 0x1E, 0x00], &[END - 1, 1]);
}

#[test]
fn first_middle_and_last_element_of_a_block() {
    let packet = block(WRITE_FOUR, 16);
    for byte in 0x1000..0x1010 {
        refuses(&packet, &[byte, 1], 71, 0);
    }
    passes(&packet, &[0x0FFF, 1, 0x1010, 1]);
}

#[test]
fn without_increment() {
    let packet = block([0x04, 0xC2, 0x00, 0x10], 16);
    refuses(&packet, &[0x1003, 1], 71, 0);
    passes(&packet, &[0x1004, 100]);
}

#[test]
fn adjacent_and_overlapping_ranges() {
    let guard = [0x0FF0, 0x10, 0x1004, 4, 0x1006, 8];
    passes(&WRITE_1000, &guard);
    refuses(&block(WRITE_FOUR, 16), &guard, 71, 0);
    let other = [0x81, 0xC2, 0x0C, 0x10, 1, 0, 0, 0];
    refuses(&other, &guard, 71, 0);
    passes(&[0x81, 0xC2, 0x10, 0x10, 1, 0, 0, 0], &guard);
}

#[test]
fn the_place_is_the_first_command_that_writes_one() {
    let packet = [&WRITE_1000[..], &block(WRITE_FOUR, 16), &WRITE_1000].concat();
    refuses(&packet, &[0x1004, 1], 71, 8);
    refuses(&packet, &[0x1000, 1], 71, 0);
    // A read of a protected cell before it, and the pointer that it leaves.
    let packet = [0x81, 0x42, 0x00, 0x10, 0x81, 0x82, 1, 2, 3, 4];
    refuses(&packet, &[0x1000, 8], 71, 4);
    passes(&packet, &[0x1000, 4]);
}

#[test]
fn reads_are_never_refused() {
    let reads = [
        0x84, 0x42, 0x00, 0x10, // registers
        0x82, 0x49, 0x20, 0x00, // EEPROM
        0x81, 0x5D, 0x00, 0x00, // information
        0x88, 0x61, 0x00, 0x00, // the registers' info area
    ];
    passes(&reads, &[0, EEPROM, EEPROM, 128, STATUS + 0x20, 32]);
}

#[test]
fn spaces_of_two_byte_elements() {
    refuses(&UNLOCKED, &[EEPROM + 0x23, 1], 71, 6);
    refuses(&UNLOCKED, &[EEPROM + 0x20, 1], 71, 6);
    passes(&UNLOCKED, &[EEPROM + 0x24, 1, EEPROM + 0x1F, 1]);
    // The status block from 0x08 to 0x0D goes over the packet count, which no guard has.
    let status = block([0x83, 0xD9, 0x08, 0x00], 6);
    refuses(&status, &[STATUS + 0x0C, 1], 71, 0);
    passes(&status, &[STATUS + 0x0E, 2]);
    passes(&status, &[]);
}

#[test]
fn the_value_that_stands_there_is_a_write() {
    let card = Card::new();
    let packet = [&WRITE_FOUR[..], &card.store[0x1000..0x1010]].concat();
    refuses(&packet, &[0x100C, 4], 71, 0);
}

#[test]
fn a_fault_of_its_own_comes_before_71() {
    let guard = [0x1000, 4];
    // In a later command, in an earlier one, and in the same one.
    let later = [&WRITE_1000[..], &[0x80, 0x02]].concat();
    refuses(&later, &guard, 7, 8);
    let earlier = [&[0x80, 0x02][..], &WRITE_1000].concat();
    refuses(&earlier, &guard, 7, 0);
    refuses(&WRITE_1000[..7], &guard, 11, 0);
    refuses(&[&WRITE_1000[..], &[0x81]].concat(), &guard, 3, 8);
    // The EEPROM is protected, and closed.
    refuses(&UNLOCKED[6..], &[EEPROM + 0x20, 2], 10, 0);
    refuses(&[0x81, 0xC9, 0x10, 0x00, 1, 2], &[EEPROM, 128], 9, 0);
    refuses(&[0; 1_473], &guard, 2, 0);
}

#[test]
fn one_comes_before_71() {
    let guard = [0x1000, 4];
    let mut card = Card::new();
    let store = &card.store;
    assert_eq!(
        check(&WRITE_1000, &store[1..], &[0; 8], &guard),
        refused(1, 0)
    );
    assert_eq!(check(&WRITE_1000, store, &[0; 7], &guard), refused(1, 0));
    assert_eq!(
        check(&WRITE_1000, store, &[65_537, 0, 0, 0, 0, 0, 0, 0], &guard),
        refused(1, 0)
    );
    card.reply.pop();
    let before = card.clone();
    assert_eq!(card.run(&WRITE_1000, &guard), refused(1, 0));
    assert!(card == before);
}

#[test]
fn the_empty_packet_and_the_cards_own_cells() {
    let mut card = Card::new();
    let guard = [0, EEPROM, STATUS, 10, COUNT + 2, UNLOCK - COUNT - 2];
    let before = card.store.clone();
    assert_eq!(
        card.run(&[], &guard),
        Ok(Ran {
            length: 0,
            elements: 0
        })
    );
    assert_ne!(card.store[COUNT as usize], before[COUNT as usize]);
    assert_eq!(card.store[UNLOCK as usize..][..2], [0, 0]);
}

// Bursts.

/// The burst must be refused and change nothing.
fn refuses_burst(words: &[u32], guard: &[u32], number: u32) {
    let mut store = Card::new().store;
    let mut answer = vec![0xEEEE_EEEE; words.len()];
    assert_eq!(
        burst(words, &mut store, &mut answer, guard),
        refused(number, 0)
    );
    assert!(store == Card::new().store);
    assert!(answer.iter().all(|&word| word == 0xEEEE_EEEE));
}

/// The burst must do what it does without the guard.
fn passes_burst(words: &[u32], guard: &[u32]) {
    let (mut store, mut plain) = (Card::new().store, Card::new().store);
    let mut answer = vec![0xEEEE_EEEE; words.len()];
    let mut plain_answer = answer.clone();
    let expected = spi::burst(words, &mut plain, &mut plain_answer);
    assert!(expected.is_ok());
    assert_eq!(burst(words, &mut store, &mut answer, guard), expected);
    assert!(store == plain);
    assert_eq!(answer, plain_answer);
}

#[test]
fn bursts() {
    let write = [0x1000_B830, 1, 2, 3];
    for byte in 0x1000..0x100C {
        refuses_burst(&write, &[byte, 1], 71);
    }
    passes_burst(&write, &[0x0FFF, 1, 0x100C, 1]);
    // Without increment it is one register.
    let still = [0x1000_B030, 1, 2, 3];
    refuses_burst(&still, &[0x1003, 1], 71);
    passes_burst(&still, &[0x1004, 8]);
    // Reads of protected registers.
    passes_burst(&[0x1000_A830, 0, 0, 0], &[0, EEPROM]);
    passes_burst(&[0x1000_A830], &[0, EEPROM]);
    refuses_burst(&[0xFFFC_B010 | 0x800, 1], &[EEPROM - 1, 1], 71);
}

#[test]
fn words_that_are_promised_and_did_not_come() {
    for words in [&[0x1000_B830, 1, 2][..], &[0x1000_B830, 1], &[0x1000_B830]] {
        refuses_burst(words, &[0x100B, 1], 71);
        refuses_burst(words, &[0x1008, 1], 71);
        passes_burst(words, &[0x100C, 1]);
    }
}

#[test]
fn a_bursts_own_faults_come_before_71() {
    let guard = [0, EEPROM];
    refuses_burst(&[], &guard, 31);
    refuses_burst(&[0x1000_C830, 1, 2, 3], &guard, 32);
    refuses_burst(&[0x1000_B800], &guard, 33);
    refuses_burst(&[0x1000_B810, 1, 2], &guard, 34);
    refuses_burst(&[0x1002_B810, 1], &guard, 35);
    refuses_burst(&[0xFFFC_B820, 1], &guard, 35);
    let mut store = Card::new().store;
    assert_eq!(
        burst(&[0x1000_B810, 1], &mut store, &mut [0; 3], &guard),
        refused(1, 0)
    );
    assert_eq!(
        burst(&[0x1000_B810, 1], &mut store[1..], &mut [0; 2], &guard),
        refused(1, 0)
    );
}

// Lists.

const READ_4: &[u8] = b"RD\x00\x00\x04\x00";
const WRITE_4: &[u8] = b"WR\x00\x00\x04\x00\x01\x00\x00\x00";
const WRITE_8: &[u8] = b"WR\x00\x00\x08\x00\x01\x00\x00\x00";
const WRITE_EEPROM: &[u8] = b"WR\x02\x00\x20\x00\x01\x00\x00\x00";

#[test]
fn lists() {
    let cues = [READ_4, WRITE_8, WRITE_4, WRITE_EEPROM].concat();
    assert_eq!(list(&cues, &[]), Ok(4));
    assert_eq!(list(b"", &[0, EEPROM]), Ok(0));
    assert_eq!(list(&cues, &[12, 100, 0, 4]), Ok(4));
    // The read is not refused.
    assert_eq!(list(&cues, &[4, 1]), refused(71, 2));
    assert_eq!(list(&cues, &[11, 1]), refused(71, 1));
    assert_eq!(list(&cues, &[7, 2]), refused(71, 1));
    assert_eq!(list(&cues, &[EEPROM + 0x21, 1]), refused(71, 3));
    assert_eq!(list(&cues, &[EEPROM + 0x22, 1]), Ok(4));
}

#[test]
fn a_lists_own_refusal_comes_before_71() {
    let guard = [0, EEPROM];
    assert_eq!(list(&[WRITE_4, b"?"].concat(), &guard), refused(22, 1));
    assert_eq!(
        list(&[WRITE_4, b"RD\x01\0\0\0"].concat(), &guard),
        refused(23, 1)
    );
    assert_eq!(
        list(&[WRITE_4, b"RD\x00\x01\0\0"].concat(), &guard),
        refused(24, 1)
    );
    let long = [WRITE_4, &READ_4.repeat(100_000)].concat();
    assert_eq!(list(&long, &guard), refused(21, 100_000));
    assert_eq!(list(&long[..long.len() - 6], &guard), refused(71, 0));
    assert_eq!(list(&long[..long.len() - 6], &[8, 4]), Ok(100_000));
}

#[test]
fn a_list_that_passes_has_packets_that_pass() {
    let cues = [WRITE_8, READ_4, WRITE_EEPROM, WRITE_4].concat();
    let guard = [0, 4, 12, 4, EEPROM + 0x22, 2];
    assert_eq!(list(&cues, &guard), Ok(4));
    let mut out = [0; 100];
    let compiled = model::packing::compile(&cues, &mut out).expect("a good list");
    assert_eq!(compiled.packets, 1);
    passes(&out[4..compiled.bytes], &guard);
    let guard = [EEPROM + 0x21, 1];
    assert_eq!(list(&cues, &guard), refused(71, 2));
    // The write of 8, the read of 4, and the unlock stand before it.
    refuses(&out[4..compiled.bytes], &guard, 71, 8 + 4 + 6);
}

// For ever.

#[test]
fn protected_bytes_stay() {
    let guard = [0x1004, 4, 0x2001, 1, EEPROM + 0x20, 2];
    let mut card = Card::new();
    let before = card.store.clone();
    let mut answer = [0; 3];
    for turn in 0..50 {
        let _ = card.run(&block(WRITE_FOUR, 16), &guard);
        let _ = card.run(&WRITE_1000, &guard);
        let _ = card.run(&UNLOCKED, &guard);
        let _ = card.run(&block([0x81, 0xC2, 0x00, 0x20 + turn % 2], 4), &guard);
        let words = [0x1000_B820 | u32::from(turn % 2) << 18, 1, 2];
        let _ = burst(&words, &mut card.store, &mut answer, &guard);
    }
    for pair in guard.chunks(2) {
        let range = pair[0] as usize..(pair[0] + pair[1]) as usize;
        assert_eq!(card.store[range.clone()], before[range]);
    }
    assert_ne!(card.store[0x1000..0x1004], before[0x1000..0x1004]);
    assert_ne!(card.store[0x2100..0x2104], before[0x2100..0x2104]);
}
