//! Reasons for refusals, by order 6 of the change requests.

use model::area::POINTERS;
use model::store::STORE_BYTES;
use model::why::{why, Reason};
use model::words::Fields;
use model::{Refusal, PACKET_BYTES};

const FRESH: [u32; POINTERS] = [0; POINTERS];

fn asked(packet: &[u8], pointers: &[u32]) -> Option<Reason> {
    why(packet, &[0; STORE_BYTES], pointers)
}

fn reason(number: u32, place: u64, index: u64, word: u16) -> Option<Reason> {
    Some(Reason {
        refusal: Refusal { number, place },
        index,
        fields: Fields::from_word(word),
    })
}

#[test]
fn accepted_packets_have_none() {
    assert_eq!(asked(&[], &FRESH), None);
    assert_eq!(asked(&[0x02, 0x42, 0xFC, 0xFF], &FRESH), None);
}

#[test]
fn the_command_at_fault() {
    let packet = [0x81, 0x42, 0xFC, 0xFF, 0x81, 0x02];
    assert_eq!(asked(&packet, &FRESH), reason(8, 4, 1, 0x0281));
    let packet = [
        0xFF, 0x42, 0x00, 0x00, 0xFF, 0x42, 0xFC, 0x01, 0xF3, 0x42, 0xF8, 0x03,
    ];
    assert_eq!(asked(&packet, &FRESH), reason(12, 8, 2, 0x42F3));
    // A write's data is passed over with it.
    let packet = [0x82, 0xD9, 0x00, 0x00, 1, 2, 3, 4, 0x80, 0x42, 0x00, 0x00];
    assert_eq!(asked(&packet, &FRESH), reason(7, 8, 1, 0x4280));
}

#[test]
fn a_word_cut_off_has_no_fields_and_a_cut_address_has() {
    assert_eq!(asked(&[0x81], &FRESH), reason(3, 0, 0, 0));
    assert_eq!(asked(&[0x81, 0x02, 0xFF], &FRESH), reason(3, 2, 1, 0));
    let packet = [0x81, 0x02, 0x00, 0x42, 0x10];
    assert_eq!(asked(&packet, &FRESH), reason(3, 2, 1, 0x4200));
}

#[test]
fn one_and_two_name_no_command() {
    let long = [0xFF; PACKET_BYTES + 1];
    assert_eq!(asked(&long, &FRESH), reason(2, 0, 0, 0));
    assert_eq!(asked(&long, &[0; 4]), reason(1, 0, 0, 0));
    let mut pointers = FRESH;
    pointers[7] = 17;
    assert_eq!(asked(&[0x81], &pointers), reason(1, 0, 0, 0));
    assert_eq!(why(&[0x81], &[0; 4], &FRESH), reason(1, 0, 0, 0));
}
