//! The worked examples of the scope document, in its order, and those of the requests after it.

use model::area::POINTERS;
use model::packet::{check, run, Ran};
use model::packing::{compile, Compiled};
use model::spi::{burst, Header};
use model::store::STORE_BYTES;
use model::words::Fields;
use model::{Refusal, PACKET_BYTES};

/// A command word that has an address and no info bit.
fn addressed(write: bool, space: u8, size: u8, increment: bool, count: u8) -> Fields {
    Fields {
        write,
        address: true,
        info: false,
        space,
        size,
        increment,
        count,
    }
}

fn both_ways(bytes: [u8; 2], fields: Fields) {
    let word = u16::from_le_bytes(bytes);
    assert_eq!(Fields::from_word(word), fields);
    assert_eq!(fields.to_word(), Ok(word));
}

/// A card in a known state.
struct Card {
    store: Vec<u8>,
    pointers: [u32; POINTERS],
    reply: Vec<u8>,
}

impl Card {
    fn new() -> Card {
        let store = (0..STORE_BYTES).map(|at| (at * 7 + at / 256) as u8);
        Card {
            store: store.collect(),
            pointers: [0; POINTERS],
            reply: vec![0xEE; PACKET_BYTES],
        }
    }

    fn check(&self, packet: &[u8]) -> Result<usize, Refusal> {
        check(packet, &self.store, &self.pointers)
    }

    /// Runs a packet and answers the reply's length.
    fn run(&mut self, packet: &[u8]) -> Result<usize, Refusal> {
        self.run_counted(packet).map(|ran| ran.length)
    }

    fn run_counted(&mut self, packet: &[u8]) -> Result<Ran, Refusal> {
        run(packet, &mut self.store, &mut self.pointers, &mut self.reply)
    }

    /// The packet count.
    fn count(&self) -> u16 {
        let cell = 65_664 + 0x0A;
        u16::from_le_bytes([self.store[cell], self.store[cell + 1]])
    }

    /// Runs a packet that must be refused and change nothing.
    fn refuses(packet: &[u8], number: u32, place: u64) {
        let mut card = Card::new();
        assert_eq!(card.check(packet), Err(Refusal { number, place }));
        assert_eq!(card.run(packet), Err(Refusal { number, place }));
        let fresh = Card::new();
        assert!(card.store == fresh.store);
        assert_eq!(card.pointers, fresh.pointers);
        assert_eq!(card.reply, fresh.reply);
    }
}

fn read(space: u8, address: u16) -> Vec<u8> {
    let mut record = vec![b'R', b'D', space, 0];
    record.extend(address.to_le_bytes());
    record
}

fn write(space: u8, address: u16, value: u32) -> Vec<u8> {
    let mut record = vec![b'W', b'R', space, 0];
    record.extend(address.to_le_bytes());
    record.extend(value.to_le_bytes());
    record
}

fn compiled(list: &[u8]) -> Result<(Vec<u8>, u64), Refusal> {
    let mut out = vec![0xEE; 4 * list.len() + 100];
    let Compiled { bytes, packets } = compile(list, &mut out)?;
    assert!(out[bytes..].iter().all(|&byte| byte == 0xEE));
    out.truncate(bytes);
    Ok((out, packets))
}

/// The output's packets, taken apart at marks and lengths.
fn packets(mut output: &[u8]) -> Vec<&[u8]> {
    let mut found = Vec::new();
    while let [b'L', b'B', low, high, rest @ ..] = output {
        let (packet, rest) = rest.split_at(u16::from_le_bytes([*low, *high]).into());
        found.push(packet);
        output = rest;
    }
    assert!(output.is_empty());
    found
}

#[test]
fn p1_read_of_five_registers() {
    both_ways([0x85, 0x42], addressed(false, 0, 2, true, 5));
}

#[test]
fn p2_write_of_four_registers() {
    both_ways([0x84, 0xC2], addressed(true, 0, 2, true, 4));
}

#[test]
fn p3_read_of_space_1() {
    both_ways([0x01, 0x45], addressed(false, 1, 1, false, 1));
}

#[test]
fn p4_info_of_space_2() {
    let mut fields = addressed(false, 2, 1, false, 1);
    fields.info = true;
    both_ways([0x01, 0x69], fields);
}

#[test]
fn p5_burst_that_reads() {
    let header = Header {
        address: 0x1000,
        command: 0xA,
        increment: true,
        count: 3,
    };
    assert_eq!(Header::from_word(0x1000_A830), header);
    assert_eq!(header.to_word(), Ok(0x1000_A830));
}

#[test]
fn p6_burst_that_writes() {
    let header = Header {
        address: 0x600C,
        command: 0xB,
        increment: false,
        count: 4,
    };
    assert_eq!(Header::from_word(0x600C_B040), header);
    assert_eq!(header.to_word(), Ok(0x600C_B040));
}

#[test]
fn p7_eeprom_writes_compile_with_unlock() {
    let list = [write(2, 0x20, 0x0020), write(2, 0x22, 0xC0A8)].concat();
    let expected = [
        0x4C, 0x42, 0x0E, 0x00, 0x01, 0xD9, 0x1A, 0x00, 0x02, 0x5A, 0x82, 0xC9, 0x20, 0x00, 0x20,
        0x00, 0xA8, 0xC0,
    ];
    assert_eq!(compiled(&list), Ok((expected.to_vec(), 1)));
}

#[test]
fn p8_empty_list() {
    assert_eq!(compiled(&[]), Ok((vec![], 0)));
}

#[test]
fn p9_eeprom_write_while_locked() {
    Card::refuses(&[0x82, 0xC9, 0x20, 0x00, 0x20, 0x00, 0xA8, 0xC0], 10, 0);
}

#[test]
fn p10_cut_address_before_count_0() {
    Card::refuses(&[0x00, 0x42], 3, 0);
    Card::refuses(&[0x00, 0x42, 0x00, 0x10], 7, 0);
}

#[test]
fn past_the_last_register() {
    Card::refuses(&[0x81, 0x42, 0xFC, 0xFF, 0x81, 0x02], 8, 4);
    Card::refuses(&[0x82, 0x42, 0xFC, 0xFF], 8, 0);
}

#[test]
fn the_last_register_twice() {
    let mut card = Card::new();
    assert_eq!(card.run(&[0x02, 0x42, 0xFC, 0xFF]), Ok(8));
    let word = &card.store[65_532..65_536];
    assert_eq!(card.reply[..8], [word, word].concat());
    assert!(card.reply[8..].iter().all(|&byte| byte == 0xEE));
    assert_eq!(card.pointers, [0xFFFC, 0, 0, 0, 0, 0, 0, 0]);
}

#[test]
fn rising_reads_fill_a_reply() {
    let list: Vec<u8> = (0..369).flat_map(|k| read(0, 4 * k)).collect();
    let (output, count) = compiled(&list).unwrap();
    let first = [
        0xFF, 0x42, 0x00, 0x00, 0xFF, 0x42, 0xFC, 0x01, 0xF2, 0x42, 0xF8, 0x03,
    ];
    let second = [0x81, 0x42, 0xC0, 0x05];
    assert_eq!(packets(&output), [&first[..], &second]);
    assert_eq!(count, 2);
}

#[test]
fn rising_writes_fill_a_packet() {
    let list = |records: u16| -> Vec<u8> {
        let record = |k: u16| write(0, 4 * k, k.into());
        (0..records).flat_map(record).collect()
    };
    let (output, count) = compiled(&list(365)).unwrap();
    assert_eq!((output.len(), count), (4 + 1_472, 1));
    let (output, count) = compiled(&list(366)).unwrap();
    let lengths: Vec<usize> = packets(&output).iter().map(|p| p.len()).collect();
    assert_eq!((lengths, count), (vec![1_472, 8], 2));
}

#[test]
fn reply_past_its_limit() {
    let packet = [
        0xFF, 0x42, 0x00, 0x00, 0xFF, 0x42, 0xFC, 0x01, 0xF3, 0x42, 0xF8, 0x03,
    ];
    Card::refuses(&packet, 12, 8);
}

#[test]
fn mark_alone() {
    let refusal = Refusal {
        number: 22,
        place: 0,
    };
    assert_eq!(compiled(b"RD"), Err(refusal));
}

#[test]
fn room_too_small_by_one() {
    let list = write(0, 0x1000, 1);
    let mut out = [0xEE; 11];
    let refusal = Refusal {
        number: 26,
        place: 12,
    };
    assert_eq!(compile(&list, &mut out), Err(refusal));
    assert_eq!(out, [0xEE; 11]);
}

#[test]
fn empty_packet_clears_the_unlock_cell_and_counts() {
    let mut card = Card::new();
    assert_eq!(card.run(&[]), Ok(0));
    let mut fresh = Card::new();
    let count = (fresh.count() + 1).to_le_bytes();
    fresh.store[65_674..65_676].copy_from_slice(&count);
    fresh.store[65_690..65_692].fill(0);
    assert!(card.store == fresh.store);
}

#[test]
fn block_over_the_unlock_cell_opens() {
    // A block from 0x18 to 0x1C of space 6, then an EEPROM write.
    let opening = [0x83, 0xD9, 0x18, 0x00, 1, 0, 0x02, 0x5A, 3, 0];
    let closing = [0x83, 0xD9, 0x18, 0x00, 1, 0, 0x03, 0x5A, 3, 0];
    let eeprom = [0x81, 0xC9, 0x20, 0x00, 9, 8];
    let mut card = Card::new();
    assert_eq!(card.run(&[&opening[..], &eeprom].concat()), Ok(0));
    assert_eq!(card.store[65_536 + 0x20..][..2], [9, 8]);
    assert_eq!(card.pointers, [0, 0x22, 0x1E, 0, 0, 0, 0, 0]);
    Card::refuses(&[&opening[..], &closing, &eeprom].concat(), 10, 20);
}

#[test]
fn eeprom_block_from_0x1e() {
    let unlock = [0x01, 0xD9, 0x1A, 0x00, 0x02, 0x5A];
    let block = [0x82, 0xC9, 0x1E, 0x00, 1, 2, 3, 4];
    Card::refuses(&[&unlock[..], &block].concat(), 9, 6);
}

#[test]
fn writing_a_word_out_of_range() {
    let good = addressed(false, 7, 3, false, 127);
    assert!(good.to_word().is_ok());
    let refused = Err(Refusal::whole(13));
    assert_eq!(Fields { space: 8, ..good }.to_word(), refused);
    assert_eq!(Fields { size: 4, ..good }.to_word(), refused);
    assert_eq!(Fields { count: 128, ..good }.to_word(), refused);
}

#[test]
fn writing_a_header_out_of_range() {
    let good = Header {
        address: 1,
        command: 0xA,
        increment: false,
        count: 127,
    };
    assert_eq!(good.to_word(), Ok(0x0001_A7F0));
    let refused = |number| Err(Refusal::whole(number));
    assert_eq!(Header { command: 9, ..good }.to_word(), refused(32));
    assert_eq!(Header { count: 0, ..good }.to_word(), refused(33));
    assert_eq!(Header { count: 128, ..good }.to_word(), refused(33));
    let both = Header {
        command: 0x1A,
        count: 0,
        ..good
    };
    assert_eq!(both.to_word(), refused(32));
}

#[test]
fn bursts_move_registers() {
    let mut store = Card::new().store;
    let mut answer = [7; 4];
    // The unused low bits are ignored.
    let moved = burst(&[0x1000_B83F, 1, 2, 3], &mut store, &mut answer);
    assert_eq!((moved, answer), (Ok(3), [0; 4]));
    assert_eq!(store[0x1000..0x100C], [1, 0, 0, 0, 2, 0, 0, 0, 3, 0, 0, 0]);
    let moved = burst(&[0x1000_A830, 9, 9, 9], &mut store, &mut answer);
    assert_eq!((moved, answer), (Ok(3), [0, 1, 2, 3]));
    let moved = burst(&[0x1004_A030, 9, 9, 9], &mut store, &mut answer);
    assert_eq!((moved, answer), (Ok(3), [0, 2, 2, 2]));
}

#[test]
fn short_bursts_do_the_words_that_came() {
    let fresh = Card::new().store;
    let mut store = fresh.clone();
    let mut answer = [7; 3];
    let register = |at: usize| u32::from_le_bytes(fresh[at..at + 4].try_into().unwrap());
    let moved = burst(&[0x1000_A830, 9, 9], &mut store, &mut answer);
    let cells = [0, register(0x1000), register(0x1004)];
    assert_eq!((moved, answer), (Ok(2), cells));
    assert!(store == fresh);

    let moved = burst(&[0x1000_B830, 1, 2], &mut store, &mut answer);
    assert_eq!((moved, answer), (Ok(2), [0; 3]));
    assert_eq!(store[0x1000..0x1008], [1, 0, 0, 0, 2, 0, 0, 0]);
    assert_eq!(store[0x1008..], fresh[0x1008..]);

    let mut answer = [7];
    let header = [0x1000_B830];
    let before = store.clone();
    let moved = burst(&header, &mut store, &mut answer);
    assert_eq!((moved, answer), (Ok(0), [0]));
    assert!(store == before);
}

#[test]
fn bursts_with_a_word_too_many_or_a_promise_past_the_end() {
    let fresh = Card::new().store;
    let mut store = fresh.clone();
    let mut refuses = |words: &[u32], number| {
        let mut answer = vec![7; words.len()];
        let refusal = Refusal::whole(number);
        assert_eq!(burst(words, &mut store, &mut answer), Err(refusal));
        assert!(store == fresh);
        assert!(answer.iter().all(|&word| word == 7));
    };
    refuses(&[0x1000_B830, 1, 2, 3, 4], 34);
    // Two registers are promised from 0xFFFC, and one came.
    refuses(&[0xFFFC_B820, 1], 35);
    refuses(&[0xFFFC_B820, 1, 2, 3], 34);
}

#[test]
fn the_run_answers_as_the_check() {
    let mut card = Card::new();
    // From the last register on: good once, past the end the second time.
    let packet = [0x81, 0x02];
    card.pointers[0] = 0xFFFC;
    assert_eq!(card.check(&packet), Ok(4));
    assert_eq!(card.run(&packet), Ok(4));
    let refusal = Err(Refusal::whole(8));
    assert_eq!(card.check(&packet), refusal);
    assert_eq!(card.run(&packet), refusal);
}

#[test]
fn a_wrong_reply_room_is_refused_by_the_run_alone() {
    let mut card = Card::new();
    card.reply.pop();
    assert_eq!(card.check(&[0x81, 0x02]), Ok(4));
    assert_eq!(card.run(&[0x81, 0x02]), Err(Refusal::whole(1)));
    assert_eq!(card.check(&[0; 1_473]), Err(Refusal::whole(2)));
    assert_eq!(card.run(&[0; 1_473]), Err(Refusal::whole(1)));
}

#[test]
fn the_packet_count_goes_from_65535_to_0() {
    let mut card = Card::new();
    card.store[65_674..65_676].fill(0xFF);
    assert_eq!(card.run(&[]), Ok(0));
    assert_eq!(card.count(), 0);
    // What a packet writes there is what it goes up from.
    assert_eq!(card.run(&[0x81, 0xD9, 0x0A, 0x00, 0xFF, 0xFF]), Ok(0));
    assert_eq!(card.count(), 0);
    assert_eq!(card.run(&[0x81, 0xD9, 0x0A, 0x00, 0xFF, 0x00]), Ok(0));
    assert_eq!(card.count(), 0x0100);
}

#[test]
fn a_packet_reads_the_count_before_itself() {
    let mut card = Card::new();
    card.store[65_674..65_676].copy_from_slice(&[5, 0]);
    let read = [0x01, 0x59, 0x0A, 0x00];
    assert_eq!(card.run(&[read, read].concat()), Ok(4));
    assert_eq!(card.reply[..4], [5, 0, 5, 0]);
    // A refused packet between two reads doesn't count.
    assert_eq!(card.run(&[0]), Err(Refusal::whole(3)));
    assert_eq!(card.run(&read), Ok(2));
    assert_eq!(card.reply[..2], [6, 0]);
    assert_eq!(card.count(), 7);
}

#[test]
fn a_list_may_not_name_the_count() {
    let refusal = Refusal {
        number: 23,
        place: 1,
    };
    for record in [read(6, 0x0A), write(6, 0x0A, 1), read(6, 0x1A)] {
        assert_eq!(compiled(&[read(6, 0x08), record].concat()), Err(refusal));
    }
    assert!(compiled(&[read(6, 0x0C), read(7, 0x0A)].concat()).is_ok());
}

#[test]
fn a_show_raises_the_count_by_its_packets() {
    let list: Vec<u8> = (0..800).flat_map(|k| read(0, 4 * k)).collect();
    let (output, count) = compiled(&list).unwrap();
    assert_eq!(count, 3);
    let mut card = Card::new();
    let before = card.count();
    for packet in packets(&output) {
        card.run(packet).unwrap();
    }
    assert_eq!(card.count(), before + 3);
}

/// The words that an accepted packet reads.
fn words_read(card: &mut Card, packet: &[u8]) -> Vec<u16> {
    let length = card.run(packet).unwrap();
    let elements = card.reply[..length].chunks_exact(2);
    elements
        .map(|bytes| u16::from_le_bytes([bytes[0], bytes[1]]))
        .collect()
}

#[test]
fn info_areas_whole() {
    let mut card = Card::new();
    card.pointers = [0x1_0000, 0x80, 0x1A, 0x20, 0, 0, 0, 0];
    let fresh = card.store.clone();
    let areas = [
        (0x61, [0x5A00, 0x8104, 0x0010, 0x0000, 0, 0, 0, 0]),
        (0x69, [0x5A02, 0x8E02, 0x0007, 0x0080, 0, 0, 0, 0]),
        (0x79, [0x5A06, 0x8102, 0x0005, 0x001A, 0, 0, 0, 0]),
        (0x7D, [0x5A07, 0x0002, 0x0005, 0x0020, 0, 0, 0, 0]),
    ];
    for (high, shown) in areas {
        // With an address, and then at the pointer.
        let without_address = high & !0x40;
        assert_eq!(words_read(&mut card, &[0x88, high, 0, 0]), shown);
        assert_eq!(
            card.run(&[0x01, without_address]),
            Err(Refusal::whole(8)),
            "the pointer stands past the end"
        );
        assert_eq!(words_read(&mut card, &[0x01, high, 4, 0]), shown[2..3]);
        assert_eq!(words_read(&mut card, &[0x85, without_address]), shown[2..7]);
        assert_eq!(words_read(&mut card, &[0x03, high, 0, 0]), [shown[0]; 3]);
    }
    assert_eq!(card.pointers, [0x1_0000, 0x80, 0x1A, 0x20, 0, 0, 0, 0]);
    assert_eq!(card.store[..65_664], fresh[..65_664]);
}

#[test]
fn info_shows_the_pointer_before_its_command() {
    let mut card = Card::new();
    let shown = [0x01, 0x61, 6, 0];
    let moving = [0x83, 0x42, 0xF0, 0xFF];
    let packet = [&shown[..], &moving, &shown, &[0x81, 0x02], &shown].concat();
    assert_eq!(card.run(&packet), Ok(2 + 12 + 2 + 4 + 2));
    let at = |place: usize| [card.reply[place], card.reply[place + 1]];
    assert_eq!([at(0), at(14), at(20)], [[0, 0], [0xFC, 0xFF], [0, 0]]);
    assert_eq!(card.pointers, [0x1_0000, 0, 0, 0, 6, 0, 0, 0]);
}

#[test]
fn info_refusals() {
    // Cut, and an info write, whatever else is wrong with it.
    Card::refuses(&[0x01, 0x61, 0], 3, 0);
    Card::refuses(&[0x81, 0xE1, 0, 0, 1, 2], 4, 0);
    Card::refuses(&[0x80, 0xE6, 0, 0], 4, 0);
    // Spaces 1 and 3; elements of 4 bytes; no element.
    Card::refuses(&[0x01, 0x65, 0, 0], 5, 0);
    Card::refuses(&[0x01, 0x6D, 0, 0], 5, 0);
    Card::refuses(&[0x01, 0x62, 0, 0], 6, 0);
    Card::refuses(&[0x80, 0x61, 0, 0], 7, 0);
    // Misaligned, nine elements, and the area's end.
    Card::refuses(&[0x01, 0x61, 1, 0], 8, 0);
    Card::refuses(&[0x89, 0x61, 0, 0], 8, 0);
    Card::refuses(&[0x01, 0x61, 16, 0], 8, 0);
    // A reply of 1,472 bytes, and one element more.
    let full = [0x88, 0x7D, 0, 0].repeat(92);
    assert_eq!(Card::new().run(&full), Ok(1_472));
    Card::refuses(&[&full[..], &[0x01, 0x7D, 0, 0]].concat(), 12, 368);
}

#[test]
fn info_pointers_end_at_16() {
    let mut card = Card::new();
    card.pointers = [65_536, 128, 32, 32, 16, 16, 16, 16];
    assert_eq!(card.run(&[]), Ok(0));
    for index in 0..8 {
        let mut card = Card::new();
        card.pointers = [65_536, 128, 32, 32, 16, 16, 16, 16];
        card.pointers[index] += 1;
        assert_eq!(card.run(&[]), Err(Refusal::whole(1)));
    }
}

#[test]
fn elements_are_the_sum_of_the_counts() {
    let mut card = Card::new();
    // Two writes, three reads and five info reads.
    let packet = [
        0x02, 0xD9, 4, 0, 1, 2, 3, 4, 0x83, 0x42, 0, 0, 0x85, 0x61, 0, 0,
    ];
    let ran = Ran {
        length: 22,
        elements: 10,
    };
    assert_eq!(card.run_counted(&packet), Ok(ran));
    let ran = Ran {
        length: 0,
        elements: 0,
    };
    assert_eq!(card.run_counted(&[]), Ok(ran));
}

#[test]
fn no_packet_moves_more_than_1460_elements() {
    // At the pointers: reads of the EEPROM and writes of the status space, without increment.
    let reads = |count: u8| vec![count, 0x09];
    let writes = |count: u8| [vec![count, 0x99], vec![0; 2 * usize::from(count)]].concat();
    let mut packet = Vec::new();
    for count in [127, 127, 127, 127, 127, 101] {
        packet.extend(reads(count));
    }
    for count in [127, 127, 127, 127, 127, 89] {
        packet.extend(writes(count));
    }
    assert_eq!(packet.len(), 1_472);
    let ran = Ran {
        length: 1_472,
        elements: 1_460,
    };
    assert_eq!(Card::new().run_counted(&packet), Ok(ran));
    // One read more, and one write more.
    packet[10] += 1;
    Card::refuses(&packet, 12, 10);
    packet[10] -= 1;
    packet.extend([0, 0]);
    Card::refuses(&packet, 2, 0);
}
