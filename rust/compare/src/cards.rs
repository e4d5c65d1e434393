//! Makes random daughter card memories with a process table: good ones, and ones with faults of
//! every kind.

use crate::rng::Rng;
use model::sserial::CHANNEL_BITS;

/// A card's memory and its table's address.
pub struct Card {
    pub memory: Vec<u8>,
    pub table: u16,
}

/// A card of any kind, about half of them with a fault.
pub fn any(rng: &mut Rng) -> Card {
    let mut records = good_records(rng);
    let faulty = rng.coin();
    if faulty && rng.coin() {
        bad_record(rng, &mut records);
    }
    let mut card = laid_out(rng, &records);
    if faulty && rng.coin() {
        damage(rng, &mut card);
    }
    card
}

/// Records whose fields stay within 96 bits each way, often with all of them used.
fn good_records(rng: &mut Rng) -> Vec<Vec<u8>> {
    let mut left = [CHANNEL_BITS; 2];
    let mut records = Vec::new();
    let most = rng.pick(&[0, 1, 2, 4, 8, 20, 100]);
    let fill = rng.coin();
    while records.len() < most {
        if rng.one_in(8) {
            records.push(mode(rng));
            continue;
        }
        let direction = rng.pick(&[0x00, 0x00, 0x80, 0x80, 0x40]);
        let room = match direction {
            0x00 => left[0],
            0x80 => left[1],
            _ => left[0].min(left[1]),
        }
        .min(64) as usize;
        if room == 0 {
            break;
        }
        let width = match rng.below(6) {
            0 => 1,
            1 => 8.min(room),
            2 => rng.between(1, room),
            3 if fill => room,
            _ => rng.between(1, room.min(17)),
        };
        for (left, goes) in left.iter_mut().zip([direction != 0x80, direction != 0x00]) {
            *left -= if goes { width as u32 } else { 0 };
        }
        records.push(field(rng, width as u8, direction));
    }
    records
}

fn field(rng: &mut Rng, width: u8, direction: u8) -> Vec<u8> {
    let mut record = vec![0xA0, width, rng.below(8) as u8, direction];
    record.extend((0..10).map(|_| rng.byte()));
    record.extend(string(rng));
    record.extend(string(rng));
    record
}

fn mode(rng: &mut Rng) -> Vec<u8> {
    let mut record = vec![0xB0, rng.byte(), rng.below(2) as u8, rng.byte()];
    record.extend(string(rng));
    record
}

fn string(rng: &mut Rng) -> Vec<u8> {
    let length = rng.pick(&[0, 1, 3, 9]);
    let mut string: Vec<u8> = (0..length).map(|_| rng.byte().max(1)).collect();
    string.push(0);
    string
}

/// Puts a fault into the records: a number that is not in the manual, a width out of range, or
/// more bits than the registers hold.
fn bad_record(rng: &mut Rng, records: &mut Vec<Vec<u8>>) {
    if records.is_empty() || rng.one_in(3) {
        let width = rng.pick(&[1, 1, 32, 64]);
        let direction = rng.pick(&[0x00, 0x40, 0x80]);
        records.push(field(rng, width, direction));
    }
    for _ in 0..rng.pick(&[0, 1, 1, 2]) {
        let index = rng.below(records.len());
        let record = &mut records[index];
        let is_field = record[0] == 0xA0;
        match rng.below(5) {
            0 => record[0] = rng.pick(&[0x00, 0xA1, 0xB1, 0xC0, 0xFF]),
            1 => record[2] = if is_field { 8 } else { 2 } + rng.pick(&[0, 0, 1, 0x80]),
            2 if is_field => record[3] = rng.pick(&[0x01, 0x20, 0xC0, 0xFF]),
            3 if is_field => record[1] = rng.pick(&[65, 65, 96, 97, 255]),
            _ if is_field => record[1] = 0,
            _ => record[2] = 0xFF,
        }
    }
}

/// Puts records and table into a memory, now and then such that one of them runs past 0xFFFF.
fn laid_out(rng: &mut Rng, records: &[Vec<u8>]) -> Card {
    let mut memory = Vec::new();
    let table_bytes = 2 * records.len() + 2;
    let table_first = rng.coin();
    let mut table = 0;
    if table_first {
        junk(rng, &mut memory, 30);
        table = memory.len();
        memory.resize(table + table_bytes, 0);
    } else {
        memory.push(rng.byte());
        junk(rng, &mut memory, 30);
    }
    let high = rng.one_in(60);
    let mut places = Vec::new();
    for (index, record) in records.iter().enumerate() {
        if high && table_first && index + 1 == records.len() {
            let place = 0x1_0000 - rng.between(1, 30);
            memory.resize(place, rng.byte());
        }
        // The same record may be named again.
        if rng.one_in(20) && !places.is_empty() {
            places.push(rng.pick(&places));
            continue;
        }
        places.push(memory.len() as u16);
        memory.extend(record);
        if rng.one_in(6) {
            junk(rng, &mut memory, 8);
        }
    }
    if !table_first {
        if high {
            let place = 0x1_0000 - rng.between(1, table_bytes);
            memory.resize(place, rng.byte());
        }
        table = memory.len();
        memory.resize(table + table_bytes, 0);
    }
    for (index, place) in places.iter().enumerate() {
        let entry = table + 2 * index;
        memory[entry..entry + 2].copy_from_slice(&place.to_le_bytes());
    }
    if rng.one_in(3) {
        junk(rng, &mut memory, 20);
    }
    Card {
        memory,
        table: table as u16,
    }
}

fn junk(rng: &mut Rng, memory: &mut Vec<u8>, most: usize) {
    let bytes = rng.below(most + 1);
    memory.extend((0..bytes).map(|_| rng.byte()));
}

/// Cuts the memory, changes some of it, or starts the table elsewhere.
fn damage(rng: &mut Rng, card: &mut Card) {
    let length = card.memory.len();
    let at = rng.below(length);
    match rng.below(6) {
        0 => card.memory.truncate(at),
        1 => card
            .memory
            .truncate(length - rng.between(1, length.min(20))),
        2 => card.memory[at] = rng.byte(),
        3 => card.memory[at] = rng.pick(&[0, 1, 0xA0, 0xB0]),
        4 => card.table = rng.pick(&[0, at as u16, card.table.wrapping_add(1), 0xFFFF]),
        _ => {
            // The NULs at the end are lost, so that the last strings run on, or the table does.
            for byte in &mut card.memory[at..] {
                *byte = (*byte).max(1);
            }
        }
    }
}
