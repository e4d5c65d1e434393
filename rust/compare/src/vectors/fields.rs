//! Command words, burst headers, daughter cards, the panel, and the sentences of numbers.

use super::{File, Lent, Room, UNWRITTEN};
use crate::sserial::{fill_registers, Call};
use crate::words::{self, FIELDS};
use crate::{cards, headers, numbers, panel};
use model::panel::{reading, report, start, Bounds};
use model::sentence::{sentence, MOST_BYTES};
use model::sserial::{field, pack, unpack, Field, Table, Way};
use model::Refusal;

pub fn some(file: &mut File, count: usize) {
    for _ in 0..count {
        command_word(file);
        burst_header(file);
        masks(file);
        value(file);
        said(file);
    }
    for _ in 0..count / 4 {
        let card = cards::any(&mut file.rng);
        // Of the cards whose memory passes 0xFFFF only few, since they fill the file.
        if card.memory.len() < 3_000 || file.rng.one_in(8) {
            daughter(file, &card);
        }
    }
}

fn returned(result: &Result<(), Refusal>) -> u32 {
    result
        .as_ref()
        .map_or_else(|refusal| refusal.number, |()| 0)
}

fn said(file: &mut File) {
    let rng = &mut file.rng;
    let number = if rng.one_in(4) {
        rng.word()
    } else {
        rng.below(100) as u32
    };
    let text = sentence(number).as_bytes();
    let room = rng.pick(&[text.len() - 1, text.len(), MOST_BYTES]);
    let mut before = vec![0; room];
    rng.fill(&mut before);
    let mut after = before.clone();
    let returned = if room < text.len() { 26 } else { 0 };
    if returned == 0 {
        after[..text.len()].copy_from_slice(text);
    }
    let lent = vec![Lent::changed(Room::Output, &before, &after)];
    let answers = [text.len() as u64];
    file.call("head_sentence", returned, &[number.into()], &answers, lent);
}

fn command_word(file: &mut File) {
    let rng = &mut file.rng;
    let word = rng.number() as u16;
    let room = if rng.one_in(8) {
        rng.pick(&[0, 6, 8])
    } else {
        FIELDS
    };
    let mut before = vec![0; room];
    rng.fill(&mut before);
    let mut after = before.clone();
    let number = words::fields(word, &mut after);
    let lent = vec![Lent::changed(Room::Output, &before, &after)];
    file.call("head_fields", number, &[word.into()], &[], lent);

    let bytes = words::fields_at_the_ends(&mut file.rng);
    let bytes = &bytes[..if file.rng.one_in(8) { 6 } else { FIELDS }];
    let mut word = UNWRITTEN as u16;
    let number = words::word(bytes, &mut word);
    let lent = vec![Lent::kept(Room::Input, bytes)];
    file.call("head_word", number, &[], &[word.into()], lent);
}

fn burst_header(file: &mut File) {
    let word = file.rng.word();
    let room = if file.rng.one_in(8) {
        3
    } else {
        headers::FIELDS
    };
    let before = vec![UNWRITTEN as u32; room];
    let mut after = before.clone();
    let number = headers::header(word, &mut after);
    let lent = vec![Lent::words(Room::Answer, &before, &after)];
    file.call("head_header", number, &[word.into()], &[], lent);

    let fields = headers::any_fields(&mut file.rng);
    let fields = &fields[..if file.rng.one_in(8) {
        3
    } else {
        headers::FIELDS
    }];
    let mut word = UNWRITTEN as u32;
    let number = headers::header_word(fields, &mut word);
    let lent = vec![Lent::words(Room::Words, fields, fields)];
    file.call("head_header_word", number, &[], &[word.into()], lent);
}

fn masks(file: &mut File) {
    let (asked, other) = (file.rng.byte(), file.rng.byte());
    let started = if file.rng.coin() {
        other | asked
    } else {
        other
    };
    let (number, mask) = match start(asked, started) {
        Ok(mask) => (0, mask),
        Err(refusal) => (refusal.number, UNWRITTEN as u8),
    };
    file.call(
        "head_panel_start",
        number,
        &[asked.into(), started.into()],
        &[mask.into()],
        vec![],
    );
    let found = report(asked, other);
    let answers = [found.asked, found.failed, found.lowest].map(u64::from);
    file.call(
        "head_panel_report",
        0,
        &[asked.into(), other.into()],
        &answers,
        vec![],
    );
}

fn value(file: &mut File) {
    let call = panel::Call::new(&mut file.rng);
    let bounds = Bounds {
        minimum: f32::from_bits(call.minimum),
        maximum: f32::from_bits(call.maximum),
    };
    let (number, bits) = match reading(call.kind, call.width, call.value, bounds) {
        Ok(reading) => (0, reading.to_bits()),
        Err(refusal) => (refusal.number, UNWRITTEN as u32),
    };
    let [kind, width, minimum, maximum] =
        [call.kind, call.width, call.minimum, call.maximum].map(u64::from);
    let plain = [kind, width, call.value, minimum, maximum];
    file.call("head_panel_reading", number, &plain, &[bits.into()], vec![]);
}

fn daughter(file: &mut File, card: &cards::Card) {
    let table = Table::read(&card.memory, card.table);
    let count = |way| table.as_ref().map_or(0, |table| table.count(way) as u64);
    let (number, _) = numbers(&table, |_| 0);
    let lent = vec![Lent::kept(Room::Input, &card.memory)];
    file.call(
        "head_table",
        number,
        &[card.table.into()],
        &[count(Way::In), count(Way::Out)],
        lent,
    );

    let fields = table.map_or(Vec::new(), |table| table.fields);
    for _ in 0..2 {
        one_field(file, card, fields.len());
        packed(file, card, &fields);
        unpacked(file, card, &fields);
    }
}

fn one_field(file: &mut File, card: &cards::Card, fields: usize) {
    let index = file.rng.below(fields + 2) as u64;
    let room = match file.rng.one_in(8) {
        true => file.rng.pick(&[0, 6, 8]),
        false => 7,
    };
    let before: Vec<u32> = (0..room).map(|_| file.rng.word()).collect();
    let mut after = before.clone();
    let number = returned(&field(&card.memory, card.table, index, &mut after));
    let lent = vec![
        Lent::kept(Room::Input, &card.memory),
        Lent::words(Room::Words, &before, &after),
    ];
    file.call("head_field", number, &[card.table.into(), index], &[], lent);
}

fn packed(file: &mut File, card: &cards::Card, fields: &[Field]) {
    let Call {
        direction,
        channel,
        registers,
        values,
        ..
    } = Call::new(&mut file.rng, fields, true);
    let mut before = vec![0; registers];
    fill_registers(&mut file.rng, &mut before);
    let mut after = before.clone();
    let number = returned(&pack(
        &card.memory,
        card.table,
        direction,
        channel,
        &values,
        &mut after,
    ));
    let lent = vec![
        Lent::kept(Room::Input, &card.memory),
        Lent::numbers(Room::Numbers, &values, &values),
        Lent::words(Room::Words, &before, &after),
    ];
    let plain = [card.table.into(), direction.into(), channel.into()];
    file.call("head_pack", number, &plain, &[], lent);
}

fn unpacked(file: &mut File, card: &cards::Card, fields: &[Field]) {
    let Call {
        direction,
        channel,
        registers,
        values,
        ..
    } = Call::new(&mut file.rng, fields, false);
    let mut words = vec![0; registers];
    fill_registers(&mut file.rng, &mut words);
    let before: Vec<u64> = values.iter().map(|_| file.rng.number()).collect();
    let mut after = before.clone();
    let number = returned(&unpack(
        &card.memory,
        card.table,
        direction,
        channel,
        &words,
        &mut after,
    ));
    let lent = vec![
        Lent::kept(Room::Input, &card.memory),
        Lent::words(Room::Words, &words, &words),
        Lent::numbers(Room::Numbers, &before, &after),
    ];
    let plain = [card.table.into(), direction.into(), channel.into()];
    file.call("head_unpack", number, &plain, &[], lent);
}
