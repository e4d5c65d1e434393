//! Compares the reading of daughter cards' process tables, and packing and unpacking their fields.

use crate::cards::{self, Card};
use crate::lent::Lent;
use crate::rng::Rng;
use crate::tally::Tally;
use crate::{hex, numbers, same_answer, same_input, Outcome};
use head::sserial::exports;
use model::sserial::{field, pack, unpack, Field, Table, Way, ALL_REGISTERS, CHANNEL_BITS};

const TABLE_SITUATIONS: [&str; 9] = [
    NO_FIELD,
    FULL_IN,
    FULL_OUT,
    BOTH_WAYS,
    WIDE,
    MODE,
    PAST_64K,
    ONE_BIT_MORE,
    LATER_41,
];
const NO_FIELD: &str = "table without a field";
const FULL_IN: &str = "inputs of exactly 96 bits";
const FULL_OUT: &str = "outputs of exactly 96 bits";
const BOTH_WAYS: &str = "field of both directions";
const WIDE: &str = "field of 64 bits";
const MODE: &str = "mode among the fields";
const PAST_64K: &str = "table or record that runs past 0xFFFF";
const ONE_BIT_MORE: &str = "refused with 97 bits one way";
const LATER_41: &str = "refused with 41 where 42 holds before it";

const FIELD_SITUATIONS: [&str; 2] = [PAST_THE_LAST, OTHER_ROOM];
const PAST_THE_LAST: &str = "index just past the last field";
const OTHER_ROOM: &str = "good index with room for another count";

const PACK_SITUATIONS: [&str; 9] = [
    NEGATIVE,
    LOWEST,
    ACROSS,
    NO_VALUE,
    BAD_CHANNEL,
    BAD_DIRECTION,
    BAD_REGISTERS,
    BAD_COUNT,
    BAD_VALUE,
];
const NEGATIVE: &str = "negative value";
const LOWEST: &str = "lowest value of a signed field";
const ACROSS: &str = "field across two registers";
const NO_VALUE: &str = "no field that way";
const BAD_CHANNEL: &str = "refused for the channel alone";
const BAD_DIRECTION: &str = "refused for the direction alone";
const BAD_REGISTERS: &str = "refused for the number of registers alone";
const BAD_COUNT: &str = "refused for the number of values alone";
const BAD_VALUE: &str = "refused for a value one past its range";

const UNPACK_SITUATIONS: [&str; 8] = [
    NEGATIVE,
    LOWEST,
    ACROSS,
    NO_VALUE,
    BAD_CHANNEL,
    BAD_DIRECTION,
    BAD_REGISTERS,
    BAD_COUNT,
];

/// Compares the tables of `count` cards, and some calls on each.
pub fn compare(seed: u64, count: u64) -> Outcome {
    let mut part = Part {
        rng: Rng::new(seed),
        tables: Tally::new("tables", &[0, 41, 42], &TABLE_SITUATIONS),
        fields: Tally::new("card fields", &[0, 40, 41, 42], &FIELD_SITUATIONS),
        packs: Tally::new("packing", &[0, 40, 41, 42], &PACK_SITUATIONS),
        unpacks: Tally::new("unpacking", &[0, 40, 41, 42], &UNPACK_SITUATIONS),
    };
    for case in 0..count {
        let card = cards::any(&mut part.rng);
        let result = part.case(&card);
        result.map_err(|what| {
            let memory = hex(&card.memory);
            format!("card {case}: {what}\ntable at {:04X}, {memory}", card.table)
        })?;
    }
    Ok(vec![part.tables, part.fields, part.packs, part.unpacks])
}

struct Part {
    rng: Rng,
    tables: Tally,
    fields: Tally,
    packs: Tally,
    unpacks: Tally,
}

/// What else is given to pack or unpack, and the one fault in it, if there is one.
pub(crate) struct Call {
    pub direction: u32,
    pub channel: u32,
    pub registers: usize,
    pub values: Vec<u64>,
    fault: Option<&'static str>,
}

impl Part {
    fn case(&mut self, card: &Card) -> Result<(), String> {
        let lent = card.memory.clone();
        let table = Table::read(&card.memory, card.table);
        let (number, inputs, outputs) = exports::table(&lent, card.table);
        let count = |way| table.as_ref().map_or(0, |table| table.count(way) as u64);
        same_answer((number, inputs), numbers(&table, |_| count(Way::In)))?;
        if outputs != count(Way::Out) {
            return Err(format!("{outputs} outputs, expected {}", count(Way::Out)));
        }
        self.count_table(card, &table);

        let fields = table.map_or(Vec::new(), |table| table.fields);
        for _ in 0..2 {
            self.field(card, &fields)?;
            let call = Call::new(&mut self.rng, &fields, true);
            self.pack(card, &fields, &call)
                .map_err(|what| format!("packing: {what}\n{}", call.text()))?;
            let call = Call::new(&mut self.rng, &fields, false);
            self.unpack(card, &fields, &call)
                .map_err(|what| format!("unpacking: {what}\n{}", call.text()))?;
        }
        same_input(&lent, &card.memory)
    }

    fn field(&mut self, card: &Card, fields: &[Field]) -> Result<(), String> {
        let count = fields.len() as u64;
        let index = match self.rng.below(8) {
            0 => count,
            1 => self.rng.pick(&[count + 1, u64::MAX, 1 << 32]),
            _ => self.rng.below(fields.len().max(1)) as u64,
        };
        let room = match self.rng.below(10) {
            0 => self.rng.pick(&[0, 1, 6, 8, 14]),
            _ => 7,
        };
        let mut numbers = Lent::new("field", 14, self.rng.word());
        let (library, model) = numbers.lend(room);
        let result = field(&card.memory, card.table, index, model);
        let expected = result.map_or_else(|refusal| refusal.number, |()| 0);
        let number = exports::field(&card.memory, card.table, index, library);
        same_answer((number, 0), (expected, 0))
            .and_then(|()| numbers.compare(expected != 0))
            .map_err(|what| format!("field {index}, room of {room}: {what}"))?;
        self.fields.ending(expected);
        let refused = expected == 40;
        let past = refused && index == count && room == 7;
        self.fields.situation(PAST_THE_LAST, past);
        let other = refused && index < count;
        self.fields.situation(OTHER_ROOM, other);
        Ok(())
    }

    fn pack(&mut self, card: &Card, fields: &[Field], call: &Call) -> Result<(), String> {
        let rng = &mut self.rng;
        let mut registers = Lent::new("registers", ALL_REGISTERS, 0);
        registers.change(|registers| fill_registers(rng, registers));
        let (library, model) = registers.lend(call.registers);
        let Call {
            direction,
            channel,
            values,
            ..
        } = call;
        let (memory, table) = (&card.memory, card.table);
        let result = pack(memory, table, *direction, *channel, values, model);
        let expected = result.map_or_else(|refusal| refusal.number, |()| 0);
        let lent = values.clone();
        let number = exports::pack(memory, table, *direction, *channel, &lent, library);
        same_answer((number, 0), (expected, 0))?;
        registers.compare(expected != 0)?;
        same_input(&lent, values)?;
        if expected == 0 {
            // What was packed is unpacked again.
            let (library, _) = registers.lend(call.registers);
            let mut back = vec![0; values.len()];
            let number = exports::unpack(memory, table, *direction, *channel, library, &mut back);
            if (number, &back) != (0, values) {
                return Err(format!("unpacked again ({number}): {back:X?}"));
            }
        }
        count_call(&mut self.packs, expected, fields, call, values);
        Ok(())
    }

    fn unpack(&mut self, card: &Card, fields: &[Field], call: &Call) -> Result<(), String> {
        let rng = &mut self.rng;
        let mut registers = Lent::new("registers", ALL_REGISTERS, 0);
        registers.change(|registers| fill_registers(rng, registers));
        let (lent, given) = registers.lend(call.registers);
        let mut values = Lent::new("values", call.values.len(), self.rng.number());
        let (library, model) = values.lend(call.values.len());
        let (memory, table) = (&card.memory, card.table);
        let result = unpack(memory, table, call.direction, call.channel, given, model);
        let expected = result.map_or_else(|refusal| refusal.number, |()| 0);
        let number = exports::unpack(memory, table, call.direction, call.channel, lent, library);
        same_answer((number, 0), (expected, 0))?;
        values.compare(expected != 0)?;
        registers.compare(true)?;
        let unpacked = &values.model()[..call.values.len()];
        count_call(&mut self.unpacks, expected, fields, call, unpacked);
        Ok(())
    }

    fn count_table(&mut self, card: &Card, table: &Result<Table, model::Refusal>) {
        let tally = &mut self.tables;
        let number = table.as_ref().map_or_else(|refusal| refusal.number, |_| 0);
        tally.ending(number);
        let seen = seen(card);
        let bits = |way: Way| -> u32 {
            let going = seen.fields.iter().filter(|field| field.goes(way));
            going.map(|field| u32::from(field.width)).sum()
        };
        let (inputs, outputs) = (bits(Way::In), bits(Way::Out));
        let any = |test: fn(&Field) -> bool| seen.fields.iter().any(test);
        let accepted = number == 0;
        tally.situation(NO_FIELD, accepted && seen.fields.is_empty());
        tally.situation(FULL_IN, accepted && inputs == CHANNEL_BITS);
        tally.situation(FULL_OUT, accepted && outputs == CHANNEL_BITS);
        tally.situation(BOTH_WAYS, accepted && any(|field| field.direction == 0x40));
        tally.situation(WIDE, accepted && any(|field| field.width == 64));
        tally.situation(MODE, accepted && seen.modes > 0 && !seen.fields.is_empty());
        tally.situation(PAST_64K, accepted && seen.end > 0x1_0000);
        let widths_good = !any(|field| field.width == 0 || field.width > 64);
        let one_more = inputs.max(outputs) == CHANNEL_BITS + 1;
        tally.situation(ONE_BIT_MORE, number == 42 && widths_good && one_more);
        let passed = inputs.max(outputs) > CHANNEL_BITS;
        tally.situation(LATER_41, number == 41 && (passed || !widths_good));
    }
}

impl Call {
    /// A call on a card with these fields, half of them with one fault.
    pub fn new(rng: &mut Rng, fields: &[Field], packing: bool) -> Call {
        let way = rng.pick(&[Way::In, Way::Out]);
        let going: Vec<&Field> = fields.iter().filter(|field| field.goes(way)).collect();
        let mut call = Call {
            direction: way as u32,
            channel: rng.below(8) as u32,
            registers: ALL_REGISTERS,
            values: going.iter().map(|field| value(rng, field)).collect(),
            fault: None,
        };
        let fault = match rng.below(10) {
            0 => {
                call.channel = rng.pick(&[8, 9, 255, 256, u32::MAX]);
                BAD_CHANNEL
            }
            1 => {
                call.direction = rng.pick(&[2, 3, 0x40, 0x80, u32::MAX]);
                BAD_DIRECTION
            }
            2 => {
                call.registers = rng.pick(&[0, 3, 23, 25, 48]);
                BAD_REGISTERS
            }
            3 => {
                if rng.coin() || call.values.pop().is_none() {
                    call.values.push(0);
                }
                if call.values.len() == going.len() {
                    call.values.push(0);
                }
                BAD_COUNT
            }
            4 if packing && !going.is_empty() => {
                let index = rng.below(going.len());
                let Some(wrong) = beyond(rng, going[index]) else {
                    return call;
                };
                call.values[index] = wrong;
                BAD_VALUE
            }
            _ => return call,
        };
        call.fault = Some(fault);
        call
    }

    fn text(&self) -> String {
        format!(
            "direction {}, channel {}, {} registers, {} values: {:X?}",
            self.direction,
            self.channel,
            self.registers,
            self.values.len(),
            self.values
        )
    }
}

/// What a walk over a table meets before it is refused, widths not looked at.
struct Seen {
    fields: Vec<Field>,
    modes: usize,
    /// The highest place that was needed, and one.
    end: usize,
}

fn seen(card: &Card) -> Seen {
    let mut seen = Seen {
        fields: Vec::new(),
        modes: 0,
        end: 0,
    };
    let mut entry = usize::from(card.table);
    while let Some(&[low, high]) = card.memory.get(entry..entry + 2) {
        entry += 2;
        seen.end = seen.end.max(entry);
        let place = usize::from(u16::from_le_bytes([low, high]));
        if place == 0 {
            break;
        }
        match model::sserial::record(&card.memory, place) {
            None => break,
            Some(None) => seen.modes += 1,
            Some(Some(field)) => {
                let name = card.memory[field.name..].iter();
                seen.end = seen
                    .end
                    .max(field.name + name.take_while(|&&byte| byte != 0).count() + 1);
                seen.fields.push(field);
            }
        }
    }
    seen
}

/// Fills registers with random bits, some all ones or zero.
pub(crate) fn fill_registers(rng: &mut Rng, registers: &mut [u32]) {
    for register in registers {
        let word = rng.word();
        *register = rng.pick(&[word, word, word, 0, u32::MAX, 0x8000_0000]);
    }
}

/// A value in the field's range, often at one of its ends.
fn value(rng: &mut Rng, field: &Field) -> u64 {
    let (lowest, highest) = range(field);
    let number = rng.number();
    match rng.below(6) {
        0 => lowest as u64,
        1 => highest as u64,
        2 => 0,
        _ => (lowest + (number as i128).rem_euclid(highest - lowest + 1)) as u64,
    }
}

/// A value out of the field's range by one, where there is one.
fn beyond(rng: &mut Rng, field: &Field) -> Option<u64> {
    let (lowest, highest) = range(field);
    match field.width {
        64 => None,
        _ if rng.coin() => Some((lowest - 1) as u64),
        _ => Some((highest + 1) as u64),
    }
}

fn range(field: &Field) -> (i128, i128) {
    match field.kind {
        3 | 5 => (-1 << (field.width - 1), (1 << (field.width - 1)) - 1),
        _ => (0, (1 << field.width) - 1),
    }
}

fn count_call(tally: &mut Tally, number: u32, fields: &[Field], call: &Call, values: &[u64]) {
    tally.ending(number);
    if let (40, Some(fault)) = (number, call.fault) {
        tally.situation(fault, true);
    }
    if number != 0 {
        return;
    }
    let way = Way::from_number(call.direction).expect("an accepted direction");
    let mut place = 0;
    let going = fields.iter().filter(|field| field.goes(way));
    for (field, &value) in going.zip(values) {
        let (lowest, _) = range(field);
        let end = place + usize::from(field.width);
        tally.situation(NEGATIVE, lowest < 0 && (value as i64) < 0);
        tally.situation(LOWEST, lowest < 0 && value == lowest as u64);
        tally.situation(ACROSS, place / 32 != (end - 1) / 32);
        place = end;
    }
    tally.situation(NO_VALUE, values.is_empty());
}
