//! The readings of a daughter card, as the program `panelshow` shows them.

use crate::answer::{Answer, Common};
use crate::ending::{Done, Refused, Stop};
use crate::input;
use crate::json::Object;
use crate::table;
use crate::words::Words;
use head::sserial::{self, Field, Way, REGISTERS};
use head::Refusal;
use std::ffi::OsStr;

pub const HELP: &str = "usage: lbp16 panel [--json] [CARD]

Shows the readings of a daughter card's input fields. CARD is, low byte first: the address of the card's process table
(2 bytes), a channel's interface registers 0, 1 and 2 (4 bytes each), and the card's memory from address 0. The address
is the low word of interface register 2 after a start; the memory is read by remote reads; the registers are those that
hold the inputs after an exchange. A reading is the value times the maximum by the largest value; the minimum is left
out.
";

/// Table address, registers and the memory that a 16-bit address reaches with its longest record.
const MOST: u64 = 65_550;
const FRONT: usize = 14;

const TYPES: [&str; 8] = [
    "pad",
    "bits",
    "unsigned",
    "signed",
    "nonvolatile unsigned",
    "nonvolatile signed",
    "stream",
    "boolean",
];

pub fn run(mut words: Words) -> Done {
    let mut common = Common::default();
    while let Some(option) = words.option()? {
        if !common.take_json(&option)? {
            return words.unknown();
        }
    }
    let file = words.one_file()?;
    common.end(shown(&file))
}

fn shown(file: &OsStr) -> Result<Answer, Stop> {
    let input = input::read_most(file, MOST)?;
    let Some((front, memory)) = input.bytes.split_at_checked(FRONT) else {
        let said = "no table address and three registers";
        return Err(Stop::Failed(format!("{}: {said}", input.name)));
    };
    let table = u16::from_le_bytes([front[0], front[1]]);
    let mut registers = [0; REGISTERS];
    let (numbers, _) = front[2..].as_chunks::<4>();
    for (register, number) in registers.iter_mut().zip(numbers) {
        *register = u32::from_le_bytes(*number);
    }
    let read = readings(memory, table, &registers);
    let (words, fields) = read.map_err(|refusal| bad_table(&input.name, memory, table, refusal))?;
    Ok(Answer {
        yes: true,
        words,
        object: Object::new()
            .flag("accepted", true)
            .text("file", &input.name)
            .array("fields", &fields),
        made: None,
    })
}

fn bad_table(name: &str, memory: &[u8], table: u16, refusal: Refusal) -> Stop {
    let wrong = table::wrong(memory, table, refusal.number);
    let said = format!("the table is refused with {}: {wrong}", refusal.number);
    Stop::Refused(Refused {
        message: format!("{name}: {said}\n"),
        object: Object::new()
            .flag("accepted", false)
            .text("file", name)
            .number("refused", refusal.number)
            .text("message", said),
    })
}

/// A line and an object for each field that the card sends.
fn readings(
    memory: &[u8],
    table: u16,
    registers: &[u32; REGISTERS],
) -> Result<(Vec<u8>, Vec<Object>), Refusal> {
    let (inputs, _) = sserial::table(memory, table)?;
    let mut values = vec![0; inputs];
    sserial::unpack(memory, table, Way::In, 0, registers, &mut values)?;
    let (mut words, mut objects) = (Vec::new(), Vec::new());
    let fields = (0..).map_while(|k| sserial::field(memory, table, k).ok());
    let sent = fields.filter(|field| field.direction != 0x80);
    for (field, value) in sent.zip(values) {
        let (name, unit) = (string(memory, field.name), string(memory, field.unit));
        let (said, object) = reading(&field, value, unit);
        words.extend([name, b": ", &said, b"\n"].concat());
        objects.push(object.text("name", name));
    }
    Ok((words, objects))
}

/// The bytes up to a NUL.
fn string(memory: &[u8], at: usize) -> &[u8] {
    let rest = memory.get(at..).unwrap_or_default();
    rest.split(|byte| *byte == 0).next().unwrap_or_default()
}

fn reading(field: &Field, value: u64, unit: &[u8]) -> (Vec<u8>, Object) {
    let Field {
        kind,
        width,
        minimum,
        maximum,
        ..
    } = *field;
    let word = TYPES.get(kind as usize).unwrap_or(&"boolean");
    let signed = kind == 3 || kind == 5;
    let plain = match signed {
        true => (value as i64).to_string(),
        false => value.to_string(),
    };
    let object = Object::new().text("type", word).number("width", width);
    let object = match signed {
        true => object.signed("value", value as i64),
        false => object.number("value", value),
    };
    match head::panel::reading(kind, width, value, minimum, maximum) {
        Ok(reading) => (
            [decimals(reading).as_bytes(), b" ", unit].concat(),
            object.float("reading", reading).text("unit", unit),
        ),
        Err(refusal) if refusal.number == 44 => {
            (format!("{plain} ({word}, width {width})").into(), object)
        }
        Err(refusal) => (
            format!("{plain} ({word}, no reading: {})", refusal.number).into(),
            object.number("refused", refusal.number),
        ),
    }
}

/// Three digits behind the point, computed in binary32.
fn decimals(reading: f32) -> String {
    let sign = if reading < 0.0 { "-" } else { "" };
    let thousandths = reading.abs() * 1000.0 + 0.5;
    match thousandths < 18_446_744_073_709_551_616.0 {
        true => {
            let thousandths = thousandths as u64;
            format!("{sign}{}.{:03}", thousandths / 1000, thousandths % 1000)
        }
        false => format!("{sign}more than 18446744073709551"),
    }
}
