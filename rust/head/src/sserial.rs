//! Daughter cards' process tables, and packing their fields to the interface registers.
//!
//! `memory` is the card's memory from address 0 and `table` the address at which its process table
//! of contents starts. A table that needs a byte not lent, or has a record, type or direction that
//! is not in the manual, is refused with 41; one with a field of 0 or above 64 bits, or of more
//! than 96 bits one way, with 42.
//!
//! ```
//! // A table of no fields, and one that begins past the memory's end.
//! assert_eq!(head::sserial::table(&[0; 4], 0), Ok((0, 0)));
//! assert_eq!(head::sserial::table(&[0; 4], 4).unwrap_err().number, 41);
//! ```
#![forbid(unsafe_code)]

use crate::refusal::placeless;
use crate::{Refusal, raw};

/// The registers of all eight channels, three for each.
///
/// ```
/// let registers = [0; head::sserial::REGISTERS];
/// assert_eq!(registers.chunks(3).count(), 8);
/// ```
pub const REGISTERS: usize = 24;

/// The way that data goes, as the host sees it.
///
/// ```
/// assert_eq!((head::sserial::Way::In as u32, head::sserial::Way::Out as u32), (0, 1));
/// ```
#[derive(Clone, Copy, Debug, PartialEq, Eq)]
pub enum Way {
    /// Read from the card.
    In = 0,
    /// Written to the card.
    Out = 1,
}

/// A process data descriptor.
///
/// ```
/// // A table at address 2 with one field: 12 bits, signed, both ways, no unit, named T.
/// let mut memory = [0; 24];
/// memory[2..4].copy_from_slice(&[6, 0]);
/// memory[6..10].copy_from_slice(&[0xA0, 12, 3, 0x40]);
/// memory[21] = b'T';
/// let field = head::sserial::field(&memory, 2, 0)?;
/// assert_eq!((memory[field.unit], memory[field.name]), (0, b'T'));
/// # Ok::<(), head::Refusal>(())
/// ```
#[derive(Clone, Copy, Debug, PartialEq)]
pub struct Field {
    /// In bits.
    pub width: u32,
    /// 0 to 7, as the manual numbers them: 2 is UNSIGNED.
    pub kind: u32,
    /// 0x00 input, 0x40 both, 0x80 output.
    pub direction: u32,
    /// The value of the least number.
    pub minimum: f32,
    /// The value of the greatest number.
    pub maximum: f32,
    /// Where the unit begins in the card's memory. It ends at a NUL.
    pub unit: usize,
    /// Where the name begins, likewise.
    pub name: usize,
}

/// How many fields a table has each way: inputs, outputs. One of both ways counts twice.
///
/// ```
/// // A table at address 2 with one field: 12 bits, signed, both ways, no unit, named T.
/// let mut memory = [0; 24];
/// memory[2..4].copy_from_slice(&[6, 0]);
/// memory[6..10].copy_from_slice(&[0xA0, 12, 3, 0x40]);
/// memory[21] = b'T';
/// assert_eq!(head::sserial::table(&memory, 2), Ok((1, 1)));
/// ```
pub fn table(memory: &[u8], table: u16) -> Result<(usize, usize), Refusal> {
    let (number, inputs, outputs) = raw::table(memory, table);
    placeless(number)?;
    Ok((inputs as usize, outputs as usize))
}

/// A field by its index in table order, modes not counted. One past the last is refused with 40.
///
/// ```
/// // A table at address 2 with one field: 12 bits, signed, both ways, no unit, named T.
/// let mut memory = [0; 24];
/// memory[2..4].copy_from_slice(&[6, 0]);
/// memory[6..10].copy_from_slice(&[0xA0, 12, 3, 0x40]);
/// memory[21] = b'T';
/// assert_eq!(head::sserial::field(&memory, 2, 0)?.width, 12);
/// assert_eq!(head::sserial::field(&memory, 2, 1).unwrap_err().number, 40);
/// # Ok::<(), head::Refusal>(())
/// ```
pub fn field(memory: &[u8], table: u16, index: usize) -> Result<Field, Refusal> {
    let mut numbers = [0; 7];
    placeless(raw::field(memory, table, index as u64, &mut numbers))?;
    let [width, kind, direction, minimum, maximum, unit, name] = numbers;
    Ok(Field {
        width,
        kind,
        direction,
        minimum: f32::from_bits(minimum),
        maximum: f32::from_bits(maximum),
        unit: unit as usize,
        name: name as usize,
    })
}

/// Packs one value for each field of one way into a channel's registers, and clears their unused
/// bits. The other channels are left as they are.
///
/// Values of signed fields are in two's complement of 64 bits. A channel above 7, another number of
/// values than fields, or a value out of its field's range is refused with 40.
///
/// ```
/// use head::sserial::{pack, unpack, Way, REGISTERS};
///
/// // A table at address 2 with one field: 12 bits, signed, both ways, no unit, named T.
/// let mut memory = [0; 24];
/// memory[2..4].copy_from_slice(&[6, 0]);
/// memory[6..10].copy_from_slice(&[0xA0, 12, 3, 0x40]);
/// memory[21] = b'T';
///
/// let mut registers = [0; REGISTERS];
/// pack(&memory, 2, Way::Out, 7, &[-2i64 as u64], &mut registers)?;
/// assert_eq!(registers[21..], [0xFFE, 0, 0]);
/// let mut values = [0];
/// unpack(&memory, 2, Way::In, 7, &registers, &mut values)?;
/// assert_eq!(values[0] as i64, -2);
/// # Ok::<(), head::Refusal>(())
/// ```
pub fn pack(
    memory: &[u8],
    table: u16,
    way: Way,
    channel: u32,
    values: &[u64],
    registers: &mut [u32; REGISTERS],
) -> Result<(), Refusal> {
    placeless(raw::pack(
        memory, table, way as u32, channel, values, registers,
    ))
}

/// Unpacks the fields of one way from a channel's registers. `values` must have room for exactly
/// as many: otherwise, and for a channel above 7, the refusal is 40.
///
/// ```
/// use head::sserial::{unpack, Way, REGISTERS};
///
/// // A table at address 2 with one field: 12 bits, signed, both ways, no unit, named T.
/// let mut memory = [0; 24];
/// memory[2..4].copy_from_slice(&[6, 0]);
/// memory[6..10].copy_from_slice(&[0xA0, 12, 3, 0x40]);
/// memory[21] = b'T';
/// let (mut registers, mut values) = ([0; REGISTERS], [0]);
/// registers[3] = 0x7FF;
/// unpack(&memory, 2, Way::In, 1, &registers, &mut values)?;
/// assert_eq!(values, [2_047]);
/// # Ok::<(), head::Refusal>(())
/// ```
pub fn unpack(
    memory: &[u8],
    table: u16,
    way: Way,
    channel: u32,
    registers: &[u32; REGISTERS],
    values: &mut [u64],
) -> Result<(), Refusal> {
    placeless(raw::unpack(
        memory, table, way as u32, channel, registers, values,
    ))
}

/// The library's answers of this module, as numbers.
///
/// ```
/// assert_eq!(head::sserial::exports::table(&[], 0), (41, 0, 0));
/// ```
pub mod exports {
    pub use crate::raw::{field, pack, table, unpack};
}
