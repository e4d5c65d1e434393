//! Daughter cards: their process tables, and packing their fields to the interface registers.

use crate::Refusal;

pub const CHANNELS: usize = 8;
/// The interface registers of one channel.
pub const REGISTERS: usize = 3;
/// The bits that they hold, and so the most that the fields of one direction may have.
pub const CHANNEL_BITS: u32 = 96;

/// The registers of all channels, one channel after the other.
pub const ALL_REGISTERS: usize = CHANNELS * REGISTERS;

/// A process data descriptor.
#[derive(Clone, Copy, Debug, PartialEq, Eq)]
pub struct Field {
    /// In bits.
    pub width: u8,
    /// 0 to 7: pad, bits, unsigned, signed, nonvolatile unsigned, nonvolatile signed, stream,
    /// boolean.
    pub kind: u8,
    /// The descriptor's byte: 0x00 input, 0x40 both, 0x80 output.
    pub direction: u8,
    /// The bits of the floats that stand there.
    pub minimum: u32,
    pub maximum: u32,
    /// Where the unit and the name begin.
    pub unit: usize,
    pub name: usize,
}

/// The way that data goes, as the host sees it.
#[derive(Clone, Copy, Debug, PartialEq, Eq)]
pub enum Way {
    In,
    Out,
}

impl Way {
    pub fn from_number(number: u32) -> Option<Way> {
        match number {
            0 => Some(Way::In),
            1 => Some(Way::Out),
            _ => None,
        }
    }
}

impl Field {
    pub fn goes(&self, way: Way) -> bool {
        match way {
            Way::In => self.direction != 0x80,
            Way::Out => self.direction != 0x00,
        }
    }

    fn signed(&self) -> bool {
        matches!(self.kind, 3 | 5)
    }

    /// The field's bits of a value, if that is in range.
    fn encode(&self, value: u64) -> Option<u64> {
        let bits = value & self.ones();
        (self.decode(bits) == value).then_some(bits)
    }

    /// The value of the field's bits.
    fn decode(&self, bits: u64) -> u64 {
        let negative = self.signed() && bits >> (self.width - 1) & 1 == 1;
        if negative {
            bits | !self.ones()
        } else {
            bits
        }
    }

    /// As many ones as the field is wide, from 1 to 64.
    fn ones(&self) -> u64 {
        u64::MAX >> (64 - u32::from(self.width))
    }
}

/// A card's process table.
#[derive(Clone, Debug, PartialEq, Eq)]
pub struct Table {
    /// The fields in table order.
    pub fields: Vec<Field>,
}

impl Table {
    /// Reads the table whose contents start at an address of the card's memory.
    pub fn read(memory: &[u8], address: u16) -> Result<Table, Refusal> {
        let fields = read_all(memory, address.into()).ok_or(Refusal::whole(41))?;
        let table = Table { fields };
        let wrong_width = |field: &Field| field.width == 0 || field.width > 64;
        if table.fields.iter().any(wrong_width)
            || table.bits(Way::In) > CHANNEL_BITS
            || table.bits(Way::Out) > CHANNEL_BITS
        {
            return Err(Refusal::whole(42));
        }
        Ok(table)
    }

    /// The fields of one way in table order.
    pub fn going(&self, way: Way) -> impl Iterator<Item = &Field> {
        self.fields.iter().filter(move |field| field.goes(way))
    }

    pub fn count(&self, way: Way) -> usize {
        self.going(way).count()
    }

    pub fn bits(&self, way: Way) -> u32 {
        self.going(way).map(|field| u32::from(field.width)).sum()
    }
}

/// The seven numbers of one field.
pub fn field(memory: &[u8], table: u16, index: u64, room: &mut [u32]) -> Result<(), Refusal> {
    let table = Table::read(memory, table)?;
    let field = usize::try_from(index)
        .ok()
        .and_then(|index| table.fields.get(index));
    match field {
        Some(field) if room.len() == 7 => {
            room.copy_from_slice(&[
                field.width.into(),
                field.kind.into(),
                field.direction.into(),
                field.minimum,
                field.maximum,
                field.unit as u32,
                field.name as u32,
            ]);
            Ok(())
        }
        _ => Err(Refusal::whole(40)),
    }
}

/// Packs a value for each field of one way into a channel's registers.
pub fn pack(
    memory: &[u8],
    table: u16,
    way: u32,
    channel: u32,
    values: &[u64],
    registers: &mut [u32],
) -> Result<(), Refusal> {
    let table = Table::read(memory, table)?;
    let refused = Refusal::whole(40);
    let way = Way::from_number(way).ok_or(refused)?;
    let channel = channel_registers(channel, registers.len()).ok_or(refused)?;
    if values.len() != table.count(way) {
        return Err(refused);
    }

    let mut packed: u128 = 0;
    let mut place = 0;
    for (field, &value) in table.going(way).zip(values) {
        let bits = field.encode(value).ok_or(refused)?;
        packed |= u128::from(bits) << place;
        place += u32::from(field.width);
    }
    for (k, register) in registers[channel].iter_mut().enumerate() {
        *register = (packed >> (32 * k)) as u32;
    }
    Ok(())
}

/// Unpacks the fields of one way from a channel's registers.
pub fn unpack(
    memory: &[u8],
    table: u16,
    way: u32,
    channel: u32,
    registers: &[u32],
    values: &mut [u64],
) -> Result<(), Refusal> {
    let table = Table::read(memory, table)?;
    let refused = Refusal::whole(40);
    let way = Way::from_number(way).ok_or(refused)?;
    let channel = channel_registers(channel, registers.len()).ok_or(refused)?;
    if values.len() != table.count(way) {
        return Err(refused);
    }

    let mut packed: u128 = 0;
    for &register in registers[channel].iter().rev() {
        packed = packed << 32 | u128::from(register);
    }
    for (field, value) in table.going(way).zip(values) {
        *value = field.decode(packed as u64 & field.ones());
        packed >>= field.width;
    }
    Ok(())
}

/// A channel's place among all registers, if these are all there.
fn channel_registers(channel: u32, registers: usize) -> Option<std::ops::Range<usize>> {
    let channel = channel as usize;
    let there = channel < CHANNELS && registers == ALL_REGISTERS;
    there.then_some(REGISTERS * channel..REGISTERS * (channel + 1))
}

/// All fields that the table's entries lead to, or nothing where a byte is missing or a number is
/// not in the document.
fn read_all(memory: &[u8], address: usize) -> Option<Vec<Field>> {
    let mut fields = Vec::new();
    let mut entry = address;
    loop {
        let bytes = memory.get(entry..entry + 2)?;
        let place = u16::from_le_bytes([bytes[0], bytes[1]]);
        if place == 0 {
            return Some(fields);
        }
        fields.extend(record(memory, place.into())?);
        entry += 2;
    }
}

/// The record at a place: a field, or a mode, which holds none.
pub fn record(memory: &[u8], place: usize) -> Option<Option<Field>> {
    match memory.get(place)? {
        0xA0 => descriptor(memory, place).map(Some),
        0xB0 => mode(memory, place).map(|()| None),
        _ => None,
    }
}

fn descriptor(memory: &[u8], place: usize) -> Option<Field> {
    let fixed = memory.get(place..place + 14)?;
    let float =
        |at: usize| u32::from_le_bytes([fixed[at], fixed[at + 1], fixed[at + 2], fixed[at + 3]]);
    let unit = place + 14;
    let name = behind_string(memory, unit)?;
    behind_string(memory, name)?;
    let field = Field {
        width: fixed[1],
        kind: fixed[2],
        direction: fixed[3],
        minimum: float(4),
        maximum: float(8),
        unit,
        name,
    };
    let known = field.kind <= 7 && matches!(field.direction, 0x00 | 0x40 | 0x80);
    known.then_some(field)
}

fn mode(memory: &[u8], place: usize) -> Option<()> {
    let fixed = memory.get(place..place + 4)?;
    behind_string(memory, place + 4)?;
    (fixed[2] <= 1).then_some(())
}

/// The place behind the NUL that ends the string at a place.
fn behind_string(memory: &[u8], place: usize) -> Option<usize> {
    let length = memory.get(place..)?.iter().position(|&byte| byte == 0)?;
    Some(place + length + 1)
}
