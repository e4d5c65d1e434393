//! The process data example of the 7I76E manual, and the limits of order 1.

use model::sserial::{field, pack, unpack, Table, Way, ALL_REGISTERS};
use model::Refusal;

/// A card's memory in the making: records from address 0x100 on, their table at 0x10.
struct Card {
    memory: Vec<u8>,
    entries: usize,
}

impl Card {
    const TABLE: u16 = 0x10;

    fn new() -> Card {
        Card {
            memory: vec![0; 0x100],
            entries: 0,
        }
    }

    fn add(&mut self, record: &[u8]) {
        let place = self.memory.len() as u16;
        let entry = usize::from(Card::TABLE) + 2 * self.entries;
        self.memory[entry..entry + 2].copy_from_slice(&place.to_le_bytes());
        self.memory.extend(record);
        self.entries += 1;
    }

    fn field(&mut self, name: &str, width: u8, kind: u8, direction: u8) {
        let mut record = vec![0xA0, width, kind, direction];
        record.extend(0f32.to_bits().to_le_bytes());
        record.extend(36.3f32.to_bits().to_le_bytes());
        record.extend([0x34, 0x12]);
        record.extend(b"V\0");
        record.extend(name.as_bytes());
        record.push(0);
        self.add(&record);
    }

    fn table(&self) -> Result<Table, Refusal> {
        Table::read(&self.memory, Card::TABLE)
    }

    fn packed(&self, way: u32, values: &[u64]) -> Result<[u32; 3], Refusal> {
        let mut registers = [0xEEEE_EEEE; ALL_REGISTERS];
        pack(&self.memory, Card::TABLE, way, 5, values, &mut registers)?;
        let (before, rest) = registers.split_at(15);
        let (packed, behind) = rest.split_at(3);
        let untouched = |register: &u32| *register == 0xEEEE_EEEE;
        assert!(before.iter().all(untouched) && behind.iter().all(untouched));
        Ok(packed.try_into().unwrap())
    }

    fn unpacked(&self, way: u32, registers: [u32; 3]) -> Vec<u64> {
        let mut all = [0xEEEE_EEEE; ALL_REGISTERS];
        all[15..18].copy_from_slice(&registers);
        let way_fields = Way::from_number(way).unwrap();
        let mut values = vec![0; self.table().unwrap().count(way_fields)];
        unpack(&self.memory, Card::TABLE, way, 5, &all, &mut values).unwrap();
        values
    }
}

/// The 7I76E in mode 1: SPINENA and SPINDIR stand in bytes 4 and 5.
fn example() -> Card {
    let mut card = Card::new();
    card.add(b"\xB0\x01\x01\x00IO_ANALOG\0");
    card.field("TB6_OUTS", 8, 1, 0x80);
    card.field("TB5_OUTS", 8, 1, 0x80);
    card.field("SPINOUT", 16, 2, 0x80);
    card.field("SPINENA", 1, 7, 0x80);
    card.field("", 7, 0, 0x80);
    card.field("SPINDIR", 1, 7, 0x80);
    for input in ["TB6_INS_L", "TB6_INS_H", "TB5_INS_L", "TB5_INS_H"] {
        card.field(input, 8, 1, 0x00);
    }
    for input in ["ANALOG0", "ANALOG1", "ANALOG2", "ANALOG3"] {
        card.field(input, 8, 2, 0x00);
    }
    card
}

const NOT_THERE: Result<[u32; 3], Refusal> = Err(Refusal {
    number: 40,
    place: 0,
});

#[test]
fn example_of_the_manual() {
    let card = example();
    let table = card.table().unwrap();
    assert_eq!((table.count(Way::In), table.count(Way::Out)), (8, 6));
    assert_eq!((table.bits(Way::In), table.bits(Way::Out)), (64, 41));

    let outputs = [0x12, 0x34, 0xABCD, 1, 0, 1];
    let registers = [0xABCD_3412, 0x0000_0101, 0];
    assert_eq!(card.packed(1, &outputs), Ok(registers));
    assert_eq!(card.unpacked(1, registers), outputs);
    let inputs = [1, 2, 3, 4, 5, 6, 7, 8];
    assert_eq!(card.unpacked(0, [0x0403_0201, 0x0807_0605, 9]), inputs);
}

#[test]
fn field_by_field() {
    let card = example();
    let mut room = [0; 7];
    assert_eq!(field(&card.memory, Card::TABLE, 2, &mut room), Ok(()));
    let [width, kind, direction, minimum, maximum, unit, name] = room;
    assert_eq!((width, kind, direction), (16, 2, 0x80));
    assert_eq!(
        (f32::from_bits(minimum), f32::from_bits(maximum)),
        (0.0, 36.3)
    );
    assert_eq!(card.memory[unit as usize..][..2], *b"V\0");
    assert_eq!(card.memory[name as usize..][..8], *b"SPINOUT\0");
    let refused = Err(Refusal::whole(40));
    assert_eq!(field(&card.memory, Card::TABLE, 14, &mut room), refused);
    assert_eq!(field(&card.memory, Card::TABLE, 0, &mut room[..6]), refused);
}

#[test]
fn signed_field_at_its_ends() {
    let mut card = Card::new();
    card.field("TILT", 12, 3, 0x40);
    let number = |value: i64| [value as u64];
    assert_eq!(card.packed(1, &number(-2048)), Ok([0x800, 0, 0]));
    assert_eq!(card.packed(0, &number(2047)), Ok([0x7FF, 0, 0]));
    assert_eq!(card.packed(1, &number(-1)), Ok([0xFFF, 0, 0]));
    assert_eq!(card.packed(1, &number(2048)), NOT_THERE);
    assert_eq!(card.packed(1, &number(-2049)), NOT_THERE);
    assert_eq!(card.unpacked(0, [0xFFFF_F800, 0, 0]), number(-2048));
}

#[test]
fn field_across_two_registers() {
    let mut card = Card::new();
    card.field("LOW", 20, 1, 0x80);
    card.field("ACROSS", 64, 2, 0x80);
    card.field("HIGH", 12, 5, 0x80);
    let values = [0xFFFFF, 0x0123_4567_89AB_CDEF, (-3i64) as u64];
    let registers = [0xDEFF_FFFF, 0x5678_9ABC, 0xFFD0_1234];
    assert_eq!(card.packed(1, &values), Ok(registers));
    assert_eq!(card.unpacked(1, registers), values);
}

#[test]
fn table_cut_inside_a_name() {
    let card = example();
    let memory = &card.memory[..card.memory.len() - 1];
    assert_eq!(Table::read(memory, Card::TABLE), Err(Refusal::whole(41)));
    assert_eq!(Table::read(&card.memory, 0).unwrap().fields, []);
}

#[test]
fn too_many_bits() {
    let mut card = Card::new();
    card.field("A", 64, 2, 0x40);
    card.field("B", 32, 2, 0x00);
    assert!(card.table().is_ok());
    card.field("C", 1, 2, 0x80);
    assert!(card.table().is_ok());
    card.field("D", 1, 2, 0x40);
    assert_eq!(card.table(), Err(Refusal::whole(42)));
    // A byte that is not in the document comes first, wherever it stands.
    card.add(&[0xC0]);
    assert_eq!(card.table(), Err(Refusal::whole(41)));
}

#[test]
fn widths_and_directions_out_of_range() {
    for width in [0, 65, 255] {
        let mut card = Card::new();
        card.field("A", width, 2, 0x00);
        assert_eq!(card.table(), Err(Refusal::whole(42)));
    }
    for (kind, direction) in [(8, 0x00), (2, 0xC0), (2, 0x01)] {
        let mut card = Card::new();
        card.field("A", 8, kind, direction);
        assert_eq!(card.table(), Err(Refusal::whole(41)));
    }
}
