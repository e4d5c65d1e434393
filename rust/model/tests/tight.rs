//! Tighter packing, by order 9 of the change requests.

use model::cue::{Action, Record};
use model::packing::{compile, Compiled};
use model::store::Space;
use model::tight::{check, tighten, REJECTED};
use model::Refusal;

const REJECT: Result<u64, Refusal> = Err(Refusal {
    number: REJECTED,
    place: 0,
});

fn read(space: Space, address: u32) -> Record {
    Record {
        space,
        address,
        action: Action::Read,
    }
}

fn write(space: Space, address: u32, value: u32) -> Record {
    Record {
        space,
        address,
        action: Action::Write(value),
    }
}

fn list(records: &[Record]) -> Vec<u8> {
    let mut list = Vec::new();
    for record in records {
        list.extend(if record.is_write() { b"WR" } else { b"RD" });
        list.extend([record.space.number(), 0]);
        list.extend((record.address as u16).to_le_bytes());
        if let Action::Write(value) = record.action {
            list.extend(value.to_le_bytes());
        }
    }
    list
}

/// The planner's output, which its own checker must accept.
fn planned(list: &[u8]) -> Vec<u8> {
    let mut out = vec![0xEE; 4 * list.len() + 1];
    let Compiled { bytes, packets } = tighten(list, &mut out).expect("a good list");
    assert!(out[bytes..].iter().all(|&byte| byte == 0xEE));
    out.truncate(bytes);
    assert_eq!(check(list, &out), Ok(packets));
    out
}

fn packet(bytes: &[u8]) -> Vec<u8> {
    let length = (bytes.len() as u16).to_le_bytes();
    [b"LB", &length[..], bytes].concat()
}

#[test]
fn repeats_are_one_command() {
    for count in [2, 3, 126, 127] {
        let reads = list(&vec![read(Space::Status, 0x18); count]);
        assert_eq!(planned(&reads), packet(&[count as u8, 0x59, 0x18, 0]));
        let writes = list(&vec![write(Space::Registers, 8, 1); count]);
        assert_eq!(planned(&writes).len(), 8 + 4 * count);
    }
    // One more needs a second command, without an address.
    let reads = list(&[read(Space::Status, 0x18); 128]);
    let command = [0x7F, 0x59, 0x18, 0, 0x01, 0x19];
    assert_eq!(planned(&reads), packet(&command));
}

#[test]
fn addresses_are_left_out() {
    // The second command goes on behind the first, the third where the second was.
    let by_turns = [
        read(Space::Registers, 4),
        write(Space::Registers, 8, 0x0403_0201),
        read(Space::Registers, 8),
    ];
    let commands = [0x81, 0x42, 4, 0, 0x01, 0x82, 1, 2, 3, 4, 0x01, 0x02];
    assert_eq!(planned(&list(&by_turns)), packet(&commands));
}

#[test]
fn unlock_joins_a_status_write() {
    let records = [
        write(Space::Status, 0x18, 0x0102),
        write(Space::Eeprom, 0x20, 0x0304),
    ];
    let commands = [
        0x82, 0xD9, 0x18, 0, 2, 1, 2, 0x5A, 0x01, 0xC9, 0x20, 0, 4, 3,
    ];
    assert_eq!(planned(&list(&records)), packet(&commands));
}

#[test]
fn refuses_as_the_compiler_does() {
    let reads = list(&[read(Space::Status, 0); 127]);
    let needed = 4 + 4 * 127;
    let mut out = vec![0xEE; needed - 1];
    let refused = Err(Refusal {
        number: 26,
        place: needed as u64,
    });
    assert_eq!(tighten(&reads, &mut out), refused);
    assert_eq!(compile(&reads, &mut out), refused);
    assert!(out.iter().all(|&byte| byte == 0xEE));
    let cut = &reads[..11];
    assert_eq!(tighten(cut, &mut out), compile(cut, &mut out));
    assert_eq!(planned(b""), b"");
}

#[test]
fn bad_list_comes_first() {
    let refused = Err(Refusal {
        number: 22,
        place: 0,
    });
    assert_eq!(check(b"RD", b"no output"), refused);
    assert_eq!(check(b"RD", b""), refused);
}

#[test]
fn the_rules_output_is_accepted_and_no_longer_one() {
    let list = list(&[read(Space::Registers, 4), read(Space::Registers, 4)]);
    let rule = packet(&[0x81, 0x42, 4, 0, 0x81, 0x42, 4, 0]);
    assert_eq!(check(&list, &rule), Ok(1));
    let empty = packet(&[]);
    assert_eq!(check(&list, &[&rule[..], &empty].concat()), REJECT);
    assert_eq!(check(&list, &[&rule[..], &[0]].concat()), REJECT);
    // Where there is room for it, an empty packet counts.
    let tight = packet(&[0x02, 0x42, 4, 0]);
    assert_eq!(check(&list, &tight), Ok(1));
    assert_eq!(check(&list, &[&empty[..], &tight].concat()), Ok(2));
}

#[test]
fn pointers_are_the_packets_own() {
    let list = list(&[
        read(Space::Registers, 4),
        read(Space::Registers, 4),
        read(Space::Registers, 4),
    ]);
    let tight = packet(&[0x01, 0x42, 4, 0, 0x02, 0x02]);
    assert_eq!(check(&list, &tight), Ok(1));
    let apart = [packet(&[0x01, 0x42, 4, 0]), packet(&[0x02, 0x02])].concat();
    assert!(apart.len() <= 16);
    assert_eq!(check(&list, &apart), REJECT);
    assert_eq!(check(&list, &packet(&[0x03, 0x02])), REJECT);
}

#[test]
fn the_records_in_order_and_nothing_else() {
    let list = list(&[
        write(Space::Registers, 4, 7),
        read(Space::Status, 0),
        write(Space::Eeprom, 0x20, 9),
        read(Space::Status, 0),
        read(Space::Status, 0),
    ]);
    let first = [0x81, 0xC2, 4, 0, 7, 0, 0, 0];
    let status = [0x01, 0x59, 0, 0];
    let again = [0x02, 0x59, 0, 0];
    let unlock = [0x01, 0xD9, 0x1A, 0, 0x02, 0x5A];
    let last = [0x01, 0xC9, 0x20, 0, 9, 0];
    let joined = |parts: &[&[u8]]| check(&list, &packet(&parts.concat()));

    assert_eq!(joined(&[&first, &status, &unlock, &last, &again]), Ok(1));
    assert_eq!(joined(&[&unlock, &first, &status, &last, &again]), Ok(1));
    assert_eq!(joined(&[&first, &status, &last, &again]), REJECT);
    assert_eq!(joined(&[&status, &first, &unlock, &last, &again]), REJECT);
    assert_eq!(joined(&[&first, &status, &unlock, &last]), REJECT);
    let other = [0x81, 0xC2, 4, 0, 8, 0, 0, 0];
    assert_eq!(joined(&[&other, &status, &unlock, &last, &again]), REJECT);
    let flash = [0x01, 0xD9, 0x1A, 0, 0x03, 0x5A];
    assert_eq!(
        joined(&[&first, &status, &flash, &unlock, &last, &again]),
        REJECT
    );
    let info = [0x01, 0x79, 0, 0];
    assert_eq!(joined(&[&first, &info, &unlock, &last, &again]), REJECT);
}
