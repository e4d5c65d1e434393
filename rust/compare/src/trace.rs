//! Follows the commands of an accepted packet, for counting what was met.

use model::area::{Area, POINTERS};
use model::store::Space;
use model::words::Fields;
use std::ops::Range;

/// A command and the state that it was met in.
pub struct Command {
    pub fields: Fields,
    pub area: Area,
    /// The address used, given or the pointer's.
    pub address: u32,
    /// The pointer of its space before it, not that of an info area.
    pub pointer: u32,
    /// Whether the packet has moved that pointer by then.
    pub pointer_moved: bool,
}

impl Command {
    /// Whether one of its elements is at `address`.
    pub fn reaches(&self, address: u32) -> bool {
        let end = self.address + self.moved().max(self.area.element());
        (self.address..end).contains(&address)
    }

    /// The bytes of the store that its elements stand in, unless it reads an info area.
    pub fn cells(&self) -> Range<usize> {
        let first = self.area.space.place(self.address);
        first..first + self.moved().max(self.area.element()) as usize
    }

    /// The bytes of the store that it writes, if it does.
    pub fn written(&self) -> Option<Range<usize>> {
        self.fields.write.then(|| self.cells())
    }

    /// How far its pointer moves.
    pub fn moved(&self) -> u32 {
        match self.fields.increment {
            true => u32::from(self.fields.count) * self.area.element(),
            false => 0,
        }
    }
}

/// The packet's commands in order.
pub fn commands(mut packet: &[u8], start: [u32; POINTERS]) -> Vec<Command> {
    let mut pointers = start;
    let mut commands = Vec::new();
    while let [low, high, rest @ ..] = packet {
        let fields = Fields::from_word(u16::from_le_bytes([*low, *high]));
        let space = Space::from_number(fields.space).expect("an accepted packet");
        let area = Area {
            space,
            info: fields.info,
        };
        let (given, rest) = rest.split_at(if fields.address { 2 } else { 0 });
        let address = match *given {
            [low, high] => u16::from_le_bytes([low, high]).into(),
            _ => pointers[area.index()],
        };
        let data = match fields.write {
            true => usize::from(fields.count) << fields.size,
            false => 0,
        };
        packet = &rest[data..];
        let command = Command {
            fields,
            area,
            address,
            pointer: pointers[space.index()],
            pointer_moved: pointers[space.index()] != start[space.index()],
        };
        pointers[area.index()] = address + command.moved();
        commands.push(command);
    }
    commands
}
