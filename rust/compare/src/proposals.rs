//! Takes the output for a list apart and changes it: most changes spoil it, some leave it good.

use crate::lists;
use crate::rng::Rng;
use model::store::{COUNT_ADDRESS, UNLOCK_ADDRESS, UNLOCK_VALUE};
use model::words::Fields;
use model::HIGHEST_COUNT;

/// A command with its address, if it has one, and its data.
#[derive(Clone)]
struct Command {
    fields: Fields,
    address: Option<u16>,
    data: Vec<u8>,
}

/// An output's packets, each as its commands.
pub struct Proposal {
    packets: Vec<Vec<Command>>,
}

/// One way to change a proposal, and what is counted of it; nothing where that need not arise.
pub struct Change {
    /// Where the changed proposal is accepted.
    accepted: Option<&'static str>,
    /// Where it is rejected though it is not too long.
    rejected: Option<&'static str>,
    /// Where it is rejected and too long.
    too_long: Option<&'static str>,
    /// Answers whether there was something to change.
    make: Make,
}

type Make = fn(&mut Proposal, &mut Rng) -> bool;

impl Change {
    const fn spoils(rejected: &'static str, make: Make) -> Change {
        Change {
            accepted: None,
            rejected: Some(rejected),
            too_long: None,
            make,
        }
    }

    const fn may_spoil(accepted: &'static str, rejected: &'static str, make: Make) -> Change {
        Change {
            accepted: Some(accepted),
            ..Change::spoils(rejected, make)
        }
    }

    const fn lengthens(accepted: &'static str, too_long: &'static str, make: Make) -> Change {
        Change {
            accepted: Some(accepted),
            rejected: None,
            too_long: Some(too_long),
            make,
        }
    }

    pub fn situations(&self) -> impl Iterator<Item = &'static str> {
        let situations = [self.accepted, self.rejected, self.too_long];
        situations.into_iter().flatten()
    }

    /// What is counted of a changed proposal of so many bytes, where no more than `longest` may be.
    pub fn situation(&self, accepted: bool, bytes: usize, longest: usize) -> Option<&'static str> {
        match accepted {
            true => self.accepted,
            false if bytes <= longest => self.rejected,
            false => self.too_long,
        }
    }
}

pub const CHANGES: [Change; 17] = [
    Change::spoils("value changed, rejected", Proposal::change_value),
    Change::may_spoil(
        "address dropped where the pointer stands there, accepted",
        "address dropped, rejected",
        Proposal::drop_address,
    ),
    Change::spoils("two commands swapped, rejected", Proposal::swap),
    Change::spoils(
        "unlock with another value, rejected",
        Proposal::spoil_unlock,
    ),
    Change::spoils("info read put in, rejected", Proposal::put_info_read),
    Change::lengthens(
        "empty packets put in, accepted",
        "empty packets put in, too long",
        Proposal::put_empty_packets,
    ),
    Change::lengthens(
        "unlock put in, accepted",
        "unlock put in, too long",
        Proposal::put_unlock,
    ),
    Change::spoils("unlock dropped, rejected", Proposal::drop_unlock),
    Change::may_spoil(
        "packet cut in two, accepted",
        "packet cut in two, rejected",
        Proposal::cut_packet,
    ),
    Change::spoils("packets joined, rejected", Proposal::join_packets),
    Change::lengthens(
        "command split in two, accepted",
        "command split in two, too long",
        Proposal::split,
    ),
    Change::spoils("command dropped, rejected", Proposal::drop_command),
    Change::spoils("command doubled, rejected", Proposal::double),
    Change::may_spoil(
        "increment turned, accepted",
        "increment turned, rejected",
        Proposal::turn_increment,
    ),
    Change::spoils("count changed, rejected", Proposal::change_count),
    Change::spoils(
        "cell named that no list may name, rejected",
        Proposal::name_kept_cell,
    ),
    Change::spoils("read turned into a write, rejected", Proposal::turn_read),
];

impl Change {
    /// The output with this change, if there is something to change.
    pub fn of(&self, rng: &mut Rng, output: &[u8]) -> Option<Vec<u8>> {
        let mut proposal = Proposal::of(output);
        (self.make)(&mut proposal, rng).then(|| proposal.output())
    }
}

impl Proposal {
    /// Takes a sound output apart.
    pub fn of(output: &[u8]) -> Proposal {
        let packets = lists::packets(output).expect("a sound output");
        Proposal {
            packets: packets.into_iter().map(commands).collect(),
        }
    }

    pub fn output(&self) -> Vec<u8> {
        let mut output = Vec::new();
        for packet in &self.packets {
            let start = output.len();
            output.extend(b"LB\0\0");
            packet.iter().for_each(|command| command.put(&mut output));
            let length = (output.len() - start - 4) as u16;
            output[start + 2..start + 4].copy_from_slice(&length.to_le_bytes());
        }
        output
    }

    /// Adds empty packets until the output has `length` bytes, or as soon as it has more. A command
    /// is split before where that makes it even, if one can be.
    pub fn fill(&mut self, rng: &mut Rng, length: usize) {
        let mut bytes = self.output().len();
        if (length - bytes) % 4 == 2 && self.split(rng) {
            bytes = self.output().len();
        }
        while bytes < length {
            self.put_empty_packet(rng);
            bytes += 4;
        }
    }

    /// A random command's packet and place for which `wanted` holds.
    fn find(&self, rng: &mut Rng, wanted: impl Fn(&Command) -> bool) -> Option<(usize, usize)> {
        let mut found = Vec::new();
        for (p, packet) in self.packets.iter().enumerate() {
            let places = (0..packet.len()).filter(|&c| wanted(&packet[c]));
            found.extend(places.map(|c| (p, c)));
        }
        (!found.is_empty()).then(|| rng.pick(&found))
    }

    /// Changes a random command for which `wanted` holds, if there is one.
    fn change(
        &mut self,
        rng: &mut Rng,
        wanted: impl Fn(&Command) -> bool,
        change: impl FnOnce(&mut Rng, &mut Command),
    ) -> bool {
        let Some((p, c)) = self.find(rng, wanted) else {
            return false;
        };
        change(rng, &mut self.packets[p][c]);
        true
    }

    /// Puts a command at a random place.
    fn put(&mut self, rng: &mut Rng, command: Command) -> bool {
        if self.packets.is_empty() {
            return false;
        }
        let p = rng.below(self.packets.len());
        let c = rng.between(0, self.packets[p].len());
        self.packets[p].insert(c, command);
        true
    }

    fn put_empty_packet(&mut self, rng: &mut Rng) {
        let at = rng.between(0, self.packets.len());
        self.packets.insert(at, Vec::new());
    }

    fn change_value(&mut self, rng: &mut Rng) -> bool {
        self.change(
            rng,
            |command| command.fields.write,
            |rng, command| {
                let at = rng.below(command.data.len());
                command.data[at] ^= 1 << rng.below(8);
            },
        )
    }

    fn drop_address(&mut self, rng: &mut Rng) -> bool {
        self.change(
            rng,
            |command| command.address.is_some(),
            |_, command| command.address = None,
        )
    }

    /// Swaps two commands, mostly neighbours.
    fn swap(&mut self, rng: &mut Rng) -> bool {
        let Some((p, c)) = self.find(rng, |_| true) else {
            return false;
        };
        let (q, d) = match c + 1 < self.packets[p].len() && !rng.one_in(4) {
            true => (p, c + 1),
            false => self.find(rng, |_| true).expect("there is one"),
        };
        let first = self.packets[p][c].clone();
        self.packets[p][c] = std::mem::replace(&mut self.packets[q][d], first);
        (p, c) != (q, d)
    }

    fn spoil_unlock(&mut self, rng: &mut Rng) -> bool {
        let other: u16 = rng.pick(&[0x5A03, 0x5A00, 0x0000, 0x025A, 0x5B02]);
        let spoilt = self.change(rng, Command::is_unlock, |_, command| {
            command.data = other.to_le_bytes().to_vec();
        });
        spoilt || self.put(rng, Command::write_status(UNLOCK_ADDRESS, other))
    }

    fn put_info_read(&mut self, rng: &mut Rng) -> bool {
        let mut command = Command::read_status(0);
        command.fields.info = true;
        command.fields.space = rng.pick(&[0, 2, 6, 7]);
        self.put(rng, command)
    }

    fn put_empty_packets(&mut self, rng: &mut Rng) -> bool {
        for _ in 0..rng.pick(&[1, 1, 2, 5]) {
            self.put_empty_packet(rng);
        }
        true
    }

    fn put_unlock(&mut self, rng: &mut Rng) -> bool {
        self.put(rng, Command::write_status(UNLOCK_ADDRESS, UNLOCK_VALUE))
    }

    fn drop_unlock(&mut self, rng: &mut Rng) -> bool {
        self.change(rng, Command::is_unlock, |_, command| {
            command.fields.count = 0;
        });
        self.drop_marked()
    }

    /// Cuts a packet at one of its commands, the first and the end too.
    fn cut_packet(&mut self, rng: &mut Rng) -> bool {
        let Some((p, c)) = self.find(rng, |_| true) else {
            return false;
        };
        let rest = self.packets[p].split_off(c);
        self.packets.insert(p + 1, rest);
        true
    }

    fn join_packets(&mut self, rng: &mut Rng) -> bool {
        if self.packets.len() < 2 {
            return false;
        }
        let p = rng.below(self.packets.len() - 1);
        let next = self.packets.remove(p + 1);
        self.packets[p].extend(next);
        true
    }

    /// Splits a command of several elements; the second half goes on at the pointer.
    fn split(&mut self, rng: &mut Rng) -> bool {
        let Some((p, c)) = self.find(rng, |command| command.fields.count > 1) else {
            return false;
        };
        let first = &mut self.packets[p][c];
        let mut second = first.clone();
        let kept = rng.between(1, usize::from(first.fields.count) - 1) as u8;
        second.address = None;
        second.fields.count -= kept;
        first.fields.count = kept;
        if first.fields.write {
            second.data = first.data.split_off(usize::from(kept) << first.fields.size);
        }
        self.packets[p].insert(c + 1, second);
        true
    }

    fn drop_command(&mut self, rng: &mut Rng) -> bool {
        self.change(
            rng,
            |command| !command.is_unlock(),
            |_, command| command.fields.count = 0,
        );
        self.drop_marked()
    }

    /// Takes out what was marked with a count of 0.
    fn drop_marked(&mut self) -> bool {
        let mut dropped = false;
        for packet in &mut self.packets {
            let before = packet.len();
            packet.retain(|command| command.fields.count > 0);
            dropped |= packet.len() < before;
        }
        dropped
    }

    fn double(&mut self, rng: &mut Rng) -> bool {
        let Some((p, c)) = self.find(rng, |command| !command.is_unlock()) else {
            return false;
        };
        let command = self.packets[p][c].clone();
        self.packets[p].insert(c, command);
        true
    }

    fn turn_increment(&mut self, rng: &mut Rng) -> bool {
        self.change(
            rng,
            |_| true,
            |_, command| {
                command.fields.increment = !command.fields.increment;
            },
        )
    }

    /// One element more or less, of a write with its data.
    fn change_count(&mut self, rng: &mut Rng) -> bool {
        self.change(
            rng,
            |command| command.fields.count < HIGHEST_COUNT && !command.is_unlock(),
            |rng, command| {
                let more = command.fields.count == 1 || rng.coin();
                let count = command.fields.count + u8::from(more) - u8::from(!more);
                command.fields.count = count;
                if command.fields.write && rng.coin() {
                    command
                        .data
                        .resize(usize::from(count) << command.fields.size, 0);
                }
            },
        )
    }

    /// Reads the unlock cell or the packet count, or writes the latter.
    fn name_kept_cell(&mut self, rng: &mut Rng) -> bool {
        let command = match rng.below(3) {
            0 => Command::read_status(UNLOCK_ADDRESS),
            1 => Command::read_status(COUNT_ADDRESS),
            _ => Command::write_status(COUNT_ADDRESS, rng.pick(&[0, UNLOCK_VALUE])),
        };
        self.put(rng, command)
    }

    fn turn_read(&mut self, rng: &mut Rng) -> bool {
        self.change(
            rng,
            |command| !command.fields.write,
            |_, command| {
                command.fields.write = true;
                let bytes = usize::from(command.fields.count) << command.fields.size;
                command.data = vec![0; bytes];
            },
        )
    }
}

impl Command {
    /// Reads one element of the status space.
    fn read_status(address: u32) -> Command {
        Command {
            fields: Fields {
                write: false,
                address: true,
                info: false,
                space: 6,
                size: 1,
                increment: false,
                count: 1,
            },
            address: Some(address as u16),
            data: Vec::new(),
        }
    }

    fn write_status(address: u32, value: u16) -> Command {
        let mut command = Command::read_status(address);
        command.fields.write = true;
        command.data = value.to_le_bytes().to_vec();
        command
    }

    /// Whether it writes the unlock cell and nothing else.
    fn is_unlock(&self) -> bool {
        self.fields.space == 6
            && self.fields.write
            && self.fields.count == 1
            && self.address == Some(UNLOCK_ADDRESS as u16)
    }

    fn put(&self, output: &mut Vec<u8>) {
        let fields = Fields {
            address: self.address.is_some(),
            ..self.fields
        };
        let word = fields.to_word().expect("fields in range");
        output.extend(word.to_le_bytes());
        output.extend(
            self.address
                .iter()
                .flat_map(|address| address.to_le_bytes()),
        );
        output.extend(&self.data);
    }
}

/// The commands of an accepted packet.
fn commands(mut packet: &[u8]) -> Vec<Command> {
    let mut commands = Vec::new();
    while let [low, high, rest @ ..] = packet {
        let fields = Fields::from_word(u16::from_le_bytes([*low, *high]));
        let (given, rest) = rest.split_at(if fields.address { 2 } else { 0 });
        let address = given.first_chunk().map(|bytes| u16::from_le_bytes(*bytes));
        let bytes = match fields.write {
            true => usize::from(fields.count) << fields.size,
            false => 0,
        };
        let (data, rest) = rest.split_at(bytes);
        commands.push(Command {
            fields,
            address,
            data: data.to_vec(),
        });
        packet = rest;
    }
    commands
}
