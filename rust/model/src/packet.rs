//! Checking one packet, and running it on a card store.

use crate::area::{info, Area, POINTERS};
use crate::store::{Space, COUNT_ADDRESS, STORE_BYTES, UNLOCK_ADDRESS, UNLOCK_VALUE};
use crate::words::Fields;
use crate::{Refusal, PACKET_BYTES};
use std::ops::Range;

/// Checks a packet and answers the length that its reply would have.
///
/// `pointers` are those of spaces 0, 2, 6 and 7 and then those of their info areas.
pub fn check(packet: &[u8], store: &[u8], pointers: &[u32]) -> Result<usize, Refusal> {
    let mut walk = start(packet, store, pointers)?;
    while !walk.at_end() {
        walk.command()?;
    }
    Ok(walk.replied)
}

/// What an accepted packet came to.
#[derive(Clone, Copy, Debug, PartialEq, Eq)]
pub struct Ran {
    /// The reply's length.
    pub length: usize,
    /// How many elements were read or written.
    pub elements: u64,
}

/// Runs a packet. It refuses what the check refuses, and a wrong reply room.
pub fn run(
    packet: &[u8],
    store: &mut [u8],
    pointers: &mut [u32],
    reply: &mut [u8],
) -> Result<Ran, Refusal> {
    if reply.len() != PACKET_BYTES {
        return Err(Refusal::whole(1));
    }
    check(packet, store, pointers)?;

    let mut walk = start(packet, store, pointers)?;
    let mut ran = Ran {
        length: 0,
        elements: 0,
    };
    while !walk.at_end() {
        let command = walk.command()?;
        ran.length += command.run(store, &mut reply[ran.length..]);
        ran.elements += u64::from(command.count);
    }
    *status_cell(store, UNLOCK_ADDRESS) = [0; 2];
    let count = status_cell(store, COUNT_ADDRESS);
    *count = u16::from_le_bytes(*count).wrapping_add(1).to_le_bytes();
    pointers.copy_from_slice(&walk.pointers);
    Ok(ran)
}

fn status_cell(store: &mut [u8], address: u32) -> &mut [u8; 2] {
    let cell = store[Space::Status.place(address)..].first_chunk_mut();
    cell.expect("a cell of the store")
}

/// A walk from the packet's first command, unless 1 or 2 refuses it.
pub(crate) fn start<'a>(
    packet: &'a [u8],
    store: &[u8],
    pointers: &[u32],
) -> Result<Walk<'a>, Refusal> {
    let pointers = match checked_pointers(pointers) {
        Some(pointers) if store.len() == STORE_BYTES => pointers,
        _ => return Err(Refusal::whole(1)),
    };
    start_at(packet, pointers)
}

/// A walk from these pointers, unless 2 refuses the packet.
pub(crate) fn start_at(packet: &[u8], pointers: [u32; POINTERS]) -> Result<Walk<'_>, Refusal> {
    if packet.len() > PACKET_BYTES {
        return Err(Refusal::whole(2));
    }
    Ok(Walk::new(packet, pointers))
}

/// The pointers, if there are eight and each is at most its area's size.
pub(crate) fn checked_pointers(pointers: &[u32]) -> Option<[u32; POINTERS]> {
    let pointers: [u32; POINTERS] = pointers.try_into().ok()?;
    let fits = |area: &Area| pointers[area.index()] <= area.bytes();
    Area::ALL.iter().all(fits).then_some(pointers)
}

/// A command that passed its check.
pub(crate) struct Command<'a> {
    pub(crate) area: Area,
    /// Whether the command has an address of its own.
    pub(crate) given: bool,
    pub(crate) address: u32,
    pub(crate) increment: bool,
    pub(crate) count: u32,
    pub(crate) action: Action<'a>,
}

pub(crate) enum Action<'a> {
    Read,
    /// From the info area, with the pointer that this shows.
    ReadInfo(u32),
    /// Its data: `count` elements.
    Write(&'a [u8]),
}

impl Command<'_> {
    /// Does all elements in order and answers how many bytes were read.
    fn run(&self, store: &mut [u8], reply: &mut [u8]) -> usize {
        let space = &mut store[self.area.space.start()..];
        match &self.action {
            Action::Read => self.read(&space[self.cells()], reply),
            Action::ReadInfo(pointer) => {
                let info = info(self.area.space, *pointer);
                self.read(&info[self.cells()], reply)
            }
            Action::Write(data) => {
                // Without increment each element overwrites the one before it: the last stays.
                let cells = &mut space[self.cells()];
                cells.copy_from_slice(&data[data.len() - cells.len()..]);
                0
            }
        }
    }

    /// Reads all elements from their cells and answers how many bytes these are.
    fn read(&self, cells: &[u8], reply: &mut [u8]) -> usize {
        let element = self.area.element() as usize;
        let bytes = self.count as usize * element;
        let reply = &mut reply[..bytes];
        match (self.increment, element) {
            (true, _) => reply.copy_from_slice(cells),
            (false, 2) => repeat::<2>(cells, reply),
            (false, _) => repeat::<4>(cells, reply),
        }
        bytes
    }

    /// The bytes of the store that it writes, unless it reads.
    pub(crate) fn written(&self) -> Option<Range<usize>> {
        let start = self.area.space.start();
        let cells = self.cells();
        matches!(self.action, Action::Write(_)).then(|| start + cells.start..start + cells.end)
    }

    /// The bytes of the area that the elements stand in.
    fn cells(&self) -> Range<usize> {
        let first = self.address as usize;
        let cells = if self.increment { self.count } else { 1 };
        first..first + (cells * self.area.element()) as usize
    }
}

/// Fills the reply with one element of `N` bytes.
fn repeat<const N: usize>(element: &[u8], reply: &mut [u8]) {
    let element: [u8; N] = element.try_into().expect("one element");
    reply.as_chunks_mut().0.fill(element);
}

/// Takes a packet apart, command by command, and checks each. No store is needed for that.
pub(crate) struct Walk<'a> {
    rest: &'a [u8],
    place: u64,
    pointers: [u32; POINTERS],
    unlocked: bool,
    replied: usize,
}

impl<'a> Walk<'a> {
    fn new(packet: &'a [u8], pointers: [u32; POINTERS]) -> Walk<'a> {
        Walk {
            rest: packet,
            place: 0,
            pointers,
            unlocked: false,
            replied: 0,
        }
    }

    pub(crate) fn at_end(&self) -> bool {
        self.rest.is_empty()
    }

    /// The offset of the next command.
    pub(crate) fn place(&self) -> u64 {
        self.place
    }

    /// The pointers that the commands so far leave.
    pub(crate) fn pointers(&self) -> [u32; POINTERS] {
        self.pointers
    }

    /// The next command, or the lowest number that it is refused with.
    // Inlined, a check that only asks for refusals puts no command together.
    #[inline(always)]
    pub(crate) fn command(&mut self) -> Result<Command<'a>, Refusal> {
        let place = self.place;
        let refused = |number| Refusal { number, place };

        let word = self.take_word().ok_or(refused(3))?;
        let fields = Fields::from_word(word);
        let given = match fields.address {
            true => Some(self.take_word().ok_or(refused(3))?),
            false => None,
        };
        if fields.info && fields.write {
            return Err(refused(4));
        }
        let space = Space::from_number(fields.space).ok_or(refused(5))?;
        let area = Area {
            space,
            info: fields.info,
        };
        if fields.size != area.size() {
            return Err(refused(6));
        }
        if fields.count == 0 {
            return Err(refused(7));
        }
        let count = u32::from(fields.count);
        let element = area.element();
        let bytes = count * element;
        let address = given.map_or(self.pointers[area.index()], u32::from);
        let past_last = address + if fields.increment { bytes } else { element };
        if address % element != 0 || past_last > area.bytes() {
            return Err(refused(8));
        }
        let action = match fields.write {
            true => self.check_write(space, address, bytes as usize),
            false => self.check_read(area, bytes as usize),
        };
        let action = action.map_err(refused)?;
        if let (Space::Status, Action::Write(data)) = (space, &action) {
            self.follow_unlock(address, fields.increment, data);
        }
        self.pointers[area.index()] = match fields.increment {
            true => past_last,
            false => address,
        };
        Ok(Command {
            area,
            given: given.is_some(),
            address,
            increment: fields.increment,
            count,
            action,
        })
    }

    fn check_write(&mut self, space: Space, address: u32, bytes: usize) -> Result<Action<'a>, u32> {
        // Elements only go upwards, so the first is the lowest.
        if space.read_only_at(address) {
            return Err(9);
        }
        if space == Space::Eeprom && !self.unlocked {
            return Err(10);
        }
        self.take(bytes).map(Action::Write).ok_or(11)
    }

    fn check_read(&mut self, area: Area, bytes: usize) -> Result<Action<'a>, u32> {
        self.replied += bytes;
        if self.replied > PACKET_BYTES {
            return Err(12);
        }
        Ok(match area.info {
            true => Action::ReadInfo(self.pointers[area.space.index()]),
            false => Action::Read,
        })
    }

    /// Opens or closes the unlock with each element of a status write that lands on its cell.
    fn follow_unlock(&mut self, address: u32, increment: bool, data: &[u8]) {
        let step = if increment { 2 } else { 0 };
        let mut address = address;
        for value in data.chunks_exact(2) {
            if address == UNLOCK_ADDRESS {
                self.unlocked = value == UNLOCK_VALUE.to_le_bytes();
            }
            address += step;
        }
    }

    fn take_word(&mut self) -> Option<u16> {
        let bytes = self.take(2)?;
        Some(u16::from_le_bytes([bytes[0], bytes[1]]))
    }

    fn take(&mut self, bytes: usize) -> Option<&'a [u8]> {
        let (taken, rest) = self.rest.split_at_checked(bytes)?;
        self.rest = rest;
        self.place += bytes as u64;
        Some(taken)
    }
}
