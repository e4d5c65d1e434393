//! A card that is lent to both sides, its store and pointers carried from one packet to the next.

use crate::lent::Lent;
use crate::rng::Rng;
use crate::status_cell;
use model::area::{Area, POINTERS};
use model::store::{COUNT_ADDRESS, STORE_BYTES, UNLOCK_ADDRESS, UNLOCK_VALUE};
use model::PACKET_BYTES;

pub struct State {
    pub store: Lent<u8>,
    pub pointers: Lent<u32>,
    pub reply: Lent<u8>,
}

/// The lengths of what is lent.
#[derive(PartialEq, Eq)]
pub struct Rooms {
    pub store: usize,
    pub pointers: usize,
    pub reply: usize,
}

impl Rooms {
    pub const RIGHT: Rooms = Rooms {
        store: STORE_BYTES,
        pointers: POINTERS,
        reply: PACKET_BYTES,
    };

    /// Now and then wrong ones.
    pub fn any(rng: &mut Rng) -> Rooms {
        let mut rooms = Rooms::RIGHT;
        if rng.one_in(50) {
            let faults = rng.between(1, 7);
            let wrong = |length: usize, rng: &mut Rng| {
                let lengths = [0, 1, length - 1, length + 1, length / 2, length + 32];
                rng.pick(&lengths)
            };
            if faults & 1 != 0 {
                rooms.store = wrong(STORE_BYTES, rng);
            }
            if faults & 2 != 0 {
                rooms.reply = wrong(PACKET_BYTES, rng);
            }
            if faults & 4 != 0 {
                rooms.pointers = wrong(POINTERS, rng);
            }
        }
        rooms
    }
}

impl Default for State {
    fn default() -> State {
        State {
            store: Lent::new("store", STORE_BYTES, 0),
            pointers: Lent::new("pointers", POINTERS, 0),
            reply: Lent::new("reply", PACKET_BYTES, 0),
        }
    }
}

impl State {
    pub fn card_pointers(&self) -> [u32; POINTERS] {
        let model = self.pointers.model().first_chunk();
        *model.expect("eight pointers")
    }

    /// Compares all of it after a call. A check or a refused call must have left it unchanged.
    pub fn compare(&mut self, unchanged: bool) -> Result<(), String> {
        self.store.compare(unchanged)?;
        self.pointers.compare(unchanged)?;
        self.reply.compare(unchanged)
    }

    /// Makes the state after a run the one before the next. A refused pointer is only good for one
    /// case: the pointers given stand again where the packet was refused.
    pub fn keep(&mut self, refused: bool, pointers: [u32; POINTERS]) {
        let pointers = match refused {
            true => pointers,
            false => self.card_pointers(),
        };
        self.store.keep();
        self.pointers.put(0, &pointers);
    }

    /// Now and then changes some cells and pointers, as nobody else does between packets.
    pub fn change(&mut self, rng: &mut Rng) {
        if rng.one_in(4) {
            let bytes = rng.number().to_le_bytes();
            let at = match rng.coin() {
                true => rng.below(256),
                false => rng.between(65_500, STORE_BYTES - bytes.len()),
            };
            self.store.put(at, &bytes);
        }
        if rng.one_in(8) {
            let value = rng.pick(&[UNLOCK_VALUE, UNLOCK_VALUE, 0xFFFF, 0x0100, 0x0001]);
            let cell = status_cell(UNLOCK_ADDRESS);
            self.store.put(cell.start, &value.to_le_bytes());
        }
        if rng.one_in(8) {
            let any = rng.number() as u16;
            let value = rng.pick(&[any, any, 0xFFFF, 0xFFFE, 0x00FF]);
            let cell = status_cell(COUNT_ADDRESS);
            self.store.put(cell.start, &value.to_le_bytes());
        }
        self.change_pointers(rng);
    }

    pub fn change_pointers(&mut self, rng: &mut Rng) {
        for area in Area::ALL {
            if rng.one_in(8) {
                let pointer = good_pointer(rng, area);
                self.pointers.put(area.index(), &[pointer]);
            }
        }
    }

    /// Now and then puts one pointer above its area's size.
    pub fn spoil_pointer(&mut self, rng: &mut Rng) {
        if !rng.one_in(60) {
            return;
        }
        let area = rng.pick(&Area::ALL);
        let size = area.bytes();
        let more = rng.between(1, 200_000) as u32;
        let element = area.element();
        let above = [
            size + 1,
            size + element,
            size + more,
            u32::MAX,
            u32::MAX - 1,
        ];
        let pointer = rng.pick(&above);
        self.pointers.put(area.index(), &[pointer]);
    }

    /// A difference with what was lent.
    pub fn describe(&self, what: &str, rooms: &Rooms) -> String {
        format!(
            "{what}\nstore of {} bytes, reply room of {}, {} pointers: {:?}",
            rooms.store,
            rooms.reply,
            rooms.pointers,
            &self.pointers.before()[..rooms.pointers]
        )
    }
}

/// A pointer that no rule turns away: aligned or not, in the area or at its end.
pub fn good_pointer(rng: &mut Rng, area: Area) -> u32 {
    let size = area.bytes();
    let element = area.element();
    match rng.below(8) {
        0 => 0,
        1 => size,
        2 => size - element,
        3 => size - 1,
        4 => rng.pick(&[0x18, 0x1A, 0x1E, 0x20]).min(size),
        5 => rng.below(size as usize + 1) as u32,
        _ => element * rng.below((size / element) as usize) as u32,
    }
}
