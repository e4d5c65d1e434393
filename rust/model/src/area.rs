//! What commands reach: the four spaces, and the info area of each.

use crate::store::Space;

/// The length of an info area.
pub const INFO_BYTES: usize = 16;

/// How many address pointers there are: one for each area.
pub const POINTERS: usize = Area::ALL.len();

/// A space itself, or its info area.
#[derive(Clone, Copy, Debug, PartialEq, Eq)]
pub struct Area {
    pub space: Space,
    pub info: bool,
}

impl Area {
    /// In the order of their pointers.
    pub const ALL: [Area; 8] = [
        Area::plain(Space::Registers),
        Area::plain(Space::Eeprom),
        Area::plain(Space::Status),
        Area::plain(Space::Information),
        Area::info(Space::Registers),
        Area::info(Space::Eeprom),
        Area::info(Space::Status),
        Area::info(Space::Information),
    ];

    pub const fn plain(space: Space) -> Area {
        Area { space, info: false }
    }

    pub const fn info(space: Space) -> Area {
        Area { space, info: true }
    }

    /// Which of the pointers is this area's.
    pub fn index(self) -> usize {
        match self.info {
            true => Space::ALL.len() + self.space.index(),
            false => self.space.index(),
        }
    }

    pub fn bytes(self) -> u32 {
        match self.info {
            true => INFO_BYTES as u32,
            false => self.space.bytes(),
        }
    }

    /// The size code of a command word for this area.
    pub fn size(self) -> u8 {
        match self.info {
            true => 1,
            false => self.space.size(),
        }
    }

    /// The bytes of one element.
    pub fn element(self) -> u32 {
        1 << self.size()
    }
}

impl From<Space> for Area {
    fn from(space: Space) -> Area {
        Area::plain(space)
    }
}

/// What the info area of a space shows while the space's own pointer is `pointer`.
pub fn info(space: Space, pointer: u32) -> [u8; INFO_BYTES] {
    let cookie = 0x5A00 | u16::from(space.number());
    // Of a pointer at the end of the registers the low sixteen bits are 0.
    let pointer = pointer as u16;
    // No text is fixed for the name.
    let words = [
        cookie,
        mem_sizes(space),
        mem_ranges(space),
        pointer,
        0,
        0,
        0,
        0,
    ];
    let mut bytes = [0; INFO_BYTES];
    for (element, word) in bytes.chunks_exact_mut(2).zip(words) {
        element.copy_from_slice(&word.to_le_bytes());
    }
    bytes
}

/// Whether the space can be written, its type and its access sizes.
fn mem_sizes(space: Space) -> u16 {
    let writeable = u16::from(space.first_writable().is_some());
    let kind = match space {
        Space::Registers | Space::Status => 0x01,
        Space::Eeprom => 0x0E,
        // No type is fixed for it.
        Space::Information => 0,
    };
    writeable << 15 | kind << 8 | 1 << space.size()
}

/// The space's range as a power of two. Erase block and page are for flash alone.
fn mem_ranges(space: Space) -> u16 {
    space.bytes().ilog2() as u16
}
