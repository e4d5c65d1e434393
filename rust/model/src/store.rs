//! The card store and its four spaces.

/// The store's length: the four spaces, one after the other.
pub const STORE_BYTES: usize = 65_728;

/// Where the count of accepted packets, RXUDPCount, stands in the status space.
pub const COUNT_ADDRESS: u32 = 0x0A;

/// Where the EEPROM unlock cell stands in the status space.
pub const UNLOCK_ADDRESS: u32 = 0x1A;

/// What opens the EEPROM when it is written to the unlock cell.
pub const UNLOCK_VALUE: u16 = 0x5A02;

#[derive(Clone, Copy, Debug, PartialEq, Eq, Hash)]
pub enum Space {
    Registers,
    Eeprom,
    Status,
    Information,
}

impl Space {
    pub const ALL: [Space; 4] = [
        Space::Registers,
        Space::Eeprom,
        Space::Status,
        Space::Information,
    ];

    pub fn from_number(number: u8) -> Option<Space> {
        match number {
            0 => Some(Space::Registers),
            2 => Some(Space::Eeprom),
            6 => Some(Space::Status),
            7 => Some(Space::Information),
            _ => None,
        }
    }

    pub fn number(self) -> u8 {
        match self {
            Space::Registers => 0,
            Space::Eeprom => 2,
            Space::Status => 6,
            Space::Information => 7,
        }
    }

    /// The space's place among the four.
    pub fn index(self) -> usize {
        self as usize
    }

    /// The place of the space's first byte in the store.
    pub fn start(self) -> usize {
        match self {
            Space::Registers => 0,
            Space::Eeprom => 65_536,
            Space::Status => 65_664,
            Space::Information => 65_696,
        }
    }

    pub fn bytes(self) -> u32 {
        match self {
            Space::Registers => 65_536,
            Space::Eeprom => 128,
            Space::Status => 32,
            Space::Information => 32,
        }
    }

    /// The size code of a command word for this space.
    pub fn size(self) -> u8 {
        match self {
            Space::Registers => 2,
            _ => 1,
        }
    }

    /// The bytes of one element.
    pub fn element(self) -> u32 {
        1 << self.size()
    }

    /// The lowest address that a write may use, where writes are possible at all.
    pub fn first_writable(self) -> Option<u32> {
        match self {
            Space::Registers | Space::Status => Some(0),
            Space::Eeprom => Some(0x20),
            Space::Information => None,
        }
    }

    /// Whether a write to `address` goes to a cell that is read only.
    pub fn read_only_at(self, address: u32) -> bool {
        self.first_writable().is_none_or(|first| address < first)
    }

    /// Whether `address` is that of a cell which every packet changes, and no list may name.
    pub fn kept_from_lists(self, address: u32) -> bool {
        self == Space::Status && [COUNT_ADDRESS, UNLOCK_ADDRESS].contains(&address)
    }

    /// The place in the store of the byte at `address`.
    pub fn place(self, address: u32) -> usize {
        self.start() + address as usize
    }
}
