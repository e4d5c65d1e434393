//! The few cells by which tools recognise a HostMot2 board, here a 7I92.

use crate::record::start;

/// The packet that asks for the flash chip's id. Flash, space 3, is no part of the library.
pub const FLASH_ID: [u8; 4] = [0x01, 0x4E, 0x08, 0x00];
/// A chip of 16 megabits.
pub const FLASH_ANSWER: [u8; 4] = [0x14, 0, 0, 0];

const NAME: &[u8; 16] = b"7I92\0\0\0\0\0\0\0\0\0\0\0\0";
/// Six bytes of a locally administered address, the last one first.
const MAC: [u8; 6] = [0x92, 0x00, 0x00, 0x00, 0x00, 0x02];

const COOKIE: usize = 0x0100;
const IDROM: usize = 0x0400;
const MODULES: usize = 0x40;
const PINS: usize = 0x200;

const PORTS: u32 = 2;
const PORT_WIDTH: u32 = 17;

/// Fills these cells in and leaves all others as they are.
pub fn fill(store: &mut [u8]) {
    put(store, COOKIE, &0x55AA_CAFE_u32.to_le_bytes());
    put(store, COOKIE + 4, b"HOSTMOT2");
    put(store, COOKIE + 12, &(IDROM as u32).to_le_bytes());
    put_numbers(store, IDROM, &idrom());
    put_numbers(store, IDROM + MODULES, &modules());
    // All pins are plain ones: no second function.
    for pin in 0..PORTS * PORT_WIDTH {
        put_numbers(store, IDROM + PINS + 4 * pin as usize, &[GPIO << 24]);
    }
    let [eeprom, information] = [2, 7].map(|space| start(space) as usize);
    put(store, eeprom + 0x02, &MAC);
    put(store, eeprom + 0x10, NAME);
    put(store, information, NAME);
    // The versions of LBP16 and of the firmware.
    put(store, information + 0x10, &[3, 0, 16, 0]);
}

fn idrom() -> [u32; 16] {
    let text = |text: &[u8; 4]| u32::from_le_bytes(*text);
    [
        3,
        MODULES as u32,
        PINS as u32,
        text(b"MESA"),
        text(b"7I92"),
        // FPGA size and pins.
        9,
        144,
        PORTS,
        PORTS * PORT_WIDTH,
        PORT_WIDTH,
        // Both clocks in Hz.
        100_000_000,
        200_000_000,
        // Strides between instances and between registers.
        4,
        0x40,
        0x100,
        4,
    ]
}

const WATCHDOG: u32 = 0x02;
const GPIO: u32 = 0x03;
const LED: u32 = 0x80;

/// Three numbers for each module: tag, version, clock and instances; base, registers and strides; and
/// which registers each instance has. A tag of 0 ends them.
fn modules() -> [u32; 12] {
    let module = |tag: u32, instances: u32, base: u32, registers: u32| {
        [
            tag | 1 << 16 | instances << 24,
            base | registers << 16,
            0x1F,
        ]
    };
    let mut modules = [0; 12];
    let known = [
        module(WATCHDOG, 1, 0x0C00, 3),
        module(GPIO, PORTS, 0x1000, 5),
        module(LED, 1, 0x0200, 1),
    ];
    modules[..9].copy_from_slice(known.as_flattened());
    modules
}

fn put(store: &mut [u8], at: usize, bytes: &[u8]) {
    store[at..at + bytes.len()].copy_from_slice(bytes);
}

fn put_numbers(store: &mut [u8], at: usize, numbers: &[u32]) {
    for (k, number) in numbers.iter().enumerate() {
        put(store, at + 4 * k, &number.to_le_bytes());
    }
}
