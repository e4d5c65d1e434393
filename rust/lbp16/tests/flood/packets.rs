//! The packets of a flood: the same sender and burst give the same packets.

/// How many packets a burst has at most, its marker apart.
const BURST: u64 = 8;

/// A small source of random numbers (splitmix64).
pub struct Random(u64);

impl Random {
    pub fn number(&mut self) -> u64 {
        self.0 = self.0.wrapping_add(0x9E37_79B9_7F4A_7C15);
        let mut mixed = self.0;
        mixed = (mixed ^ mixed >> 30).wrapping_mul(0xBF58_476D_1CE4_E5B9);
        mixed = (mixed ^ mixed >> 27).wrapping_mul(0x94D0_49BB_1331_11EB);
        mixed ^ mixed >> 31
    }

    fn below(&mut self, end: u64) -> u64 {
        self.number() % end
    }

    fn bytes(&mut self, length: u64) -> Vec<u8> {
        (0..length).map(|_| self.number() as u8).collect()
    }
}

/// A number that is a burst's own, and no cell's by chance.
pub fn mark(sender: u32, burst: u32) -> Vec<u8> {
    let mark = (2 * burst + sender + 1).wrapping_mul(0x9E37_79B1);
    mark.to_le_bytes().to_vec()
}

/// The last packet of a burst: writes its mark to a register of the sender and reads it back, so that its reply is met once.
pub fn marker(sender: u32, burst: u32) -> Vec<u8> {
    let register = (0xFFF0 + 4 * sender as u16).to_le_bytes();
    [
        &[0x81, 0xC2][..],
        &register,
        &mark(sender, burst),
        &[0x81, 0x42],
        &register,
    ]
    .concat()
}

/// A burst's packets, the marker last. No two senders have the same one: below 12 bytes only the first one sends.
pub fn burst(sender: u32, burst: u32) -> Vec<Vec<u8>> {
    let mut random = Random(u64::from(sender) << 40 ^ u64::from(burst) << 3 ^ 0x5EED);
    let packets = 1 + random.below(BURST);
    let mut all: Vec<Vec<u8>> = (0..packets).map(|_| packet(&mut random, sender)).collect();
    all.push(marker(sender, burst));
    all
}

fn packet(random: &mut Random, sender: u32) -> Vec<u8> {
    let packet = match random.below(10) {
        0 => {
            let length = random.below(80);
            random.bytes(length)
        }
        1 => {
            let mut packet = valid(random);
            let at = random.below(packet.len() as u64) as usize;
            packet[at] ^= 1 << random.below(8);
            packet
        }
        2 => {
            let mut packet = valid(random);
            packet.truncate(random.below(packet.len() as u64) as usize);
            packet
        }
        3 if random.below(50) == 0 => {
            let length = 1_400 + random.below(120);
            random.bytes(length)
        }
        _ => valid(random),
    };
    match packet.len() < 12 && sender > 0 {
        true => packet_with(random, packet),
        false => packet,
    }
}

/// Behind it a write that makes it this sender's own.
fn packet_with(random: &mut Random, mut packet: Vec<u8>) -> Vec<u8> {
    packet.extend([0x82, 0xC2, 0x00, 0x80]);
    packet.extend(random.bytes(8));
    packet
}

/// One to five commands, most of them good.
fn valid(random: &mut Random) -> Vec<u8> {
    let commands = 1 + random.below(5);
    (0..commands).flat_map(|_| command(random)).collect()
}

fn command(random: &mut Random) -> Vec<u8> {
    let (space, size, bytes) = [
        (0, 2, 65_536),
        (0, 2, 65_536),
        (2, 1, 128),
        (6, 1, 32),
        (7, 1, 32),
    ][random.below(5) as usize];
    let (write, info) = (random.below(2) == 0 && space != 7, random.below(12) == 0);
    let (address, increment) = (random.below(8) > 0, random.below(3) > 0);
    let count = if random.below(40) == 0 {
        random.below(128)
    } else {
        1 + random.below(6)
    };
    let size = if info { 1 } else { size };
    let word = u16::from(write && !info) << 15
        | u16::from(address) << 14
        | u16::from(info) << 13
        | space << 10
        | size << 8
        | u16::from(increment) << 7
        | count as u16;
    // The EEPROM is written behind its unlock.
    let mut command = match write && space == 2 {
        true => vec![0x01, 0xD9, 0x1A, 0x00, 0x02, 0x5A],
        false => Vec::new(),
    };
    command.extend(word.to_le_bytes());
    if address {
        let most = if info { 16 } else { bytes };
        let place = random.below(most) & !((1 << size) - 1);
        command.extend((place as u16).to_le_bytes());
    }
    if write && !info {
        command.extend(random.bytes(count << size));
    }
    command
}
