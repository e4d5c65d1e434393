//! Makes captures: UDP datagrams in frames of every link type, with each field as it is told, and frames that a reader of one
//! card's datagrams passes over.

use crate::rng::Rng;

/// LBP16's port.
pub const PORT: u16 = 27_181;

/// The link types that are read.
pub const LINKS: [u32; 7] = [0, 1, 12, 101, 113, 228, 276];

pub const ETHERNET: u32 = 1;

/// How a capture is written.
#[derive(Clone, Copy, Debug)]
pub struct Form {
    /// Whether numbers have their high byte first.
    pub big: bool,
    pub nanoseconds: bool,
    /// The link field, of which the lower half counts.
    pub link: u32,
}

impl Form {
    pub fn any(rng: &mut Rng) -> Form {
        let upper = match rng.one_in(4) {
            true => rng.word() << 16,
            false => 0,
        };
        Form {
            big: rng.coin(),
            nanoseconds: rng.coin(),
            link: rng.pick(&LINKS) | upper,
        }
    }

    pub fn link_type(&self) -> u32 {
        self.link & 0xFFFF
    }

    /// The bytes of a link header without tags.
    fn link_bytes(&self) -> usize {
        match self.link_type() {
            0 => 4,
            1 => 14,
            113 => 16,
            276 => 20,
            _ => 0,
        }
    }

    pub fn number(&self, number: u32) -> [u8; 4] {
        match self.big {
            true => number.to_be_bytes(),
            false => number.to_le_bytes(),
        }
    }

    /// The capture of these frames.
    pub fn capture(&self, rng: &mut Rng, frames: &[Vec<u8>]) -> Vec<u8> {
        let magic = match self.nanoseconds {
            true => 0xA1B2_3C4D,
            false => 0xA1B2_C3D4,
        };
        let mut capture = self.number(magic).to_vec();
        // Version, zone, accuracy and snap length.
        capture.extend(bytes(rng, 16));
        capture.extend(self.number(self.link));
        for frame in frames {
            let captured = frame.len() as u32;
            let any = rng.word();
            let had = captured.wrapping_add(rng.pick(&[0, 0, 1, 1_000, any]));
            capture.extend(bytes(rng, 8));
            capture.extend(self.number(captured));
            capture.extend(self.number(had));
            capture.extend(frame);
        }
        capture
    }
}

/// An address and a port.
#[derive(Clone, Copy, Debug, PartialEq, Eq)]
pub struct Host {
    pub address: [u8; 4],
    pub port: u16,
}

impl Host {
    /// A card.
    pub fn card(rng: &mut Rng) -> Host {
        let address = rng.pick(&[[192, 168, 1, 121], [10, 10, 10, 10], [127, 0, 0, 1]]);
        Host {
            address,
            port: PORT,
        }
    }

    /// One that asks cards.
    pub fn asking(rng: &mut Rng) -> Host {
        let any = rng.word().to_be_bytes();
        Host {
            address: rng.pick(&[[192, 168, 1, 1], [127, 0, 0, 1], any]),
            port: rng.pick(&[1, 40_000, PORT - 1, PORT.swap_bytes(), 0xFFFF]),
        }
    }

    /// Another card: its address differs in a bit.
    pub fn other_card(self, rng: &mut Rng) -> Host {
        let bit = 1 << rng.below(32);
        Host {
            address: (u32::from_be_bytes(self.address) ^ bit).to_be_bytes(),
            ..self
        }
    }

    /// Another port of it.
    pub fn other_port(self, rng: &mut Rng) -> Host {
        let bit = 1 << rng.below(16);
        Host {
            port: self.port ^ bit,
            ..self
        }
    }
}

/// A UDP datagram in a frame, each field as it is written.
#[derive(Clone, Debug)]
pub struct Frame {
    /// Types before the one of an Ethernet frame, each with two bytes behind it.
    pub tags: Vec<u16>,
    /// What the link header says that it holds: an Ethernet type, or a family where it has that.
    pub kind: u16,
    pub family: u32,
    pub version: u8,
    /// The words of the IP header as it says, and the bytes that it has behind the first 20.
    pub words: u8,
    pub options: usize,
    /// The IP packet's length as it says.
    pub total: u16,
    /// Flags and offset.
    pub fragment: u16,
    pub protocol: u8,
    pub from: Host,
    pub to: Host,
    /// The datagram's length as it says.
    pub length: u16,
    pub contents: Vec<u8>,
    /// Bytes behind the IP packet.
    pub padding: usize,
    /// The most bytes that are captured.
    pub snapped: usize,
}

const IPV4: u16 = 0x0800;
const TAG: u16 = 0x8100;
const MORE_FRAGMENTS: u16 = 0x2000;

impl Frame {
    /// A plain one that is whole.
    pub fn new(from: Host, to: Host, contents: &[u8]) -> Frame {
        let length = 8 + contents.len() as u16;
        Frame {
            tags: Vec::new(),
            kind: IPV4,
            family: 2,
            version: 4,
            words: 5,
            options: 0,
            total: 20 + length,
            fragment: 0,
            protocol: 17,
            from,
            to,
            length,
            contents: contents.to_vec(),
            padding: 0,
            snapped: usize::MAX,
        }
    }

    /// The same datagram, at times with options, a tag, padding, and flags that play no part.
    pub fn varied(mut self, rng: &mut Rng) -> Frame {
        if rng.one_in(3) {
            self.tags.push(TAG);
        }
        let words = rng.pick(&[0, 0, 0, 1, 2, 10]);
        self.words += words;
        self.options = 4 * usize::from(words);
        self.total += self.options as u16;
        self.padding = rng.pick(&[0, 0, 1, 4, 18]);
        self.fragment = rng.pick(&[0, 0x4000, 0x8000, 0xC000]);
        self
    }

    /// Where the IP packet stands in the frame, and where the datagram does.
    fn packet_at(&self, form: &Form) -> usize {
        let tags = match form.link_type() {
            ETHERNET => self.tags.len(),
            _ => 0,
        };
        form.link_bytes() + 4 * tags
    }

    fn datagram_at(&self, form: &Form) -> usize {
        self.packet_at(form) + 20 + self.options
    }

    /// What is captured of it.
    pub fn bytes(&self, rng: &mut Rng, form: &Form) -> Vec<u8> {
        let mut frame = self.link_header(rng, form);
        frame.extend([self.version << 4 | self.words, rng.byte()]);
        frame.extend(self.total.to_be_bytes());
        frame.extend(bytes(rng, 2));
        frame.extend(self.fragment.to_be_bytes());
        frame.extend([rng.byte(), self.protocol]);
        frame.extend(bytes(rng, 2));
        frame.extend(self.from.address);
        frame.extend(self.to.address);
        frame.extend(bytes(rng, self.options));
        for number in [self.from.port, self.to.port, self.length] {
            frame.extend(number.to_be_bytes());
        }
        frame.extend(bytes(rng, 2));
        frame.extend(&self.contents);
        frame.extend(bytes(rng, self.padding));
        frame.truncate(self.snapped);
        frame
    }

    fn link_header(&self, rng: &mut Rng, form: &Form) -> Vec<u8> {
        let kind = self.kind.to_be_bytes().to_vec();
        match form.link_type() {
            0 => form.number(self.family).to_vec(),
            ETHERNET => {
                let mut header = bytes(rng, 12);
                for tag in &self.tags {
                    header.extend(tag.to_be_bytes());
                    header.extend(bytes(rng, 2));
                }
                [header, kind].concat()
            }
            113 => [bytes(rng, 14), kind].concat(),
            276 => [kind, bytes(rng, 18)].concat(),
            _ => Vec::new(),
        }
    }
}

fn bytes(rng: &mut Rng, count: usize) -> Vec<u8> {
    let mut bytes = vec![0; count];
    rng.fill(&mut bytes);
    bytes
}

/// Why a datagram isn't whole, though its ports can be seen.
pub const SPOILT: [&str; 5] = [MORE, BELOW_8, NOT_ITS_LENGTH, SHORT_PACKET, NOT_CAPTURED];
pub const MORE: &str = "93: more fragments follow";
pub const BELOW_8: &str = "93: a UDP length below 8";
pub const NOT_ITS_LENGTH: &str = "93: a UDP length that isn't what the IP packet has";
pub const SHORT_PACKET: &str = "93: an IP packet shorter than its header";
pub const NOT_CAPTURED: &str = "93: bytes not captured";

/// Spoils a datagram that is whole, so that it isn't any more, and says how.
pub fn spoil(rng: &mut Rng, form: &Form, frame: &mut Frame) -> &'static str {
    let how = rng.pick(&SPOILT);
    let header = 20 + frame.options as u16;
    match how {
        MORE => frame.fragment |= MORE_FRAGMENTS,
        BELOW_8 => {
            frame.length = rng.below(8) as u16;
            if rng.coin() {
                frame.total = header + frame.length;
            }
        }
        NOT_ITS_LENGTH if rng.coin() => frame.total ^= 1 << rng.below(16),
        NOT_ITS_LENGTH => {
            let more = rng.pick(&[1, 2, 8, 20]);
            frame.length = match frame.length >= 8 + more && rng.coin() {
                true => frame.length - more,
                false => frame.length.wrapping_add(more),
            };
        }
        SHORT_PACKET => {
            frame.total = rng.below(header.into()) as u16;
            // Right in sixteen bits, and at times all of it is there.
            frame.length = frame.total.wrapping_sub(header);
            if rng.one_in(16) {
                frame.contents.resize(usize::from(frame.length) - 8, 0);
            }
        }
        _ => {
            let seen = rng.between(4, frame.contents.len() + 7);
            frame.snapped = frame.datagram_at(form) + seen;
        }
    }
    how
}

/// Why a frame is passed over.
pub const PASSED: [&str; 12] = [
    KIND,
    TAGS,
    LINK_CUT,
    VERSION,
    WORDS,
    HEADER_CUT,
    PROTOCOL,
    LATER_FRAGMENT,
    PORTS_CUT,
    OTHER_CARD,
    OTHER_PORT,
    OTHERS,
];
pub const KIND: &str = "passed over: no IPv4 by its link header";
pub const TAGS: &str = "passed over: two tags, or one of another kind";
pub const LINK_CUT: &str = "passed over: link header not wholly captured";
pub const VERSION: &str = "passed over: another version";
pub const WORDS: &str = "passed over: a header length below 5";
pub const HEADER_CUT: &str = "passed over: IP header not wholly captured";
pub const PROTOCOL: &str = "passed over: another protocol";
pub const LATER_FRAGMENT: &str = "passed over: a later fragment";
pub const PORTS_CUT: &str = "passed over: fewer than four bytes behind the IP header";
pub const OTHER_CARD: &str = "passed over: another card's";
pub const OTHER_PORT: &str = "passed over: another port of the card";
pub const OTHERS: &str = "passed over: between others";

/// A frame that is passed over behind the first request to the card, and why.
pub fn passed(rng: &mut Rng, form: &Form, card: Host) -> (&'static str, Vec<u8>) {
    let why = loop {
        let why = rng.pick(&PASSED);
        let fits = match why {
            KIND | LINK_CUT => form.link_bytes() > 0,
            TAGS => form.link_type() == ETHERNET,
            _ => true,
        };
        if fits {
            break why;
        }
    };
    let mut frame = datagram(rng, card);
    let is_request = frame.to == card;
    let end = match is_request {
        true => &mut frame.to,
        false => &mut frame.from,
    };
    match why {
        KIND => {
            frame.kind = rng.pick(&[0x0806, 0x86DD, IPV4 + 1, IPV4.swap_bytes(), 0]);
            frame.family = rng.pick(&[0, 10, 24, 28, 30, 0x0200_0000, 0x0002_0002]);
        }
        TAGS => {
            frame.tags = [[TAG, TAG].as_slice(), &[0x88A8], &[0x88A8, TAG]][rng.below(3)].to_vec()
        }
        LINK_CUT => frame.snapped = rng.below(frame.packet_at(form)),
        VERSION => frame.version = rng.pick(&[0, 3, 5, 6, 15]),
        WORDS => frame.words = rng.below(5) as u8,
        HEADER_CUT => {
            frame.snapped = rng.between(frame.packet_at(form), frame.datagram_at(form) - 1)
        }
        PROTOCOL => frame.protocol = rng.pick(&[0, 1, 6, 16, 18, 136]),
        LATER_FRAGMENT => frame.fragment |= rng.between(1, 0x3FFF) as u16 | 1,
        PORTS_CUT => frame.snapped = frame.datagram_at(form) + rng.below(4),
        OTHER_CARD => *end = card.other_card(rng),
        OTHER_PORT => *end = card.other_port(rng),
        _ => (frame.from, frame.to) = (Host::asking(rng), Host::asking(rng)),
    }
    if matches!(why, OTHER_CARD | OTHER_PORT | OTHERS) && rng.one_in(3) {
        spoil(rng, form, &mut frame);
    }
    (why, frame.bytes(rng, form))
}

/// A request to the card or a reply of its, which nobody expects.
pub fn datagram(rng: &mut Rng, card: Host) -> Frame {
    let host = Host::asking(rng);
    let length = rng.pick(&[0, 1, 4, 40]);
    let contents = bytes(rng, length);
    let frame = match rng.coin() {
        true => Frame::new(host, card, &contents),
        false => Frame::new(card, host, &contents),
    };
    frame.varied(rng)
}
