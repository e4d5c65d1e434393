//! Reading a capture: from a pcap file to the recording of the one card in it.

use crate::Refusal;

/// What was read.
#[derive(Clone, Copy, Debug, PartialEq, Eq)]
pub struct Captured {
    /// The recording's bytes.
    pub bytes: usize,
    /// Its packets.
    pub packets: usize,
}

/// Writes a card's recording to `out`, and the number of each packet's frame, from 1, to `frames`.
/// What lies beyond stays as it is.
pub fn capture(capture: &[u8], out: &mut [u8], frames: &mut [u32]) -> Result<Captured, Refusal> {
    let exchanges = exchanges(capture)?;
    let bytes = exchanges.iter().map(Exchange::bytes).sum();
    let packets = exchanges.len();
    if out.len() < bytes {
        return Err(Refusal {
            number: 26,
            place: bytes as u64,
        });
    }
    if frames.len() < packets {
        return Err(Refusal {
            number: 27,
            place: packets as u64,
        });
    }

    let mut room = out;
    for (exchange, frame) in exchanges.iter().zip(frames) {
        room = put(room, exchange.request);
        room = put(room, exchange.reply.unwrap_or_default());
        *frame = exchange.frame;
    }
    Ok(Captured { bytes, packets })
}

/// Puts one part of a recording down and answers the room behind it.
fn put<'a>(room: &'a mut [u8], part: &[u8]) -> &'a mut [u8] {
    let (front, room) = room.split_at_mut(4);
    front[..2].copy_from_slice(b"LB");
    front[2..].copy_from_slice(&(part.len() as u16).to_le_bytes());
    let (contents, room) = room.split_at_mut(part.len());
    contents.copy_from_slice(part);
    room
}

/// A request with its frame, and the reply behind it.
struct Exchange<'a> {
    frame: u32,
    request: &'a [u8],
    reply: Option<&'a [u8]>,
}

impl Exchange<'_> {
    /// What it takes in a recording.
    fn bytes(&self) -> usize {
        8 + self.request.len() + self.reply.map_or(0, <[u8]>::len)
    }
}

/// LBP16's port.
const PORT: u16 = 27_181;

/// The exchanges of the card that the first datagram to [`PORT`] goes to.
fn exchanges(capture: &[u8]) -> Result<Vec<Exchange<'_>>, Refusal> {
    let (link, frames) = opened(capture).ok_or(Refusal::whole(91))?;
    let mut card = None;
    let mut exchanges: Vec<Exchange> = Vec::new();
    for (frame, captured) in (1..).zip(frames) {
        let refused = |number| Refusal {
            number,
            place: u64::from(frame),
        };
        let captured = captured.ok_or(refused(92))?;
        let Some(datagram) = link.packet(captured).and_then(Datagram::seen) else {
            continue;
        };
        if card.is_none() && datagram.to.port == PORT {
            card = Some(datagram.to);
        }
        let is_request = card == Some(datagram.to);
        if !is_request && card != Some(datagram.from) {
            continue;
        }
        let contents = datagram.contents().ok_or(refused(93))?;
        if is_request {
            exchanges.push(Exchange {
                frame,
                request: contents,
                reply: None,
            });
        } else {
            let open = exchanges.last_mut().filter(|last| last.reply.is_none());
            open.ok_or(refused(94))?.reply = Some(contents);
        }
    }
    Ok(exchanges)
}

/// Which byte of a capture's numbers comes first.
#[derive(Clone, Copy)]
enum Order {
    Low,
    High,
}

impl Order {
    fn number(self, bytes: &[u8; 4]) -> u32 {
        match self {
            Order::Low => u32::from_le_bytes(*bytes),
            Order::High => u32::from_be_bytes(*bytes),
        }
    }
}

/// Times in microseconds and in nanoseconds.
const MAGICS: [u32; 2] = [0xA1B2_C3D4, 0xA1B2_3C4D];

/// A capture's link type and its frames, if it is one that is read here.
fn opened(capture: &[u8]) -> Option<(Link, Frames<'_>)> {
    let (header, rest) = capture.split_first_chunk::<24>()?;
    let (magic, link) = (header.first_chunk()?, header.last_chunk()?);
    let known = |order: &Order| MAGICS.contains(&order.number(magic));
    let order = [Order::Low, Order::High].into_iter().find(known)?;
    let link = Link::of(order.number(link) & 0xFFFF, order)?;
    Some((link, Frames { rest, order }))
}

/// The captured bytes of one frame after the other; nothing for one that is cut, which is the last.
struct Frames<'a> {
    rest: &'a [u8],
    order: Order,
}

impl<'a> Iterator for Frames<'a> {
    type Item = Option<&'a [u8]>;

    fn next(&mut self) -> Option<Option<&'a [u8]>> {
        let rest = std::mem::take(&mut self.rest);
        if rest.is_empty() {
            return None;
        }
        // Two numbers of time, the bytes captured, and those that the frame had.
        let frame = rest.split_first_chunk::<16>().and_then(|(header, behind)| {
            let captured = self.order.number(header[8..].first_chunk()?);
            behind.split_at_checked(captured as usize)
        });
        Some(frame.map(|(frame, rest)| {
            self.rest = rest;
            frame
        }))
    }
}

/// What stands before a frame's IP packet.
#[derive(Clone, Copy)]
enum Link {
    /// The family as a number of the capture.
    Null(Order),
    Ethernet,
    /// Nothing.
    Raw,
    /// Linux cooked, in its first and second version.
    Cooked,
    Cooked2,
}

/// The family of IPv4.
const FAMILY: u32 = 2;
/// Ethernet's type for IPv4, and that of a tag.
const IPV4: [u8; 2] = [0x08, 0x00];
const TAG: [u8; 2] = [0x81, 0x00];

impl Link {
    fn of(number: u32, order: Order) -> Option<Link> {
        match number {
            0 => Some(Link::Null(order)),
            1 => Some(Link::Ethernet),
            12 | 101 | 228 => Some(Link::Raw),
            113 => Some(Link::Cooked),
            276 => Some(Link::Cooked2),
            _ => None,
        }
    }

    /// What is captured of a frame's IPv4 packet, if the link header says that there is one.
    #[inline]
    fn packet(self, frame: &[u8]) -> Option<&[u8]> {
        let (is_ipv4, packet) = match self {
            Link::Null(order) => {
                let (family, packet) = frame.split_first_chunk()?;
                (order.number(family) == FAMILY, packet)
            }
            Link::Ethernet => {
                let (header, behind) = frame.split_first_chunk::<14>()?;
                match header[12..] == TAG {
                    false => (header[12..] == IPV4, behind),
                    true => {
                        let (tag, packet) = behind.split_first_chunk::<4>()?;
                        (tag[2..] == IPV4, packet)
                    }
                }
            }
            Link::Raw => (true, frame),
            Link::Cooked => {
                let (header, packet) = frame.split_first_chunk::<16>()?;
                (header[14..] == IPV4, packet)
            }
            Link::Cooked2 => {
                let (header, packet) = frame.split_first_chunk::<20>()?;
                (header[..2] == IPV4, packet)
            }
        };
        is_ipv4.then_some(packet)
    }
}

/// One end of a datagram's way.
#[derive(Clone, Copy, PartialEq, Eq)]
struct Endpoint {
    address: [u8; 4],
    port: u16,
}

/// A UDP datagram whose ports can be seen.
struct Datagram<'a> {
    from: Endpoint,
    to: Endpoint,
    /// Whether more fragments follow.
    more: bool,
    /// The IP packet's length and that of its header, as they say.
    total: usize,
    header: usize,
    /// What is captured behind the IP header.
    captured: &'a [u8],
}

const UDP: u8 = 17;
/// Where a fragment stands in its datagram, and the flag of those that others follow.
const OFFSET: u16 = 0x1FFF;
const MORE: u16 = 0x2000;

impl<'a> Datagram<'a> {
    #[inline]
    fn seen(packet: &'a [u8]) -> Option<Datagram<'a>> {
        let ip = packet.first_chunk::<20>()?;
        let (version, words) = (ip[0] >> 4, ip[0] & 15);
        let fragment = u16::from_be_bytes([ip[6], ip[7]]);
        if version != 4 || words < 5 || fragment & OFFSET != 0 || ip[9] != UDP {
            return None;
        }
        let header = 4 * usize::from(words);
        let captured = packet.get(header..)?;
        let ports = captured.first_chunk::<4>()?;
        Some(Datagram {
            from: Endpoint {
                address: [ip[12], ip[13], ip[14], ip[15]],
                port: u16::from_be_bytes([ports[0], ports[1]]),
            },
            to: Endpoint {
                address: [ip[16], ip[17], ip[18], ip[19]],
                port: u16::from_be_bytes([ports[2], ports[3]]),
            },
            more: fragment & MORE != 0,
            total: u16::from_be_bytes([ip[2], ip[3]]).into(),
            header,
            captured,
        })
    }

    /// What it holds, if it is whole.
    #[inline]
    fn contents(&self) -> Option<&'a [u8]> {
        let udp = self.captured.first_chunk::<8>()?;
        let length = usize::from(u16::from_be_bytes([udp[4], udp[5]]));
        let whole = !self.more && self.header + length == self.total;
        // Nothing for a length below 8, or for one that wasn't captured.
        whole.then(|| self.captured.get(8..length)).flatten()
    }
}
