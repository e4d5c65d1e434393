//! The card's log run again by the second implementation, and held against what the senders heard.

use crate::packets::burst;
use crate::senders::{Replies, Sender};
use std::fs::File;
use std::io::{BufReader, ErrorKind, Read};
use std::path::Path;

/// What the log holds.
#[derive(Default)]
pub struct Found {
    pub packets: u64,
    pub refused: u64,
    pub replies: u64,
    /// Bursts whose replies are those that the sender heard.
    pub bursts: u64,
    pub store: Vec<u8>,
}

/// A sender's burst at which the log stands.
struct Follower<'a> {
    number: u32,
    sender: &'a Sender,
    burst: usize,
    packets: Vec<Vec<u8>>,
    at: usize,
    replies: Replies,
}

/// Fails where a reply is wrong, or where one came to a packet that is refused.
pub fn replay(log: &Path, senders: &[Sender]) -> Found {
    let mut log = BufReader::with_capacity(1 << 20, File::open(log).expect("the log"));
    let mut followers: Vec<Follower> = senders.iter().zip(0..).map(Follower::new).collect();
    let mut found = Found {
        store: vec![0; 65_728],
        ..Found::default()
    };
    let (mut pointers, mut room) = (vec![0; 8], vec![0; 1_472]);
    while let Some(packet) = part(&mut log) {
        let reply = part(&mut log).expect("a reply behind each packet");
        let k = found.packets;
        found.packets += 1;
        match model::packet::run(&packet, &mut found.store, &mut pointers, &mut room) {
            Ok(ran) => assert!(reply == room[..ran.length], "packet {k} has a wrong reply"),
            Err(_) => {
                assert!(reply.is_empty(), "packet {k} is refused and has a reply");
                found.refused += 1;
            }
        }
        found.replies += u64::from(!reply.is_empty());
        let taken = followers
            .iter_mut()
            .any(|follower| follower.take(&packet, &reply, &mut found.bursts));
        assert!(taken, "nobody sent packet {k}");
    }
    found
}

impl<'a> Follower<'a> {
    fn new((sender, number): (&'a Sender, u32)) -> Follower<'a> {
        Follower {
            number,
            sender,
            burst: 0,
            packets: burst(number, 0),
            at: 0,
            replies: Replies::default(),
        }
    }

    /// Whether the packet is of this sender's burst, or of one of the next. Packets before it were lost.
    fn take(&mut self, packet: &[u8], reply: &[u8], bursts: &mut u64) -> bool {
        if let Some(ahead) = self.packets[self.at..]
            .iter()
            .position(|sent| sent == packet)
        {
            self.at += ahead + 1;
            if !reply.is_empty() {
                self.replies.add(reply);
            }
            if self.at == self.packets.len() {
                self.ended(bursts);
            }
            return true;
        }
        // A marker that was lost: the sender went on without a number for the burst.
        match self.sender.bursts.get(self.burst) {
            Some(None) => {
                self.next();
                self.take(packet, reply, bursts)
            }
            _ => false,
        }
    }

    fn ended(&mut self, bursts: &mut u64) {
        if let Some(heard) = self.sender.bursts[self.burst] {
            assert!(
                heard == self.replies.number(),
                "sender {} heard other replies to burst {}",
                self.number,
                self.burst
            );
            *bursts += 1;
        }
        self.next();
    }

    fn next(&mut self) {
        self.burst += 1;
        self.packets = burst(self.number, self.burst as u32);
        self.at = 0;
        self.replies = Replies::default();
    }
}

/// The next part behind its mark and length; nothing at the end.
fn part(log: &mut impl Read) -> Option<Vec<u8>> {
    let mut front = [0; 4];
    match log.read_exact(&mut front) {
        Ok(()) => {}
        Err(error) if error.kind() == ErrorKind::UnexpectedEof => return None,
        Err(error) => panic!("the log: {error}"),
    }
    assert_eq!(front[..2], *b"LB");
    let mut part = vec![0; u16::from_le_bytes([front[2], front[3]]).into()];
    log.read_exact(&mut part).expect("a whole part");
    Some(part)
}
