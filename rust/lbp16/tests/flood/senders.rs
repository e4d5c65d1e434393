//! Two senders that flood a server with bursts of packets and note what comes back.

use crate::packets::burst;
use std::collections::hash_map::DefaultHasher;
use std::hash::{Hash, Hasher};
use std::net::UdpSocket;
use std::thread;
use std::time::{Duration, Instant};

pub const SENDERS: u32 = 2;

/// What a sender did: for each burst the replies that came, as one number, or nothing where the marker's reply never came.
pub struct Sender {
    pub bursts: Vec<Option<u64>>,
    pub packets: u64,
    pub replies: u64,
}

/// Replies in order as one number.
#[derive(Default)]
pub struct Replies(DefaultHasher);

impl Replies {
    pub fn add(&mut self, reply: &[u8]) {
        reply.hash(&mut self.0);
    }

    pub fn number(&self) -> u64 {
        self.0.finish()
    }
}

/// Floods a server for a time. `last` is what the server replies to a burst's marker.
pub fn flood(address: &str, time: Duration, last: fn(u32, u32) -> Vec<u8>) -> Vec<Sender> {
    let until = Instant::now() + time;
    let start = |sender| {
        let address = address.to_string();
        thread::spawn(move || send(sender, &address, until, last))
    };
    let threads: Vec<_> = (0..SENDERS).map(start).collect();
    threads
        .into_iter()
        .map(|thread| thread.join().expect("a sender"))
        .collect()
}

fn send(sender: u32, address: &str, until: Instant, last: fn(u32, u32) -> Vec<u8>) -> Sender {
    let socket = UdpSocket::bind("127.0.0.1:0").expect("a socket");
    socket.connect(address).expect("the server");
    socket
        .set_read_timeout(Some(Duration::from_secs(2)))
        .expect("a limit");
    let mut done = Sender {
        bursts: Vec::new(),
        packets: 0,
        replies: 0,
    };
    while Instant::now() < until {
        let number = done.bursts.len() as u32;
        for packet in burst(sender, number) {
            socket.send(&packet).expect("a packet sent");
            done.packets += 1;
        }
        let heard = listen(&socket, &last(sender, number), &mut done.replies);
        done.bursts.push(heard);
    }
    done
}

/// Listens up to the reply to the marker.
fn listen(socket: &UdpSocket, last: &[u8], count: &mut u64) -> Option<u64> {
    let mut room = [0; 2_000];
    let mut replies = Replies::default();
    loop {
        let length = socket.recv(&mut room).ok()?;
        *count += 1;
        replies.add(&room[..length]);
        if room[..length] == *last {
            return Some(replies.number());
        }
    }
}
