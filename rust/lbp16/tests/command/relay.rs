//! A relay between play and the card on loopback, that drops, doubles and delays what it is told to.

use std::net::{SocketAddr, UdpSocket};
use std::sync::atomic::{AtomicBool, Ordering};
use std::sync::Arc;
use std::thread::{self, JoinHandle};
use std::time::{Duration, Instant};

/// Where a datagram goes.
#[derive(Clone, Copy, Debug, PartialEq)]
pub enum Way {
    ToCard,
    FromCard,
}

/// What is done with a datagram.
#[derive(Clone, Copy, Debug, PartialEq)]
pub enum Fate {
    Pass,
    Drop,
    Double,
    /// By so many milliseconds.
    Delay(u64),
    /// It goes at once, and again after so many milliseconds.
    Again(u64),
}

pub struct Relay {
    pub address: String,
    stop: Arc<AtomicBool>,
    thread: Option<JoinHandle<()>>,
}

/// A host's port, and the relay's own to the card for it.
struct Pair {
    host: SocketAddr,
    upstream: UdpSocket,
}

struct Late {
    at: Instant,
    way: Way,
    pair: usize,
    bytes: Vec<u8>,
}

impl Relay {
    /// `fate` is asked of each datagram, with its number in its way, from 0.
    pub fn start(
        card: &str,
        fate: impl FnMut(Way, usize, &[u8]) -> Fate + Send + 'static,
    ) -> Relay {
        let socket = UdpSocket::bind("127.0.0.1:0").expect("a socket");
        socket
            .set_read_timeout(Some(Duration::from_millis(1)))
            .expect("a limit");
        let address = socket.local_addr().expect("its address").to_string();
        let (card, stop) = (card.to_string(), Arc::new(AtomicBool::new(false)));
        let told = stop.clone();
        let thread = thread::spawn(move || {
            let mut inside = Inside {
                socket,
                card,
                pairs: Vec::new(),
                late: Vec::new(),
                seen: [0; 2],
                fate,
            };
            while !told.load(Ordering::Relaxed) {
                inside.turn();
            }
        });
        Relay {
            address,
            stop,
            thread: Some(thread),
        }
    }
}

impl Drop for Relay {
    fn drop(&mut self) {
        self.stop.store(true, Ordering::Relaxed);
        let _ = self.thread.take().map(JoinHandle::join);
    }
}

struct Inside<F> {
    socket: UdpSocket,
    card: String,
    pairs: Vec<Pair>,
    late: Vec<Late>,
    seen: [usize; 2],
    fate: F,
}

impl<F: FnMut(Way, usize, &[u8]) -> Fate> Inside<F> {
    fn turn(&mut self) {
        let mut room = [0; 2_000];
        if let Ok((length, host)) = self.socket.recv_from(&mut room) {
            let pair = self.pair(host);
            self.meet(Way::ToCard, pair, &room[..length]);
        }
        for pair in 0..self.pairs.len() {
            while let Ok(length) = self.pairs[pair].upstream.recv(&mut room) {
                self.meet(Way::FromCard, pair, &room[..length]);
            }
        }
        let now = Instant::now();
        let (due, late) = self.late.drain(..).partition(|late| late.at <= now);
        self.late = late;
        let due: Vec<Late> = due;
        due.iter()
            .for_each(|late| self.pass(late.way, late.pair, &late.bytes));
    }

    fn pair(&mut self, host: SocketAddr) -> usize {
        if let Some(pair) = self.pairs.iter().position(|pair| pair.host == host) {
            return pair;
        }
        let upstream = UdpSocket::bind("127.0.0.1:0").expect("a socket");
        upstream.connect(&self.card).expect("the card");
        upstream.set_nonblocking(true).expect("no waiting");
        self.pairs.push(Pair { host, upstream });
        self.pairs.len() - 1
    }

    fn meet(&mut self, way: Way, pair: usize, bytes: &[u8]) {
        let number = self.seen[way as usize];
        self.seen[way as usize] += 1;
        let fate = (self.fate)(way, number, bytes);
        let times = match fate {
            Fate::Pass | Fate::Again(_) => 1,
            Fate::Double => 2,
            Fate::Drop | Fate::Delay(_) => 0,
        };
        (0..times).for_each(|_| self.pass(way, pair, bytes));
        if let Fate::Delay(by) | Fate::Again(by) = fate {
            let at = Instant::now() + Duration::from_millis(by);
            self.late.push(Late {
                at,
                way,
                pair,
                bytes: bytes.to_vec(),
            });
        }
    }

    fn pass(&self, way: Way, pair: usize, bytes: &[u8]) {
        let pair = &self.pairs[pair];
        // A port that is closed by now is no matter of the relay.
        let _ = match way {
            Way::ToCard => pair.upstream.send(bytes),
            Way::FromCard => self.socket.send_to(bytes, pair.host),
        };
    }
}
