//! Packets to a card and what comes back.
//!
//! UDP replies say nothing of the packet that they answer. Each packet is therefore sent from a port of its own: what comes to
//! that port answers that packet, however late it is and however often it comes.

use crate::ending::{plain, Stop};
use crate::signals;
use std::collections::VecDeque;
use std::io::{self, ErrorKind};
use std::net::{Ipv4Addr, Ipv6Addr, SocketAddr, UdpSocket};
use std::time::{Duration, Instant};

/// How many ports are kept, so that a late reply finds no new packet there.
const KEPT: usize = 64;

/// How long one look at a port lasts at most.
const LOOK: Duration = Duration::from_millis(5);

/// More than a reply may have.
const ROOM: usize = 2_048;

pub struct Wire {
    card: SocketAddr,
    pub limit: Duration,
    kept: VecDeque<UdpSocket>,
}

/// A packet that was sent, and its reply once it is there.
pub struct Sent {
    socket: UdpSocket,
    pub reply: Option<Vec<u8>>,
}

impl Wire {
    pub fn new(card: SocketAddr, limit: Duration) -> Wire {
        Wire {
            card,
            limit,
            kept: VecDeque::new(),
        }
    }

    pub fn send(&self, packet: &[u8]) -> Result<Sent, Stop> {
        let any = match self.card {
            SocketAddr::V4(_) => SocketAddr::from((Ipv4Addr::UNSPECIFIED, 0)),
            SocketAddr::V6(_) => SocketAddr::from((Ipv6Addr::UNSPECIFIED, 0)),
        };
        let sent = UdpSocket::bind(any).and_then(|socket| {
            socket.connect(self.card)?;
            socket.set_read_timeout(Some(LOOK))?;
            socket.send(packet)?;
            Ok(socket)
        });
        match sent {
            Ok(socket) => Ok(Sent {
                socket,
                reply: None,
            }),
            Err(error) => Err(self.failed(&error)),
        }
    }

    /// Listens until the newest packet has its reply, where `newest` says so, or any; at most for the time limit.
    pub fn listen(&self, sent: &mut [Sent], newest: bool) -> Result<(), Stop> {
        let until = Instant::now() + self.limit;
        while Instant::now() < until {
            if signals::stop() {
                return Err(Stop::Failed("stopped by a signal".into()));
            }
            self.look(sent)?;
            let there = match newest {
                true => sent.last().is_some_and(|last| last.reply.is_some()),
                false => sent.iter().any(|one| one.reply.is_some()),
            };
            if there {
                break;
            }
        }
        Ok(())
    }

    /// Listens for the whole time limit, so that what is late is not left on the way.
    pub fn settle(&self, sent: &mut [Sent]) -> Result<(), Stop> {
        let until = Instant::now() + self.limit;
        while Instant::now() < until {
            self.look(sent)?;
        }
        Ok(())
    }

    /// Takes what has come. A second reply to the same packet is a double, and dropped.
    pub fn look(&self, sent: &mut [Sent]) -> Result<(), Stop> {
        let mut room = [0; ROOM];
        for one in sent.iter_mut().rev() {
            match one.socket.recv(&mut room) {
                Ok(length) => {
                    one.reply.get_or_insert(room[..length].to_vec());
                }
                Err(error) if waits(&error) => {}
                Err(error) => return Err(self.failed(&error)),
            }
        }
        Ok(())
    }

    /// Puts packets aside that are done with. Their ports are not used again soon.
    pub fn keep(&mut self, sent: Vec<Sent>) {
        self.kept.extend(sent.into_iter().map(|one| one.socket));
        while self.kept.len() > KEPT {
            self.kept.pop_front();
        }
    }

    /// Packets that were not answered are listened for without waiting, the last ones of them.
    pub fn watched(&self, mut sent: Vec<Sent>, silent: Vec<Sent>) -> Result<Vec<Sent>, Stop> {
        for one in silent {
            one.socket
                .set_nonblocking(true)
                .map_err(|error| self.failed(&error))?;
            sent.push(one);
        }
        sent.drain(..sent.len().saturating_sub(KEPT));
        Ok(sent)
    }

    fn failed(&self, error: &io::Error) -> Stop {
        let hint = match error.kind() {
            ErrorKind::ConnectionRefused => ": no card is there",
            _ => "",
        };
        Stop::Failed(format!("{}: {}{hint}", self.card, plain(error)))
    }

    pub fn silent(&self, times: u64) -> Stop {
        let (card, limit) = (self.card, self.limit.as_millis());
        Stop::Failed(format!(
            "no answer from {card} in {limit} ms, asked {times} times"
        ))
    }
}

fn waits(error: &io::Error) -> bool {
    use ErrorKind::{Interrupted, TimedOut, WouldBlock};
    [Interrupted, TimedOut, WouldBlock].contains(&error.kind())
}
