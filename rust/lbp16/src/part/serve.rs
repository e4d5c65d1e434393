//! The card on the wire: answers packets on a UDP address by the library's rules.

use crate::card::{Bytes, Card, Ending};
use crate::ending::{lost, plain, Done, Stop};
use crate::frames::framed;
use crate::input::read_exactly;
use crate::output;
use crate::protect::Guard;
use crate::signals;
use crate::words::Words;
use head::STORE_BYTES;
use std::ffi::{OsStr, OsString};
use std::fmt;
use std::fs::{File, OpenOptions};
use std::io::{self, BufWriter, ErrorKind, Write};
use std::net::{IpAddr, Ipv4Addr, SocketAddr, UdpSocket};
use std::time::Duration;

pub const HELP: &str = "usage: lbp16 serve [--address IP] [--port N] [--store FILE] [--save FILE] [--protect SPACE:FIRST-LAST]..
                   [--hostmot2] [--log FILE] [--quiet]
       lbp16 serve --save-start FILE [--store FILE] [--hostmot2]

Is a card: answers packets on a UDP address by the library's rules, and says a line of each. It ends at a signal.

  --address IP   where it is reached, 127.0.0.1 unless told otherwise
  --port N       the UDP port, 27181 unless told otherwise; 0 for any that is free
  --store FILE   begins with the store in this file, all 0 unless told otherwise
  --save FILE    writes the store to this file when it is stopped
  --save-start FILE
                 writes the store that it would begin with to this file, and answers no packet
  --protect SPACE:FIRST-LAST
                 lets no packet write the bytes at these addresses of space 0, 2, 6 or 7, both
                 included, decimal or with 0x: --protect 0:0x1000-0x1003 for register 0x1000
  --hostmot2     shows what tools look for in a HostMot2 board
  --log FILE     records all packets in the order taken, with their replies, for lbp16 judge
  --quiet        says no line of each packet
";

/// LBP16's port.
pub const PORT: u16 = 27_181;

/// How long a signal may wait at most.
const TICK: Duration = Duration::from_millis(100);

/// More than any datagram holds.
const DATAGRAM_BYTES: usize = 65_536;

#[derive(Default)]
struct Options {
    address: Option<IpAddr>,
    port: Option<u16>,
    store: Option<OsString>,
    save: Option<OsString>,
    /// Where only the store to begin with is asked for.
    save_start: Option<OsString>,
    guard: Vec<u32>,
    hostmot2: bool,
    log: Option<OsString>,
    quiet: bool,
}

pub fn run(words: Words) -> Done {
    let options = options(words)?;
    let store = match &options.store {
        Some(file) => read_exactly(file, STORE_BYTES, "a store")?,
        None => vec![0; STORE_BYTES],
    };
    let card = Card::new(store, options.guard.clone(), options.hostmot2);
    match &options.save_start {
        Some(file) => save(file, &card.store),
        None => serve(card, &options),
    }
}

fn options(mut words: Words) -> Result<Options, Stop> {
    let (mut options, mut guard) = (Options::default(), Guard::default());
    while let Some(option) = words.option()? {
        match option.as_str() {
            "--address" => options.address = Some(address(&words.text("an IP address")?)?),
            "--port" => options.port = Some(port(&words.text("a number")?)?),
            "--store" => options.store = Some(words.value("a file")?),
            "--save" => options.save = Some(words.value("a file")?),
            "--save-start" => options.save_start = Some(words.value("a file")?),
            "--protect" => guard.add(words.text("SPACE:FIRST-LAST")?)?,
            "--hostmot2" => options.hostmot2 = true,
            "--log" => options.log = Some(words.value("a file")?),
            "--quiet" => options.quiet = true,
            _ => return words.unknown(),
        }
    }
    words.no_files()?;
    options.guard = guard.sound()?;
    Ok(options)
}

fn address(text: &str) -> Result<IpAddr, Stop> {
    let address = text.parse();
    address.map_err(|_| Stop::Usage(format!("'{text}' is no IP address")))
}

fn port(text: &str) -> Result<u16, Stop> {
    let port = text.parse();
    port.map_err(|_| Stop::Usage(format!("'{text}' is no port")))
}

/// Answers packets until a signal says to stop.
fn serve(mut card: Card, options: &Options) -> Done {
    if let Some(file) = &options.save {
        can_write(file)?;
    }
    let mut log = options.log.as_deref().map(Log::begin).transpose()?;
    let socket = bind(options)?;
    signals::listen();
    line(format_args!("lbp16 serve: on {}", address_of(&socket)?));
    let mut datagram = vec![0; DATAGRAM_BYTES];
    while !signals::stop() {
        match socket.recv_from(&mut datagram) {
            Ok((length, sender)) => {
                let packet = &datagram[..length];
                let ending = card.ending(packet);
                answer(&socket, packet, &ending, sender, options.quiet);
                log.as_mut()
                    .map_or(Ok(()), |log| log.put(packet, ending.reply()))?;
            }
            Err(error) if waits(&error) => log.as_mut().map_or(Ok(()), Log::flush)?,
            // What came can't be read; the next may.
            Err(error) => line(format_args!("nothing read: {error}")),
        }
    }
    log.as_mut().map_or(Ok(()), Log::flush)?;
    match &options.save {
        Some(file) => save(file, &card.store),
        None => Ok(()),
    }
}

/// Whether a receive ended only because nothing came, or for a signal.
fn waits(error: &io::Error) -> bool {
    use ErrorKind::{Interrupted, TimedOut, WouldBlock};
    [Interrupted, TimedOut, WouldBlock].contains(&error.kind())
}

fn bind(options: &Options) -> Result<UdpSocket, Stop> {
    let ip = options.address.unwrap_or(IpAddr::V4(Ipv4Addr::LOCALHOST));
    let address = SocketAddr::new(ip, options.port.unwrap_or(PORT));
    let bound = UdpSocket::bind(address).and_then(|socket| {
        socket.set_read_timeout(Some(TICK))?;
        Ok(socket)
    });
    bound.map_err(|error| Stop::Failed(format!("{address}: {}", plain(&error))))
}

fn address_of(socket: &UdpSocket) -> Result<SocketAddr, Stop> {
    socket
        .local_addr()
        .map_err(|error| Stop::Failed(plain(&error)))
}

/// Sends the reply, if there is one, and says a line.
fn answer(socket: &UdpSocket, packet: &[u8], ending: &Ending, sender: SocketAddr, quiet: bool) {
    let lost = match ending.reply() {
        [] => None,
        reply => socket.send_to(reply, sender).err(),
    };
    match lost {
        None if quiet => {}
        None => line(format_args!("{}: {ending}", Bytes(packet))),
        Some(error) => line(format_args!(
            "{}: {ending}, not sent: {error}",
            Bytes(packet)
        )),
    }
}

/// Writes a line. That no one reads it any more doesn't stop the card.
fn line(line: fmt::Arguments) {
    let mut out = io::stdout().lock();
    let _ = writeln!(out, "{line}").and_then(|()| out.flush());
}

/// Packets and replies in turn. It is written as it grows, so that it is there whatever stops the card.
struct Log {
    name: String,
    file: BufWriter<File>,
}

impl Log {
    fn begin(file: &OsStr) -> Result<Log, Stop> {
        let name = file.display().to_string();
        match File::create(file) {
            Ok(file) => Ok(Log {
                name,
                file: BufWriter::new(file),
            }),
            Err(error) => Err(lost(&name, &error)),
        }
    }

    fn put(&mut self, packet: &[u8], reply: &[u8]) -> Done {
        let put = [packet, reply].map(framed).concat();
        let put = self.file.write_all(&put);
        put.map_err(|error| lost(&self.name, &error))
    }

    fn flush(&mut self) -> Done {
        self.file.flush().map_err(|error| lost(&self.name, &error))
    }
}

fn save(file: &OsStr, store: &[u8]) -> Done {
    output::write(file, store)?;
    line(format_args!(
        "lbp16 serve: store written to {}",
        file.display()
    ));
    Ok(())
}

/// Finds out before anything is answered.
fn can_write(file: &OsStr) -> Done {
    let open = OpenOptions::new().create(true).append(true).open(file);
    open.map(drop)
        .map_err(|error| lost(&file.display().to_string(), &error))
}
