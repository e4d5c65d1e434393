//! Packets to a card, each after the reply of the one before, with a recording.

use crate::again::may_be_sent_again;
use crate::answer::{Answer, Common};
use crate::card::Bytes;
use crate::ending::{say, Done, Refused, Stop};
use crate::frames;
use crate::input::{self, Input};
use crate::json::Object;
use crate::output::Output;
use crate::part::serve::PORT;
use crate::player::{Player, Told};
use crate::reason;
use crate::shown::Count;
use crate::signals;
use crate::state::{From, State};
use crate::wire::Wire;
use crate::words::Words;
use std::fmt::Write;
use std::io::{self, IsTerminal};
use std::net::{SocketAddr, ToSocketAddrs};
use std::time::Duration;

pub const HELP: &str = "usage: lbp16 play --to HOST[:PORT] [-o RECORDING] [--timeout MS] [--tries N] [--store FILE] [--pointers FILE]
                  [--json] [OUTPUT]
       lbp16 play --dry-run [--json] [OUTPUT]

Sends the packets of an output, as lbp16 compile makes it, to a card: each after the reply of the one before. A packet
without a reply is followed by a read of the card's packet count, so that one that was refused or lost is noticed. A
packet of reads that all give their address is sent again where no reply comes; nothing else is. It stops at the first
packet that fails.

  --to HOST[:PORT]   the card; port 27181 unless told otherwise
  -o RECORDING       records packets and replies, probes among them, for lbp16 judge; also where it stops
  --timeout MS       how long a reply may take, 200 milliseconds unless told otherwise
  --tries N          how often a read is sent at most, 3 unless told otherwise
  --store FILE       the card's store before the first packet: its packet count is then held against the card's
  --pointers FILE    the card's 8 pointers before the first packet; all 0 where it is not given
  --dry-run          says what would be sent, and sends nothing
";

struct Options {
    common: Common,
    from: From,
    to: Option<String>,
    limit: u64,
    tries: u64,
    dry: bool,
    store_given: bool,
}

pub fn run(mut words: Words) -> Done {
    let mut options = Options {
        common: Common::default(),
        from: From::default(),
        to: None,
        limit: 200,
        tries: 3,
        dry: false,
        store_given: false,
    };
    while let Some(option) = words.option()? {
        match option.as_str() {
            "--to" => options.to = Some(words.text("HOST or HOST:PORT")?),
            "--timeout" => options.limit = words.number("milliseconds")?,
            "--tries" => options.tries = words.number("a number")?.min(100),
            "--dry-run" => options.dry = true,
            _ if options.common.take(&option, &mut words)? => {}
            _ if options.from.take(&option, &mut words)? => {
                options.store_given |= option == "--store";
            }
            _ => return words.unknown(),
        }
    }
    let played = played(words, &options);
    options.common.end(played)
}

fn played(words: Words, options: &Options) -> Result<Answer, Stop> {
    let card = match (&options.to, options.dry) {
        (Some(to), false) => Some(address(to)?),
        (None, false) => {
            return Err(Stop::Usage(
                "say with --to HOST[:PORT] where the card is".into(),
            ))
        }
        (_, true) if options.common.output.is_some() => {
            return Err(Stop::Usage(
                "--dry-run records nothing: leave out -o".into(),
            ))
        }
        (_, true) => None,
    };
    let input = input::read(&words.one_file()?)?;
    let packets = packets(&input)?;
    let state = options.from.read()?;
    let lengths = lengths(&input.name, &packets, state.clone())?;
    match card {
        None => Ok(dry(&input.name, &packets, &lengths)),
        Some(card) => send(&input.name, &packets, state, card, options),
    }
}

fn address(text: &str) -> Result<SocketAddr, Stop> {
    let found = match text.to_socket_addrs() {
        Err(_) => (text, PORT).to_socket_addrs(),
        found => found,
    };
    let first = found.ok().and_then(|mut found| found.next());
    first.ok_or(Stop::Failed(format!("'{text}': no such host")))
}

fn refused(name: &str, said: String) -> Stop {
    Stop::Refused(Refused {
        message: format!("{name}: {said}\n"),
        object: Object::new()
            .flag("accepted", false)
            .text("file", name)
            .text("message", said),
    })
}

/// The packets of an output; what is none is refused.
pub fn packets(input: &Input) -> Result<Vec<&[u8]>, Stop> {
    let mark = input.bytes.get(..2).unwrap_or_default();
    match frames::parts(&input.bytes) {
        Some(packets) => Ok(packets),
        None if mark == b"RD" || mark == b"WR" => Err(refused(
            &input.name,
            "a cue list: lbp16 compile makes packets of it".into(),
        )),
        None => Err(refused(
            &input.name,
            "not packets behind \"LB\" and their lengths, as lbp16 compile makes them".into(),
        )),
    }
}

/// How long each reply must be. Nothing is sent of an output with a packet that is refused.
fn lengths(name: &str, packets: &[&[u8]], mut state: State) -> Result<Vec<usize>, Stop> {
    let mut lengths = Vec::new();
    for (k, packet) in packets.iter().enumerate() {
        if let Some((lines, _)) = reason::of(packet, &state) {
            return Err(refused(
                name,
                format!("packet {k}: {}\nnothing was sent", lines.trim_end()),
            ));
        }
        lengths.push(state.run(packet).map_or(0, |ran| ran.length));
    }
    Ok(lengths)
}

fn dry(name: &str, packets: &[&[u8]], lengths: &[usize]) -> Answer {
    let (mut words, mut objects) = (String::new(), Vec::new());
    for (k, (packet, length)) in packets.iter().zip(lengths).enumerate() {
        let again = *length > 0 && may_be_sent_again(packet);
        let then = match (*length, again) {
            (0, _) => "no reply, then a probe".to_string(),
            (length, true) => format!("reply of {length} bytes, sent again if none comes"),
            (length, false) => format!("reply of {length} bytes"),
        };
        let _ = writeln!(words, "packet {k}, {}: {then}", Bytes(packet));
        let object = Object::new()
            .hex("packet", packet)
            .count("reply_bytes", *length);
        objects.push(object.flag("sent_again", again));
    }
    Answer {
        yes: true,
        words: words.into_bytes(),
        object: Object::new()
            .flag("accepted", true)
            .text("file", name)
            .array("packets", &objects),
        made: None,
    }
}

fn send(
    name: &str,
    packets: &[&[u8]],
    state: State,
    card: SocketAddr,
    options: &Options,
) -> Result<Answer, Stop> {
    // A recording that can't be written is found out before the show.
    let recording = match options.common.output.as_deref() {
        Some(file) if file == "-" => {
            return Err(Stop::Usage("a recording needs a file: -o FILE".into()))
        }
        Some(file) => Some(Output::begin(file)?),
        None => None,
    };
    signals::listen();
    let wire = Wire::new(card, Duration::from_millis(options.limit));
    let mut player = Player::new(wire, state, options.tries, recording);
    let sent = all(&mut player, packets, options.store_given);
    // What was sent was sent; but where nothing was, an older recording stays.
    let recording = player.recording.take();
    let kept = match sent.is_ok() || player.told.packets > 0 {
        true => recording.map_or(Ok(()), Output::end),
        false => Ok(()),
    };
    match sent {
        Ok(()) => kept.map(|()| done(name, packets.len(), &player.told)),
        Err((k, stop)) => Err(at_packet(name, k, packets.len(), stop)),
    }
}

/// Sends all of them, or says at which one it stopped.
fn all(player: &mut Player, packets: &[&[u8]], known: bool) -> Result<(), (usize, Stop)> {
    let shown = io::stderr().is_terminal();
    player.begin(known).map_err(|stop| (0, stop))?;
    for (k, packet) in packets.iter().enumerate() {
        if shown {
            say(format!("\rpacket {} of {}", k + 1, packets.len()).as_bytes());
        }
        let played = player.play(packet);
        if shown && (played.is_err() || k + 1 == packets.len()) {
            say(b"\r\x1B[K");
        }
        played.map_err(|stop| (k, stop))?;
    }
    player.end().map_err(|stop| (packets.len(), stop))
}

/// A stop, with the packet at which it was.
fn at_packet(name: &str, k: usize, packets: usize, stop: Stop) -> Stop {
    let at = match k < packets {
        true => format!("packet {k} of {packets}"),
        false => format!("behind all {packets} packets"),
    };
    match stop {
        Stop::Refused(Refused { message, object }) => Stop::Refused(Refused {
            message: format!("{name}: {at}: {message}\n"),
            object: object
                .text("file", name)
                .count("packet", k)
                .count("packets", packets),
        }),
        Stop::Failed(problem) => Stop::Failed(format!("{name}: {at}: {problem}")),
        stop => stop,
    }
}

fn done(name: &str, packets: usize, told: &Told) -> Answer {
    let again = match told.again {
        0 => String::new(),
        again => format!("; reads sent again: {again}"),
    };
    let packets = packets as u64;
    let words = format!(
        "{name}: {} played, {} of {}{again}\n",
        Count(packets, "packet"),
        if told.replies == 1 {
            "1 reply".to_string()
        } else {
            format!("{} replies", told.replies)
        },
        Count(told.reply_bytes, "byte"),
    );
    Answer {
        yes: true,
        words: words.into_bytes(),
        object: Object::new()
            .flag("accepted", true)
            .text("file", name)
            .number("packets", packets)
            .number("replies", told.replies)
            .number("reply_bytes", told.reply_bytes)
            .number("probes", told.probes)
            .number("sent_again", told.again),
        made: None,
    }
}
