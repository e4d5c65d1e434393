//! Packets played to the card on loopback, directly and through a relay that drops, doubles and delays.

use crate::common::{answers, file, filled, lb, lbp16, says, Card, Ended};
use crate::relay::{Fate, Relay, Way};
use std::fs;

/// How long a reply may take, in milliseconds, and a delay that is longer.
const LIMIT: u64 = 150;
const LATE: u64 = 220;

const PROBE: [u8; 4] = [0x01, 0x59, 0x0A, 0x00];

/// Packets 0 and 2 have no reply, 1 and 3 are reads by their address, 4 reads and writes.
fn show() -> Vec<Vec<u8>> {
    vec![
        vec![0x81, 0xC2, 0x00, 0x10, 1, 2, 3, 4],
        vec![0x81, 0x42, 0x00, 0x10],
        vec![0x81, 0xC2, 0x00, 0x10, 5, 6, 7, 8],
        vec![0x81, 0x42, 0x00, 0x10],
        vec![0x81, 0xC2, 0x00, 0x10, 9, 9, 9, 9, 0x81, 0x42, 0x00, 0x10],
    ]
}

/// What came of a show: how play ended, its recording, and the card's own log.
struct Played {
    ended: Ended,
    recording: Vec<u8>,
    log: Vec<u8>,
    store: Vec<u8>,
}

/// Plays a show to a fresh card through a relay.
fn play(
    name: &str,
    show: &[Vec<u8>],
    fate: impl FnMut(Way, usize, &[u8]) -> Fate + Send + 'static,
) -> Played {
    play_within(LIMIT, name, show, fate)
}

fn play_within(
    limit: u64,
    name: &str,
    show: &[Vec<u8>],
    fate: impl FnMut(Way, usize, &[u8]) -> Fate + Send + 'static,
) -> Played {
    let name = |what: &str| format!("play-{name}-{what}");
    let output: Vec<u8> = show.iter().flat_map(|packet| lb(packet)).collect();
    let output = filled(&name("output"), &output);
    let [log, save, recording] = ["log", "save", "recording"].map(|what| {
        let path = file(&name(what));
        path.to_str().expect("a plain name").to_string()
    });
    let store = filled(&name("store"), &[0; 65_728]);
    let card = Card::start(&["--port", "0", "--log", &log, "--save", &save]);
    let relay = Relay::start(&card.address, fate);
    let to = [
        "play",
        "--to",
        &relay.address,
        "--timeout",
        &limit.to_string(),
    ];
    let rest = ["--store", &store, "-o", &recording, &output];
    let ended = lbp16(&[&to[..], &rest].concat(), b"");
    drop(relay);
    card.stop("TERM");
    Played {
        ended,
        recording: fs::read(recording).unwrap_or_default(),
        log: fs::read(log).unwrap(),
        store: fs::read(save).unwrap(),
    }
}

impl Played {
    /// All was played, and the recording is what the card itself has logged.
    fn good(&self) {
        assert_eq!(self.ended.err, "");
        assert_eq!(self.ended.exit, 0);
        assert!(
            self.recording == self.log,
            "the recording is not the card's log"
        );
        let packets = self.parts() / 2;
        answers(
            &["judge"],
            &self.recording,
            0,
            &format!("yes, {packets} packets\n"),
        );
        assert_eq!(self.store[0x1000..0x1004], [9, 9, 9, 9]);
    }

    fn parts(&self) -> usize {
        let (mut parts, mut rest) = (0, &self.recording[..]);
        while let [b'L', b'B', low, high, behind @ ..] = rest {
            rest = &behind[usize::from(u16::from_le_bytes([*low, *high]))..];
            parts += 1;
        }
        parts
    }

    fn stopped(&self, said: &str) {
        assert_eq!(self.ended.exit, 1);
        assert!(
            self.ended.err.ends_with(&format!(": {said}\n")),
            "{}",
            self.ended.err
        );
        assert!(self.ended.out.is_empty() && !self.recording.is_empty());
    }
}

/// The n-th packet to the card with these bytes, from 0, has this fate.
fn nth(
    way: Way,
    packet: Vec<u8>,
    n: usize,
    fate: Fate,
) -> impl FnMut(Way, usize, &[u8]) -> Fate + Send + 'static {
    let mut met = 0;
    move |of, _, bytes| match of == way && bytes == packet {
        true => {
            met += 1;
            if met == n + 1 {
                fate
            } else {
                Fate::Pass
            }
        }
        false => Fate::Pass,
    }
}

#[test]
fn all_is_well() {
    let played = play("well", &show(), |_, _, _| Fate::Pass);
    played.good();
    let out = String::from_utf8_lossy(&played.ended.out).into_owned();
    assert!(
        out.ends_with("-output: 5 packets played, 3 replies of 12 bytes\n"),
        "{out}"
    );
    // Five packets, a probe before, one behind each packet without a reply, and one at the end.
    assert_eq!(played.parts(), 2 * (5 + 4));
}

#[test]
fn doubled_replies_are_no_replies_to_what_follows() {
    play("doubled", &show(), |way, _, _| match way {
        Way::FromCard => Fate::Double,
        Way::ToCard => Fate::Pass,
    })
    .good();
    // One that comes while the next reply of the same length is waited for.
    let late = nth(Way::FromCard, vec![1, 2, 3, 4], 0, Fate::Again(5));
    play("doubled-late", &show(), late).good();
}

#[test]
fn reads_are_sent_again() {
    let read = show()[1].clone();
    play(
        "lost",
        &show(),
        nth(Way::ToCard, read.clone(), 0, Fate::Drop),
    )
    .good();
    play(
        "late",
        &show(),
        nth(Way::ToCard, read, 0, Fate::Delay(LATE)),
    )
    .good();
    play(
        "unheard",
        &show(),
        nth(Way::FromCard, vec![1, 2, 3, 4], 0, Fate::Drop),
    )
    .good();
    let played = play(
        "heard-late",
        &show(),
        nth(Way::FromCard, vec![5, 6, 7, 8], 0, Fate::Delay(LATE)),
    );
    played.good();
    assert!(played.ended.out.ends_with(b"; reads sent again: 1\n"));
}

#[test]
fn a_probe_that_is_not_heard() {
    // Its reply is lost: the next probe's count says that all was taken.
    let mut probes = 0;
    let lost = move |way: Way, _: usize, bytes: &[u8]| {
        probes += usize::from(way == Way::FromCard && bytes.len() == 2);
        if way == Way::FromCard && bytes.len() == 2 && probes == 2 {
            Fate::Drop
        } else {
            Fate::Pass
        }
    };
    play("probe-unheard", &show(), lost).good();
    // It is late, but not too late.
    play(
        "probe-late",
        &show(),
        nth(Way::ToCard, PROBE.to_vec(), 1, Fate::Delay(LATE)),
    )
    .good();
    // It is lost on its way: whether the write before it was taken can't be told.
    let played = play(
        "probe-lost",
        &show(),
        nth(Way::ToCard, PROBE.to_vec(), 1, Fate::Drop),
    );
    played.stopped("packet 0 of 5: a probe was lost too: whether the card took it can't be told");
}

#[test]
fn a_write_is_sent_once() {
    let write = show()[2].clone();
    let said = "packet 2 of 5: the card did not take it: it refused it, or it was lost";
    play(
        "write-lost",
        &show(),
        nth(Way::ToCard, write.clone(), 0, Fate::Drop),
    )
    .stopped(said);
    let twice = play(
        "write-twice",
        &show(),
        nth(Way::ToCard, write, 0, Fate::Double),
    );
    twice.stopped(
        "packet 2 of 5: the card's packet count is 6, and 5 was due: a packet came twice, \
         somebody else sends to the card, or it was started anew",
    );
    let mixed = show()[4].clone();
    let lost = play(
        "mixed-lost",
        &show(),
        nth(Way::ToCard, mixed, 0, Fate::Drop),
    );
    lost.stopped(
        "packet 4 of 5: sent 1 time and not answered: the card refused it, or it was lost",
    );
    let unheard = play(
        "mixed-unheard",
        &show(),
        nth(Way::FromCard, vec![9, 9, 9, 9], 0, Fate::Drop),
    );
    unheard.stopped(
        "packet 4 of 5: sent 1 time and not answered, but the card took it: its reply was lost",
    );
}

#[test]
fn what_the_card_refuses() {
    let card = Card::start(&["--port", "0", "--protect", "0:0x1000-0x1003"]);
    let output = filled("play-protected", &lb(&show()[0]));
    let said = format!(
        "{output}: packet 0 of 1: the card did not take it: it refused it, or it was lost\n"
    );
    says(&["play", "--to", &card.address, &output], b"", 1, &said);
}

#[test]
fn nobody_is_there() {
    let output = filled("play-nobody", &lb(&show()[0]));
    let recording = filled("play-nobody-recording", b"old");
    let ended = lbp16(&["play", "--to", "127.0.0.1:9", &output], b"");
    assert_eq!(ended.exit, 2);
    assert!(
        ended
            .err
            .ends_with("127.0.0.1:9: Connection refused: no card is there\n"),
        "{}",
        ended.err
    );
    let silent = std::net::UdpSocket::bind("127.0.0.1:0").unwrap();
    let to = silent.local_addr().unwrap().to_string();
    let words = [
        "play",
        "--timeout",
        "10",
        "--to",
        &to,
        &output,
        "-o",
        &recording,
    ];
    let said = format!(
        "lbp16 play: {output}: packet 0 of 1: no answer from {to} in 10 ms, asked 3 times\n"
    );
    says(&words, b"", 2, &said);
    // Nothing was played: the older recording stays.
    assert_eq!(fs::read(recording).unwrap(), b"old");
}

#[test]
fn what_is_not_sent() {
    let list = b"RD\0\0\0\0";
    let said = "(standard input): a cue list: lbp16 compile makes packets of it\n";
    says(&["play", "--to", "127.0.0.1:9"], list, 1, said);
    let refused = [lb(&show()[0]), lb(&[0x80, 0x42, 0, 0])].concat();
    let ended = lbp16(&["play", "--to", "127.0.0.1:9"], &refused);
    assert_eq!(ended.exit, 1);
    assert!(ended
        .err
        .starts_with("(standard input): packet 1: refused 7 at 0: "));
    assert!(ended.err.ends_with("\nnothing was sent\n"));
    let said = "lbp16 play: say with --to HOST[:PORT] where the card is; see lbp16 play --help\n";
    says(&["play"], b"", 2, said);
    let store = filled("play-other-store", &[1; 65_728]);
    let card = Card::start(&["--port", "0"]);
    let said =
        "(standard input): packet 0 of 1: the card's packet count is 0 and the store's 257: \
                this is not the card's store\n";
    says(
        &["play", "--to", &card.address, "--store", &store],
        &lb(&show()[0]),
        1,
        said,
    );
}

#[test]
fn a_dry_run() {
    let output: Vec<u8> = show()[..2]
        .iter()
        .chain(&show()[4..])
        .flat_map(|packet| lb(packet))
        .collect();
    let lines = "packet 0, 8 bytes, 81 C2 00 10 01 02 03 04: no reply, then a probe\n\
                 packet 1, 4 bytes, 81 42 00 10: reply of 4 bytes, sent again if none comes\n\
                 packet 2, 12 bytes, 81 C2 00 10 09 09 09 09 81 42 00 10: reply of 4 bytes\n";
    answers(&["play", "--dry-run"], &output, 0, lines);
    let json = lbp16(&["play", "--dry-run", "--json"], &output);
    assert!(json.out.starts_with(b"{\"accepted\": true, ") && json.exit == 0);
    // The packet count, a pointer and a read from a pointer are not read the same twice.
    for packet in [
        &PROBE[..],
        &[0x01, 0x61, 0x06, 0],
        &[0x81, 0x59, 0x08, 0, 0x81, 0x19],
    ] {
        let ended = lbp16(&["play", "--dry-run"], &lb(packet));
        assert!(
            !String::from_utf8_lossy(&ended.out).contains("sent again"),
            "{packet:?}"
        );
    }
}

/// Numbers that look random.
fn next(state: &mut u64) -> u64 {
    *state ^= *state << 13;
    *state ^= *state >> 7;
    *state ^= *state << 17;
    *state
}

/// Whatever the network does: where play says that all was played, the card says so too.
#[test]
fn a_bad_network() {
    let mut good = 0;
    for seed in 1..=6_u64 {
        let mut random = seed * 0x9E37_79B9_7F4A_7C15;
        let fate = move |_: Way, _: usize, _: &[u8]| match next(&mut random) % 40 {
            0 => Fate::Drop,
            1 => Fate::Double,
            2 => Fate::Delay(60),
            3 => Fate::Delay(10),
            4 => Fate::Again(50),
            _ => Fate::Pass,
        };
        let played = play_within(40, &format!("bad-{seed}"), &show(), fate);
        match played.ended.exit {
            0 => {
                // What comes twice behind the end is the card's alone.
                assert!(played.log.starts_with(&played.recording), "seed {seed}");
                assert_eq!(lbp16(&["judge"], &played.recording).exit, 0);
                good += 1;
            }
            _ => assert!(!played.ended.err.is_empty()),
        }
    }
    assert!(good > 0);
}
