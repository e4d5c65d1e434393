//! The card under a flood: two senders, valid and random packets. Its log, run again by the second implementation, has no wrong
//! reply, none to a refused packet, and ends in the card's store; the senders heard what the log says. `rust/flood SECONDS` runs it
//! for longer, with figures.

mod echo;
mod packets;
mod replay;
mod senders;

#[path = "../command/common.rs"]
#[allow(dead_code)]
mod common;

use common::{file, Card};
use packets::{mark, marker};
use senders::Sender;
use std::env;
use std::fs;
use std::time::{Duration, Instant};

/// How long the flood lasts, unless FLOOD_SECONDS says otherwise.
const SECONDS: f64 = 1.0;

fn seconds() -> Duration {
    let given = env::var("FLOOD_SECONDS")
        .ok()
        .and_then(|text| text.parse().ok());
    Duration::from_secs_f64(given.unwrap_or(SECONDS))
}

fn rate(senders: &[Sender], time: Duration) -> u64 {
    let packets: u64 = senders.iter().map(|sender| sender.packets).sum();
    (packets as f64 / time.as_secs_f64()) as u64
}

#[test]
fn two_senders() {
    let (log, save) = (file("flood-log"), file("flood-store"));
    let [log_name, save_name] = [&log, &save].map(|path| path.to_str().expect("a plain name"));
    let card = Card::start(&[
        "--port", "0", "--quiet", "--log", log_name, "--save", save_name,
    ]);
    let start = Instant::now();
    let senders = senders::flood(&card.address, seconds(), mark);
    let time = start.elapsed();
    card.stop("TERM");

    let found = replay::replay(&log, &senders);
    assert!(
        found.store == fs::read(&save).expect("the store"),
        "the store at the end is another"
    );
    let sent: u64 = senders.iter().map(|sender| sender.packets).sum();
    let heard: u64 = senders.iter().map(|sender| sender.replies).sum();
    let bursts: usize = senders.iter().map(|sender| sender.bursts.len()).sum();
    println!(
        "sent {sent}, taken {}, refused {}, replies {}, heard {heard}",
        found.packets, found.refused, found.replies
    );
    println!(
        "bursts {bursts}, of which the replies were compared {}",
        found.bursts
    );
    println!("card: {} packets a second", rate(&senders, time));
    assert!(found.refused > 0 && found.replies > 0 && found.bursts * 10 > bursts as u64 * 9);
    let _ = fs::remove_file(log);

    let echo = echo::Echo::start();
    let start = Instant::now();
    let senders = senders::flood(&echo.address, seconds() / 4, marker);
    println!(
        "echo server: {} packets a second",
        rate(&senders, start.elapsed())
    );
}
