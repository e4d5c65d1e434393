//! Captures of a few frames.

use super::{File, Lent, Room};
use crate::captures::{wild, Show};
use crate::numbers;
use crate::recordings::Recording;
use crate::rng::Rng;
use model::capture::{capture, Captured};

/// The longest capture that is taken.
const SHORT: usize = 2_000;

pub fn some(file: &mut File, count: usize) {
    for _ in 0..count {
        let given = given(&mut file.rng);
        if given.len() > SHORT {
            continue;
        }
        let (bytes, packets) = needed(&given);
        let mut room = |needed: usize| {
            let rooms = [needed, needed, needed + 9, needed.saturating_sub(1)];
            file.rng.pick(&rooms)
        };
        let (room, frame_room) = (room(bytes), room(packets));
        let mut before = vec![0; room];
        file.rng.fill(&mut before);
        let frames: Vec<u32> = (0..frame_room).map(|_| file.rng.word()).collect();
        let (mut after, mut frames_after) = (before.clone(), frames.clone());
        let result = capture(&given, &mut after, &mut frames_after);
        let (number, value) = numbers(&result, |captured| captured.bytes as u64);
        let packets = result.map_or(0, |captured| captured.packets as u64);
        let lent = vec![
            Lent::kept(Room::Input, &given),
            Lent::changed(Room::Output, &before, &after),
            Lent::words(Room::Answer, &frames, &frames_after),
        ];
        file.call("head_capture", number, &[], &[value, packets], lent);
    }
}

/// A capture of a short show, whole or not.
fn given(rng: &mut Rng) -> Vec<u8> {
    let recording = recording(rng);
    let mut show = Show::new(rng, recording);
    match rng.below(8) {
        0 | 1 => drop(show.fault(rng)),
        2 | 3 => return wild(rng, &show),
        _ => {}
    }
    let mut capture = show.capture(rng);
    match rng.below(10) {
        0 => capture.truncate(rng.below(capture.len() + 1)),
        1 => capture[rng.pick(&[0, 1, 2, 3, 20, 21, 22, 23])] ^= 1 << rng.below(8),
        _ => {}
    }
    capture
}

/// Packets and replies that nothing looks at.
fn recording(rng: &mut Rng) -> Recording {
    let parts = rng.below(7);
    let part = |_| {
        let length = rng.pick(&[0, 1, 4, 12, 40]);
        (0..length).map(|_| rng.byte()).collect()
    };
    (0..parts).map(part).collect()
}

fn needed(given: &[u8]) -> (usize, usize) {
    let (mut out, mut frames) = (vec![0; given.len()], vec![0; given.len() / 16]);
    match capture(given, &mut out, &mut frames) {
        Ok(Captured { bytes, packets }) => (bytes, packets),
        Err(_) => (0, 0),
    }
}
