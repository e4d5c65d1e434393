//! A capture of a long show, with frames of others in between.

use super::Case;
use compare::frames::{passed, Form, Frame, Host, ETHERNET};
use compare::rng::Rng;
use model::capture::capture;
use std::hint::black_box;

const FRAMES: usize = 10_000;

/// The bytes of requests and of their replies.
const SIZES: [[usize; 2]; 8] = [
    [4, 4],
    [4, 4],
    [4, 64],
    [8, 0],
    [12, 96],
    [40, 96],
    [100, 200],
    [12, 1_472],
];

/// Requests with their replies, and a frame that is passed over behind each pair.
fn long_show() -> Vec<u8> {
    let mut rng = Rng::new(1);
    let form = Form {
        big: false,
        nanoseconds: false,
        link: ETHERNET,
    };
    let (card, host) = (Host::card(&mut rng), Host::asking(&mut rng));
    let mut frames = Vec::new();
    while frames.len() < FRAMES {
        let [packet, reply] = rng.pick(&SIZES).map(|bytes| vec![rng.byte(); bytes]);
        let request = Frame::new(host, card, &packet);
        frames.push(request.bytes(&mut rng, &form));
        let reply = Frame::new(card, host, &reply);
        frames.push(reply.bytes(&mut rng, &form));
        frames.push(passed(&mut rng, &form, card).1);
    }
    frames.truncate(FRAMES);
    form.capture(&mut rng, &frames)
}

pub fn cases() -> Vec<Case> {
    let given = long_show();
    let (mut out, mut frames) = (vec![0; given.len()], vec![0; FRAMES]);
    let captured = capture(&given, &mut out, &mut frames).expect("a good capture");
    let (other, mut other_out, mut other_frames) = (given.clone(), out.clone(), frames.clone());
    vec![Case {
        name: "capture".to_string(),
        what: format!(
            "capture of {FRAMES} frames, {} bytes: {} packets",
            given.len(),
            captured.packets
        ),
        bytes: captured.bytes,
        library: Box::new(move || {
            let answer = head::capture(black_box(&given), &mut out, &mut frames);
            assert_eq!(answer.map(|answer| answer.bytes), Ok(captured.bytes));
        }),
        model: Box::new(move || {
            let answer = capture(black_box(&other), &mut other_out, &mut other_frames);
            assert_eq!(answer, Ok(captured));
        }),
    }]
}
