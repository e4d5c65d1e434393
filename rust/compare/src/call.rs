//! Compares a call that reads some bytes and writes others.

use crate::lent::Lent;
use crate::rng::Rng;
use crate::{same_answer, same_count, same_input};

/// The refusal number, the bytes written or the place, and how many of something they hold, 0 if
/// refused.
pub type Answered = (u32, u64, u64);

/// The independent implementation's answer in that form, given bytes and count of an accepted call.
pub fn answered<T>(
    result: Result<T, model::Refusal>,
    written: impl Fn(T) -> (usize, u64),
) -> Answered {
    match result {
        Ok(accepted) => {
            let (bytes, count) = written(accepted);
            (0, bytes as u64, count)
        }
        Err(refusal) => (refusal.number, refusal.place, 0),
    }
}

/// Makes the call on both sides with a room of `room` bytes and compares. Gives the answer and the
/// room.
pub fn compare(
    rng: &mut Rng,
    input: &[u8],
    room: usize,
    counted: &str,
    library: impl Fn(&[u8], &mut [u8]) -> Answered,
    model: impl Fn(&[u8], &mut [u8]) -> Answered,
) -> Result<(Answered, Lent<u8>), String> {
    let mut out = Lent::new("output", room, 0);
    out.change(|out| rng.fill(out));
    let (library_out, model_out) = out.lend(room);
    let expected = model(input, model_out);
    let lent = input.to_vec();
    let (number, value, count) = library(&lent, library_out);
    same_answer((number, value), (expected.0, expected.1))
        .and_then(|()| same_count(counted, count, expected.2))
        .and_then(|()| same_input(&lent, input))
        .and_then(|()| out.compare(expected.0 != 0))
        .map_err(|what| format!("{what}\nroom of {room} bytes"))?;
    Ok((expected, out))
}

/// A room's length where so many bytes are needed: exact, larger or too small.
pub fn room(rng: &mut Rng, needed: usize) -> usize {
    match rng.below(8) {
        0..=2 => needed,
        3 => needed + 1,
        4 => needed + rng.between(1, 2_000),
        5 => needed.saturating_sub(1),
        6 => rng.below(needed + 1),
        _ => rng.pick(&[0, needed, needed + 64]),
    }
}
