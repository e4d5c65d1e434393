//! Compares the lamp panel: all pairs of masks, and random readings to the bit.

use crate::rng::Rng;
use crate::tally::Tally;
use crate::{same_answer, Outcome};
use head::panel::exports;
use model::panel::{reading, report, start, Bounds, Report};

const REPORT_SITUATIONS: [&str; 4] = [NONE_FAILED, CUT, ALL_FAILED, SEVENTH];
const NONE_FAILED: &str = "none failed";
const CUT: &str = "fault of a channel that was not asked";
const ALL_FAILED: &str = "all eight failed";
const SEVENTH: &str = "channel 7 the lowest that failed";

const READING_SITUATIONS: [&str; 12] = [
    FULL,
    ZERO,
    NEGATIVE_ZERO,
    NEGATIVE,
    SUBNORMAL,
    SUBNORMAL_BOUND,
    HUGE,
    NARROWEST,
    WIDEST,
    SAME_BOUNDS,
    SIGNED_ZEROS,
    NAN_BOUND,
];
const FULL: &str = "full value that reads the maximum";
const ZERO: &str = "value of 0";
const NEGATIVE_ZERO: &str = "reading of negative zero";
const NEGATIVE: &str = "negative maximum";
const SUBNORMAL: &str = "reading that is subnormal";
const SUBNORMAL_BOUND: &str = "maximum that is subnormal";
const HUGE: &str = "product above half the largest float";
const NARROWEST: &str = "field of 1 bit";
const WIDEST: &str = "field of 24 bits";
const SAME_BOUNDS: &str = "bounds that are the same number, refused with 45";
const SIGNED_ZEROS: &str = "bounds of negative and positive zero, refused with 45";
const NAN_BOUND: &str = "bound that is no number, refused with 45";

/// Compares all pairs of masks and `count` readings.
pub fn compare(seed: u64, count: u64) -> Outcome {
    let mut starts = Tally::new("starts", &[0, 43], &[]);
    let mut reports = Tally::new("reports", &[0], &REPORT_SITUATIONS);
    for asked in 0..=255 {
        for other in 0..=255 {
            let pair = |what: String| format!("masks {asked:08b} and {other:08b}: {what}");
            compare_start(&mut starts, asked, other).map_err(pair)?;
            compare_report(&mut reports, asked, other).map_err(pair)?;
        }
    }
    let mut rng = Rng::new(seed);
    let mut readings = Tally::new("readings", &[0, 44, 45, 46], &READING_SITUATIONS);
    for case in 0..count {
        let call = Call::new(&mut rng);
        compare_reading(&mut readings, &call)
            .map_err(|what| format!("reading {case}: {what}\n{call:X?}"))?;
    }
    Ok(vec![starts, reports, readings])
}

fn compare_start(tally: &mut Tally, asked: u8, started: u8) -> Result<(), String> {
    let unwritten = !asked;
    let mut mask = unwritten;
    let number = exports::start(asked, started, &mut mask);
    let (expected, expected_mask) = match start(asked, started) {
        Ok(mask) => (0, mask),
        Err(refusal) => (refusal.number, unwritten),
    };
    same_answer((number, mask.into()), (expected, expected_mask.into()))?;
    tally.ending(expected);
    Ok(())
}

fn compare_report(tally: &mut Tally, asked: u8, faults: u8) -> Result<(), String> {
    let expected = report(asked, faults);
    let Report {
        asked: count,
        failed,
        lowest,
    } = expected;
    let answer = exports::report(asked, faults);
    if answer != [count, failed, lowest] {
        return Err(format!("the library: {answer:?}; expected: {expected:?}"));
    }
    tally.ending(0);
    tally.situation(NONE_FAILED, failed == 0 && asked != 0);
    tally.situation(CUT, faults & !asked != 0);
    tally.situation(ALL_FAILED, failed == 8);
    tally.situation(SEVENTH, lowest == 7);
    Ok(())
}

#[derive(Debug)]
pub(crate) struct Call {
    pub kind: u32,
    pub width: u32,
    pub value: u64,
    pub minimum: u32,
    pub maximum: u32,
}

impl Call {
    /// About a third of them with a field or bounds that are refused.
    pub fn new(rng: &mut Rng) -> Call {
        let mut width = rng.pick(&[1, 8, 12, 16, 23, 24, 24]);
        if rng.coin() {
            width = rng.between(1, 24) as u32;
        }
        let full = (1 << width) - 1;
        let value = match rng.below(8) {
            0 => full,
            1 => 0,
            2 => rng.pick(&[1, full - full.min(1)]),
            _ => rng.number() & full,
        };
        let (mut minimum, mut maximum) = (bound(rng), bound(rng));
        // Mostly in their order.
        if rng.below(4) > 0 && f32::from_bits(maximum) < f32::from_bits(minimum) {
            std::mem::swap(&mut minimum, &mut maximum);
        }
        if rng.one_in(30) {
            maximum = minimum;
        }
        let mut call = Call {
            kind: 2,
            width,
            value,
            minimum,
            maximum,
        };
        match rng.below(24) {
            0 => call.kind = rng.pick(&[0, 1, 3, 4, 5, 6, 7, 8, 0x102, u32::MAX]),
            1 => call.width = rng.pick(&[0, 25, 32, 33, 64, 65, 256 + width, u32::MAX]),
            2 => call.value = rng.pick(&[full + 1, 1 << 32, 1 << 63, u64::MAX]),
            _ => {}
        }
        call
    }
}

/// The bits of a bound: of every magnitude, and now and then no number.
fn bound(rng: &mut Rng) -> u32 {
    let sign = (rng.one_in(3) as u32) << 31;
    let fraction = rng.word() & 0x007F_FFFF;
    let exponent = |exponent: usize| (exponent as u32) << 23;
    sign | match rng.below(12) {
        0 => 0,
        1 => fraction,
        2 => rng.pick(&[1, 0x007F_FFFF, 0x0080_0000, 0x7F7F_FFFF]),
        3 => exponent(rng.between(1, 30)) | fraction,
        4 => exponent(rng.between(228, 254)) | fraction,
        5 if rng.one_in(4) => rng.pick(&[0x7F80_0000, 0x7FC0_0000, 0x7F80_0001, 0x7FFF_FFFF]),
        6 => exponent(rng.between(1, 254)) | fraction,
        7 => (rng.below(2_000) as f32).to_bits(),
        _ => exponent(rng.between(110, 150)) | fraction,
    }
}

fn compare_reading(tally: &mut Tally, call: &Call) -> Result<(), String> {
    let bounds = Bounds {
        minimum: f32::from_bits(call.minimum),
        maximum: f32::from_bits(call.maximum),
    };
    let result = reading(call.kind, call.width, call.value, bounds);
    let unwritten = result.map_or(0xDEAD_BEEF, |reading| !reading.to_bits());
    let mut bits = unwritten;
    let number = exports::reading(
        call.kind,
        call.width,
        call.value,
        call.minimum,
        call.maximum,
        &mut bits,
    );
    let (expected, expected_bits) = match result {
        Ok(reading) => (0, reading.to_bits()),
        Err(refusal) => (refusal.number, unwritten),
    };
    same_answer((number, bits.into()), (expected, expected_bits.into()))?;
    count(
        tally,
        call,
        bounds,
        result.map_err(|refusal| refusal.number),
    );
    Ok(())
}

fn count(tally: &mut Tally, call: &Call, bounds: Bounds, result: Result<f32, u32>) {
    tally.ending(result.err().unwrap_or(0));
    let Bounds { minimum, maximum } = bounds;
    if let Ok(reading) = result {
        let full = call.value == (1 << call.width) - 1;
        tally.situation(FULL, full && reading == maximum);
        tally.situation(ZERO, call.value == 0);
        tally.situation(NEGATIVE_ZERO, reading == 0.0 && reading.is_sign_negative());
        tally.situation(NEGATIVE, maximum < 0.0);
        tally.situation(SUBNORMAL, reading.is_subnormal());
        tally.situation(SUBNORMAL_BOUND, maximum.is_subnormal());
        let product = call.value as f32 * maximum;
        tally.situation(HUGE, product.abs() > f32::MAX / 2.0);
        tally.situation(NARROWEST, call.width == 1);
        tally.situation(WIDEST, call.width == 24);
    } else if result == Err(45) {
        tally.situation(
            SAME_BOUNDS,
            call.minimum == call.maximum && maximum.is_finite(),
        );
        let zeros = call.minimum == 0x8000_0000 && call.maximum == 0;
        tally.situation(SIGNED_ZEROS, zeros);
        tally.situation(NAN_BOUND, minimum.is_nan() || maximum.is_nan());
    }
}
