//! The lamp panel, by order 12 of the change requests.

use model::panel::{reading, report, start, Bounds, Report};
use model::Refusal;

fn number(kind: u32, width: u32, value: u64, minimum: f32, maximum: f32) -> Result<f32, u32> {
    let reading = reading(kind, width, value, Bounds { minimum, maximum });
    reading.map_err(|refusal| {
        assert_eq!(refusal.place, 0);
        refusal.number
    })
}

#[test]
fn starting() {
    assert_eq!(start(0b0101, 0b0111), Ok(0b0101));
    assert_eq!(start(0, 0), Ok(0));
    assert_eq!(start(0b1000, 0b0111), Err(Refusal::whole(43)));
}

#[test]
fn reports() {
    let expected = |asked, failed, lowest| Report {
        asked,
        failed,
        lowest,
    };
    // Faults of channels that were not asked don't count.
    assert_eq!(report(0b1110, 0b0101), expected(3, 1, 2));
    assert_eq!(report(0b1111_0000, 0b1010_1010), expected(4, 2, 5));
    assert_eq!(report(0b0001, 0b1110), expected(1, 0, 8));
    assert_eq!(report(0, 0xFF), expected(0, 0, 8));
    assert_eq!(report(0xFF, 0xFF), expected(8, 8, 0));
}

#[test]
fn analog_inputs() {
    // The 7I76E's analog inputs: 8 bits, full scale 36.3 V.
    assert_eq!(number(2, 8, 255, 0.0, 36.3), Ok(36.3));
    assert_eq!(number(2, 8, 0, 0.0, 36.3), Ok(0.0));
    assert_eq!(number(2, 8, 85, 0.0, 36.3), Ok(85.0 * 36.3f32 / 255.0));
    assert_eq!(number(2, 24, 0xFF_FFFF, -1.0, 1.0), Ok(1.0));
    assert_eq!(number(2, 1, 1, -1.0, -0.5), Ok(-0.5));
}

#[test]
fn zero_has_the_sign_of_the_maximum() {
    let zero = number(2, 8, 0, -2.0, -1.0).unwrap();
    assert_eq!(zero.to_bits(), (-0.0f32).to_bits());
    let zero = number(2, 8, 0, -2.0, 1.0).unwrap();
    assert_eq!(zero.to_bits(), 0);
}

#[test]
fn refusals_in_their_order() {
    let (nan, infinite) = (f32::NAN, f32::INFINITY);
    for (kind, width, value) in [(4, 8, 0), (1, 8, 0), (2, 0, 0), (2, 25, 0), (2, 8, 256)] {
        assert_eq!(number(kind, width, value, nan, nan), Err(44));
    }
    for (minimum, maximum) in [(nan, 1.0), (0.0, nan), (-infinite, 1.0), (0.0, infinite)] {
        assert_eq!(number(2, 8, 255, minimum, maximum), Err(45));
    }
    assert_eq!(number(2, 8, 0, 1.0, 1.0), Err(45));
    assert_eq!(number(2, 8, 0, -0.0, 0.0), Err(45));
    assert_eq!(number(2, 8, 0, 2.0, 1.0), Err(45));
    assert_eq!(number(2, 8, 255, 0.0, f32::MAX), Err(46));
    assert_eq!(number(2, 8, 1, 0.0, f32::MAX), Ok(f32::MAX / 255.0));
}
