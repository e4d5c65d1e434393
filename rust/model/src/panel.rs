//! The lamp panel: starting exchanges, reporting faults, and readings in a panel's units.

use crate::Refusal;

/// Answers the mask of the channels asked for, if all of them are started.
pub fn start(asked: u8, started: u8) -> Result<u8, Refusal> {
    match channels(asked).all(|channel| started >> channel & 1 == 1) {
        true => Ok(asked),
        false => Err(Refusal::whole(43)),
    }
}

#[derive(Clone, Copy, Debug, PartialEq, Eq)]
pub struct Report {
    pub asked: u8,
    pub failed: u8,
    /// The lowest channel that failed, 8 if none did.
    pub lowest: u8,
}

/// Reports how the exchanges of the channels asked for went.
pub fn report(asked: u8, faults: u8) -> Report {
    let failed = || channels(asked).filter(|channel| faults >> channel & 1 == 1);
    Report {
        asked: channels(asked).count() as u8,
        failed: failed().count() as u8,
        lowest: failed().next().unwrap_or(8),
    }
}

/// The channels of a mask, upwards.
fn channels(mask: u8) -> impl Iterator<Item = u8> {
    (0..8).filter(move |channel| mask >> channel & 1 == 1)
}

/// A descriptor's bounds.
#[derive(Clone, Copy, Debug)]
pub struct Bounds {
    pub minimum: f32,
    pub maximum: f32,
}

/// What a field's value reads, for a field of type UNSIGNED and 1 to 24 bits.
pub fn reading(kind: u32, width: u32, value: u64, bounds: Bounds) -> Result<f32, Refusal> {
    const UNSIGNED: u32 = 2;
    if kind != UNSIGNED || !(1..=24).contains(&width) || value >= 1 << width {
        return Err(Refusal::whole(44));
    }
    let Bounds { minimum, maximum } = bounds;
    if !minimum.is_finite() || !maximum.is_finite() || maximum <= minimum {
        return Err(Refusal::whole(45));
    }
    let product = value as f32 * maximum;
    if !product.is_finite() {
        return Err(Refusal::whole(46));
    }
    let full = ((1u32 << width) - 1) as f32;
    Ok(product / full)
}
