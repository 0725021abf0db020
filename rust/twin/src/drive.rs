//! The globe drive: K13 of document 02.

use crate::angle::CIRCLE;
use crate::answers::orientation;
use crate::builtin::builtin_orientation;
use crate::limits::{FEWEST_POSITIONS, MOST_POSITIONS};
use crate::refusal::Refusal;

/// Where an orientation comes from.
#[derive(Clone, Copy)]
pub enum Source<'a> {
    Pool(&'a [u64]),
    Builtin,
}

/// Where a motor should stand, and how it gets there.
#[derive(Clone, Copy, Debug, PartialEq, Eq)]
pub struct Motion {
    pub target: u32,
    /// Positions forward, or back where it is negative.
    pub steps: i32,
}

/// The position that a body asks for at an epoch.
pub fn position(source: Source, body: u32, epoch: f64, ring: u32) -> Result<u32, Refusal> {
    check_ring(ring)?;
    let meridian = match source {
        Source::Pool(pool) => orientation(pool, body, epoch),
        Source::Builtin => builtin_orientation(body, epoch),
    }?
    .w;
    Ok(position_of(meridian, ring))
}

/// That position, and the move to it from a present one.
pub fn motion(
    source: Source,
    body: u32,
    epoch: f64,
    ring: u32,
    present: u32,
) -> Result<Motion, Refusal> {
    check_ring(ring)?;
    if present >= ring {
        return Err(Refusal::BadPosition);
    }
    let target = position(source, body, epoch, ring)?;
    Ok(Motion {
        target,
        steps: steps_between(ring, present, target),
    })
}

fn check_ring(ring: u32) -> Result<(), Refusal> {
    if (FEWEST_POSITIONS..=MOST_POSITIONS).contains(&ring) {
        Ok(())
    } else {
        Err(Refusal::BadRing)
    }
}

/// The largest whole n below the ring whose product is not above an angle of 0 up to 360. The
/// quotient is off by less than one, so the search goes down from one above it; the product decides.
pub fn position_of(meridian: f64, ring: u32) -> u32 {
    let spacing = CIRCLE / f64::from(ring);
    let guess = (meridian / spacing) as u32 + 1;
    let mut n = guess.min(ring - 1);
    while f64::from(n) * spacing > meridian {
        n -= 1;
    }
    n
}

/// The way round with the fewest positions, forward if both ways have as many.
pub fn steps_between(ring: u32, present: u32, target: u32) -> i32 {
    let forward = (target + ring - present) % ring;
    if 2 * forward <= ring {
        forward as i32
    } else {
        forward as i32 - ring as i32
    }
}
