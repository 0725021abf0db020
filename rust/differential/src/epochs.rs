//! Epochs of every kind.

use twin::rotation::EPOCH_LIMIT;

use crate::random::Random;

/// Epochs where something begins or ends.
const MARKS: [f64; 16] = [
    0.0,
    -0.0,
    1.0,
    -1.0,
    43_200.0,
    86_400.0,
    -86_400.0,
    3_155_760_000.0,
    -3_155_760_000.0,
    EPOCH_LIMIT,
    -EPOCH_LIMIT,
    f64::MIN_POSITIVE,
    5e-324,
    f64::MAX,
    f64::INFINITY,
    f64::NEG_INFINITY,
];

/// An epoch of some kind, admitted or not.
pub fn epoch(random: &mut Random) -> f64 {
    match random.below(16) {
        0 => random.one(&MARKS),
        1 => neighbour(random),
        2 => f64::from_bits(random.bits()),
        3 => f64::from_bits(random.bits() | 0x7FF0_0000_0000_0000),
        4 => (random.below(3_652_500) as f64 - 1_826_250.0) * 86_400.0,
        5 => (random.fraction() - 0.5) * 2.1 * EPOCH_LIMIT,
        6 => random.fraction() * 1e-300,
        7..=9 => (random.fraction() - 0.5) * 1e10,
        _ => admitted(random),
    }
}

/// An epoch within the limits.
pub fn admitted(random: &mut Random) -> f64 {
    (2.0 * random.fraction() - 1.0) * EPOCH_LIMIT
}

/// A double next to a mark, or next but one.
fn neighbour(random: &mut Random) -> f64 {
    let steps = random.between(1, 2) as u64;
    let bits = random.one(&MARKS).to_bits();
    f64::from_bits(if random.once_in(2) {
        bits.wrapping_add(steps)
    } else {
        bits.wrapping_sub(steps)
    })
}
