//! The double nearest to whole · 10^power, for powers from -22 to 22: document 02, K4. Of two doubles
//! that are as near it is the one whose significand is even.

use std::cmp::Ordering;

use crate::limits::LARGEST_POWER;

/// The binary digits of a double's significand: whole numbers up to 2^53 are doubles.
const SIGNIFICAND: i32 = 53;
const LARGEST_EXACT: u64 = 1 << SIGNIFICAND;

/// The powers of ten that are doubles.
const TENS: [f64; LARGEST_POWER as usize + 1] = [
    1e0, 1e1, 1e2, 1e3, 1e4, 1e5, 1e6, 1e7, 1e8, 1e9, 1e10, 1e11, 1e12, 1e13, 1e14, 1e15, 1e16,
    1e17, 1e18, 1e19, 1e20, 1e21, 1e22,
];

/// As many powers of five; the last one is below 2^52.
const FIVES: [u64; LARGEST_POWER as usize + 1] = fives();

/// The nearest double.
pub fn nearest(whole: u64, power: i32) -> f64 {
    if whole <= LARGEST_EXACT {
        by_doubles(whole, power)
    } else {
        by_whole_numbers(whole, power)
    }
}

/// The same for whole numbers up to 2^53. Both operands are exact, so it is rounded once.
pub fn by_doubles(whole: u64, power: i32) -> f64 {
    let ten = TENS[power.unsigned_abs() as usize];
    if power >= 0 {
        whole as f64 * ten
    } else {
        whole as f64 / ten
    }
}

/// The same for all whole numbers.
///
/// 10^power is 5^power · 2^power, and a power of two leaves a double's significand as it is. What
/// remains is a fraction of whole numbers. Brought from 2^52 up to 2^53 by a power of two, it lies
/// where the doubles are the whole numbers.
pub fn by_whole_numbers(whole: u64, power: i32) -> f64 {
    let whole = u128::from(whole);
    let fives = u128::from(FIVES[power.unsigned_abs() as usize]);
    let (top, bottom) = if power >= 0 {
        (whole * fives, 1)
    } else {
        (whole, fives)
    };
    // By its lengths the fraction is then above 2^52 and below 2^54.
    let twos = length(top) - length(bottom) - SIGNIFICAND;
    let (top, bottom) = divided(top, bottom, twos);
    let (bottom, twos) = if top >> SIGNIFICAND < bottom {
        (bottom, twos)
    } else {
        (2 * bottom, twos + 1)
    };
    nearest_whole(top, bottom) as f64 * two_to(power + twos)
}

/// The whole number nearest to a fraction; of two that are as near, the even one.
fn nearest_whole(top: u128, bottom: u128) -> u64 {
    let below = top / bottom;
    let rest = top - below * bottom;
    let nearest = match (2 * rest).cmp(&bottom) {
        Ordering::Less => below,
        Ordering::Equal => below + below % 2,
        Ordering::Greater => below + 1,
    };
    nearest as u64
}

/// A fraction divided by a power of two.
fn divided(top: u128, bottom: u128, twos: i32) -> (u128, u128) {
    if twos >= 0 {
        (top, bottom << twos)
    } else {
        (top << -twos, bottom)
    }
}

/// How many binary digits a number has.
fn length(number: u128) -> i32 {
    (u128::BITS - number.leading_zeros()) as i32
}

/// A power of two that is a normal double.
fn two_to(power: i32) -> f64 {
    f64::from_bits(((1023 + power) as u64) << (SIGNIFICAND - 1))
}

const fn fives() -> [u64; LARGEST_POWER as usize + 1] {
    let mut fives = [1; LARGEST_POWER as usize + 1];
    let mut power = 1;
    while power < fives.len() {
        fives[power] = 5 * fives[power - 1];
        power += 1;
    }
    fives
}
