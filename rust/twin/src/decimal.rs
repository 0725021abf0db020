//! A value's bytes to a double: document 01, "Text rules", the last two points, with the class of
//! document 02, K4.

use crate::limits::{LARGEST_POWER, LARGEST_WHOLE};
use crate::nearest::nearest;

/// What a value's bytes are: a number of the class, no number at all, or one outside the class.
#[derive(Clone, Copy, Debug, PartialEq)]
pub enum Reading {
    Number(f64),
    Form,
    Class,
}

/// A whole number of this size has no place for one digit more.
const WHOLE_CAP: u64 = LARGEST_WHOLE / 10 + 1;

/// An exponent of this size is outside the class, however many digits follow the point: no memory
/// has as many bytes.
const EXPONENT_CAP: i64 = 100_000_000_000_000_000;

/// Reads a value.
pub fn read(value: &[u8]) -> Reading {
    let (negative, unsigned) = signed(value);

    let (before, after_whole) = digits(unsigned);
    let (fraction, after_digits) = match after_whole.split_first() {
        Some((b'.', tail)) => digits(tail),
        _ => (&after_whole[..0], after_whole),
    };
    if before.is_empty() && fraction.is_empty() {
        return Reading::Form;
    }

    let exponent = match after_digits.split_first() {
        None => 0,
        Some((b'E' | b'e' | b'D' | b'd', tail)) => {
            let (minus, tail) = signed(tail);
            let (size, rest) = digits(tail);
            if size.is_empty() || !rest.is_empty() {
                return Reading::Form;
            }
            let size = exponent_size(size);
            if minus {
                -size
            } else {
                size
            }
        }
        Some(_) => return Reading::Form,
    };

    let whole = whole_number(fraction, whole_number(before, 0));
    let power = exponent - fraction.len() as i64;
    if whole > LARGEST_WHOLE || power.unsigned_abs() > LARGEST_POWER {
        return Reading::Class;
    }
    let size = nearest(whole, power as i32);
    Reading::Number(if negative { -size } else { size })
}

/// Whether a minus stands first, and what follows an optional sign.
fn signed(s: &[u8]) -> (bool, &[u8]) {
    match s.split_first() {
        Some((b'-', tail)) => (true, tail),
        Some((b'+', tail)) => (false, tail),
        _ => (false, s),
    }
}

/// The run of digits that opens s, and what follows it.
fn digits(s: &[u8]) -> (&[u8], &[u8]) {
    let end = s
        .iter()
        .position(|b| !b.is_ascii_digit())
        .unwrap_or(s.len());
    s.split_at(end)
}

/// The digits read on from a whole number, capped.
fn whole_number(digits: &[u8], from: u64) -> u64 {
    digits.iter().fold(from, |w, digit| {
        w.min(WHOLE_CAP) * 10 + u64::from(digit - b'0')
    })
}

/// The size of an exponent, capped.
fn exponent_size(digits: &[u8]) -> i64 {
    digits.iter().fold(0, |e: i64, digit| {
        (e * 10 + i64::from(digit - b'0')).min(EXPONENT_CAP)
    })
}
