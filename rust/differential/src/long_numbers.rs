//! Numbers of 16 to 19 digits with every power of ten, loaded by thousands and fetched back: the
//! library and the twin against Rust's own parser, bit for bit. Half of them are made to lie on the
//! middle between two doubles, or as close to it as a whole number can.

use std::iter::Peekable;

use twin::layout::WORDS;
use twin::limits::{LARGEST_POWER, LARGEST_WHOLE, TEXT_BYTES, VALUES};

use crate::call::Call;
use crate::decimals::{by_host, spelled};
use crate::pair::{Pair, ROOM};
use crate::random::Random;
use crate::tally::Tally;

/// The least number of 16 digits.
const LEAST: u64 = 1_000_000_000_000_000;

/// The binary digits of a middle between two doubles: one more than a significand has.
const MIDDLE: u32 = 54;

/// What stands around the values in a text, which has one a line.
const OPENING: &str = "\\begindata\nX = (\n";
const CLOSING: &str = ")";

/// Reads so many numbers, each power of ten in its turn, in as few texts as have room for them.
pub fn run(random: &mut Random, numbers: usize) -> Tally {
    let mut tally = Tally::default();
    let mut pair = Pair::new(&vec![random.bits(); WORDS]);
    pair.ask(&Call::MakeEmpty);
    let powers = -(LARGEST_POWER as i32)..=LARGEST_POWER as i32;
    let mut values = powers
        .cycle()
        .take(numbers)
        .map(|power| {
            let whole = whole(random, power);
            spelled(random, whole.into(), power.into())
        })
        .peekable();
    while values.peek().is_some() {
        let (text, doubles) = next_text(&mut values);
        compare(&mut pair, &text, &doubles);
        doubles.iter().for_each(|_| tally.add(0));
    }
    tally
}

/// A text of as many of the values as it has room for, and what Rust reads of each.
fn next_text(values: &mut Peekable<impl Iterator<Item = String>>) -> (String, Vec<f64>) {
    let mut text = String::from(OPENING);
    let mut doubles = Vec::new();
    while let Some(value) = values.next_if(|value| {
        let length = text.len() + value.len() + 1 + CLOSING.len();
        doubles.len() < VALUES && length <= TEXT_BYTES
    }) {
        doubles.push(by_host(value.as_bytes()).expect("a number to Rust too"));
        text.push_str(&value);
        text.push('\n');
    }
    text.push_str(CLOSING);
    (text, doubles)
}

/// Loads a text on both sides; what is fetched has the bits that Rust reads.
fn compare(pair: &mut Pair, text: &str, doubles: &[f64]) {
    let loaded = pair.ask(&Call::Load {
        label: 1,
        text: text.as_bytes(),
    });
    assert_eq!(loaded.number, 0, "line {}", loaded.line);
    let fetched = pair.ask(&Call::Fetch {
        name: b"X",
        room: ROOM,
    });
    let held = pair.fetched(&fetched);
    assert_eq!(held.len(), doubles.len());
    let values = text[OPENING.len()..].lines();
    for ((value, held), host) in values.zip(held).zip(doubles) {
        assert_eq!(held.to_bits(), host.to_bits(), "{value}");
    }
    pair.ask(&Call::Clear);
}

/// A whole number of 16 to 19 digits; half of them are hard to round with this power of ten.
fn whole(random: &mut Random, power: i32) -> u64 {
    match random.below(8) {
        0..=3 => hard(random, power),
        4 => LARGEST_WHOLE - random.below(1_000) as u64,
        _ => any(random),
    }
}

/// A whole number of 16 to 19 digits.
fn any(random: &mut Random) -> u64 {
    let least = LEAST * random.one(&[1, 10, 100, 1_000]);
    least + random.bits() % (9 * least)
}

/// A whole number that this power of ten takes to the middle between two doubles, or next to it.
fn hard(random: &mut Random, power: i32) -> u64 {
    // Below 10^-4 what gives a middle has more digits.
    let miss = if power < -4 {
        random.one(&[1, -1, 3, -3])
    } else {
        random.one(&[0, 0, 1, -1])
    };
    let fives = 5_u64.pow(power.unsigned_abs());
    loop {
        let about = any(random);
        let near = if power >= 0 {
            near_by_product(about, fives, miss)
        } else {
            near_by_quotient(about, fives, miss)
        };
        if let Some(whole @ LEAST..=LARGEST_WHOLE) = near {
            return whole;
        }
    }
}

/// A whole number about another one, for which whole · fives = middle · 2^twos + miss. The last
/// binary digits of the product are then 1, as many 0 and the miss.
fn near_by_product(about: u64, fives: u64, miss: i64) -> Option<u64> {
    let product = |whole| u128::from(whole) * u128::from(fives);
    let twos = length(product(about)).checked_sub(MIDDLE)?;
    let last = (1_u64 << twos).wrapping_add_signed(miss);
    let whole = down_to(about, last.wrapping_mul(inverse(fives)), 2 << twos)?;
    (length(product(whole)) == length(product(about))).then_some(whole)
}

/// A whole number about another one, for which whole · 2^twos = middle · fives + miss, also with
/// twos below 0.
fn near_by_quotient(about: u64, fives: u64, miss: i64) -> Option<u64> {
    let twos = (MIDDLE + length(fives.into())) as i32 - length(about.into()) as i32;
    let (twos, fives_and_twos) = (twos.max(0), fives << (-twos).max(0));
    let quotient = (u128::from(about) << twos) / u128::from(fives_and_twos);
    let rest = (-miss as u64).wrapping_mul(inverse(fives));
    let middle = down_to(quotient as u64, rest, 1 << twos)?;
    let product = u128::from(middle) * u128::from(fives_and_twos);
    let whole = product.wrapping_add_signed(miss.into()) >> twos;
    (middle % 2 == 1 && length(middle.into()) == MIDDLE).then_some(whole as u64)
}

/// The largest number up to another one that has this rest by a power of two.
fn down_to(number: u64, rest: u64, modulus: u64) -> Option<u64> {
    number.checked_sub(number.wrapping_sub(rest) % modulus)
}

/// What an odd number is multiplied with to give 1 in its last 64 binary digits.
fn inverse(odd: u64) -> u64 {
    // Right in three of them, then each time in twice as many.
    (0..5).fold(odd, |inverse, _| {
        inverse.wrapping_mul(2_u64.wrapping_sub(odd.wrapping_mul(inverse)))
    })
}

/// How many binary digits a number has.
fn length(number: u128) -> u32 {
    u128::BITS - number.leading_zeros()
}

#[cfg(test)]
mod tests {
    use twin::nearest::nearest;

    use super::{hard, Random, LARGEST_POWER};

    /// Two less and two more than a hard number stand on the two sides of a middle.
    #[test]
    fn hard_numbers_are_about_a_middle() {
        let mut random = Random::new(1);
        let limit = LARGEST_POWER as i32;
        for power in -limit..=limit {
            for _ in 0..1_000 {
                let whole = hard(&mut random, power);
                let (below, above) = (nearest(whole - 2, power), nearest(whole + 2, power));
                assert!(below < above, "{whole}E{power}");
            }
        }
    }
}
