//! Decimal strings: the twin against Rust's own parser, and the library against the twin.

use twin::decimal::{read, Reading};
use twin::layout::WORDS;
use twin::limits::{LARGEST_POWER, LARGEST_WHOLE};
use twin::refusal::Refusal;

use crate::call::Call;
use crate::pair::Pair;
use crate::random::Random;
use crate::tally::Tally;

/// The bytes that values are made of, and some that are not.
const VALUE_BYTES: &[u8] = b"0123456789.+-EeDd0123456789.+-EeDd0123456789.+-EeDd_xNaif'#=";

/// Reads so many strings, by both sides as `X = STRING`, and tells how they were answered.
pub fn run(random: &mut Random, strings: usize) -> Tally {
    let mut tally = Tally::default();
    let mut pair = Pair::new(&vec![random.bits(); WORDS]);
    pair.ask(&Call::MakeEmpty);
    for _ in 0..strings {
        let (value, wanted) = match random.below(4) {
            0 | 1 => (inside(random), Some(0)),
            2 => (outside(random), Some(Refusal::Number.number())),
            _ => (near(random), None),
        };
        let number = compare(&mut pair, value.as_bytes());
        assert_eq!(number, wanted.unwrap_or(number), "{value}");
        tally.add(number);
    }
    tally
}

/// Reads a string everywhere; the number that its load is answered with.
fn compare(pair: &mut Pair, value: &[u8]) -> u32 {
    let reading = read(value);
    if let Reading::Number(number) = reading {
        let host = by_host(value).expect("a number of the class is a number to Rust");
        let shown = value.escape_ascii();
        assert_eq!(number.to_bits(), host.to_bits(), "the twin reads {shown}");
    }

    let text = [b"\\begindata\nX = ", value].concat();
    let loaded = pair.ask(&Call::Load {
        label: 1,
        text: &text,
    });
    let expected = match reading {
        Reading::Number(_) => 0,
        Reading::Form => Refusal::BadValue.number(),
        Reading::Class => Refusal::Number.number(),
    };
    assert_eq!(loaded.number, expected, "{}", value.escape_ascii());
    // A value's first byte is its place, or one past the line if there is none.
    let place = if expected == 0 { (0, 0) } else { (2, 5) };
    let told = (loaded.line, loaded.column);
    assert_eq!(told, place, "{}", value.escape_ascii());
    if let Reading::Number(number) = reading {
        let fetched = pair.ask(&Call::Fetch {
            name: b"X",
            room: 1,
        });
        let bits: Vec<u64> = pair.fetched(&fetched).iter().map(|x| x.to_bits()).collect();
        assert_eq!(bits, [number.to_bits()], "{}", value.escape_ascii());
        pair.ask(&Call::Clear);
    }
    loaded.number
}

/// A value as Rust's own parser reads it, D being its E.
pub fn by_host(value: &[u8]) -> Option<f64> {
    let value = std::str::from_utf8(value).ok()?;
    value.replace(['D', 'd'], "E").parse().ok()
}

/// A value of the class, in one of its many spellings.
pub fn inside(random: &mut Random) -> String {
    let whole = whole(random);
    let power = power(random);
    spelled(random, whole.into(), power)
}

/// A value of the right form that is just outside the class, or far outside.
pub fn outside(random: &mut Random) -> String {
    let limit = LARGEST_POWER as i64;
    if random.once_in(2) {
        let more = random.bits() >> random.between(0, 63);
        let power = power(random);
        return spelled(
            random,
            u128::from(LARGEST_WHOLE) + 1 + u128::from(more),
            power,
        );
    }
    let beyond = random.one(&[1, 1, 1, 2, 10, 234, 4_294_967_296 - limit, 1 << 60]);
    let whole = random.one(&[0, 1, 7, LARGEST_WHOLE]);
    let sign = random.one(&[1, -1]);
    spelled(random, whole.into(), sign * (limit + beyond))
}

/// A value with some bytes changed, which may still be one.
pub fn near(random: &mut Random) -> String {
    let mut value = if random.once_in(4) {
        outside(random).into_bytes()
    } else {
        inside(random).into_bytes()
    };
    for _ in 0..random.between(1, 2) {
        let place = random.below(value.len().max(1));
        match random.below(4) {
            0 => value.insert(place, random.one(VALUE_BYTES)),
            1 if place < value.len() => value[place] = random.one(VALUE_BYTES),
            2 => value.truncate(place),
            _ if place < value.len() => {
                value.remove(place);
            }
            _ => {}
        }
    }
    String::from_utf8(value).expect("all bytes are ASCII")
}

/// A power of ten of the class.
fn power(random: &mut Random) -> i64 {
    random.between(0, 2 * LARGEST_POWER as usize) as i64 - LARGEST_POWER as i64
}

/// A whole number of the class, often at its ends, at those of the doubles or of few digits.
fn whole(random: &mut Random) -> u64 {
    match random.below(10) {
        0 => random.below(10) as u64,
        1 => LARGEST_WHOLE - random.below(4) as u64,
        2 => 10_u64.pow(random.below(19) as u32),
        3 => (1 << 53) - 4 + random.below(8) as u64,
        _ => (random.bits() >> random.between(0, 63)).min(LARGEST_WHOLE),
    }
}

/// One spelling of whole · 10^power: digits with or without a point, zeros before them, and an
/// exponent that makes up for the digits after the point.
pub fn spelled(random: &mut Random, whole: u128, power: i64) -> String {
    let after = match random.below(4) {
        0 => 0,
        1 => (-power).clamp(0, 24) as usize,
        2 => random.below(4),
        _ => random.below(25),
    };
    let zeros = random.one(&[0, 0, 0, 1, 2]);
    let digits = format!("{whole:0>after$}");
    let (before, fraction) = digits.split_at(digits.len() - after);
    let mut value = String::from(random.one(&["", "", "", "+", "-"]));
    value.push_str(&"0".repeat(zeros));
    value.push_str(before);
    if after > 0 || (!before.is_empty() && random.once_in(4)) {
        value.push('.');
        value.push_str(fraction);
    }
    let exponent = power + after as i64;
    if exponent != 0 || random.once_in(8) {
        value.push(random.one(&['E', 'e', 'D', 'd']));
        value.push_str(match exponent {
            ..0 => "-",
            0 => random.one(&["", "+", "-"]),
            _ => random.one(&["", "+"]),
        });
        value.push_str(random.one(&["", "", "0", "00"]));
        value.push_str(&exponent.unsigned_abs().to_string());
    }
    value
}
