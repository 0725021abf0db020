//! The part of the script that is about long numbers: K4 of document 02, their bits with every power
//! of ten, and the ends of the class on both sides.

use twin::limits::{LARGEST_POWER, LARGEST_WHOLE, VALUES};

use super::hard_numbers::{NEAR_TIES, TIES};
use super::random::Random;
use super::script::{data, Script};

const LEAST: i32 = -(LARGEST_POWER as i32);
const MOST: i32 = LARGEST_POWER as i32;

/// Whole numbers where digits or their bits come to an end.
const ENDS: [u64; 9] = [
    LARGEST_WHOLE,
    1_000_000_000_000_000_000,
    (1 << 63) - 1,
    1 << 63,
    (1 << 54) - 1,
    (1 << 53) + 2,
    (1 << 53) + 1,
    1 << 53,
    (1 << 53) - 1,
];

pub fn add(s: &mut Script) {
    s.empty();
    give(s, near_ties());
    give(s, ties());
    give(s, ends());
    give(s, any());
    refusals(s);
}

/// Loads values as the variable X and fetches them.
fn give(s: &mut Script, values: Vec<String>) {
    let lines: Vec<String> = values.chunks(4).map(|line| line.join(" ")).collect();
    s.load(1, &data(&format!("X = (\n{} )", lines.join("\n"))));
    s.fetch(VALUES, "X");
    s.remove(1);
}

/// Values about the middle between two doubles, on both sides.
fn near_ties() -> Vec<String> {
    let pairs = (LEAST..=MOST).zip(NEAR_TIES);
    pairs
        .flat_map(|(power, pair)| pair.map(|whole| spelled(whole, power)))
        .flatten()
        .collect()
}

/// Values on the middle between two doubles, and one less and one more.
fn ties() -> Vec<String> {
    let ties = (MOST + 1 - TIES.len() as i32..).zip(TIES);
    ties.flat_map(|(power, tie)| [tie - 1, tie, tie + 1].map(|whole| spelled(whole, power)))
        .flatten()
        .collect()
}

fn ends() -> Vec<String> {
    let powers = LEAST..=MOST;
    powers
        .flat_map(|power| ENDS.map(|whole| format!("{whole}E{power}")))
        .collect()
}

/// Values of 16 to 19 digits.
fn any() -> Vec<String> {
    let mut random = Random(8);
    let mut values = Vec::new();
    for power in LEAST..=MOST {
        for length in 16..=19 {
            let mut digits = random.one(&["1", "4", "9"]).to_string();
            while digits.len() < length {
                digits += &random.below(10).to_string();
            }
            values.push(format!("{digits}E{power}"));
        }
    }
    values
}

/// A value without a point, and its negative with one after the first digit.
fn spelled(whole: u64, power: i32) -> [String; 2] {
    let digits = whole.to_string();
    let (first, rest) = digits.split_at(1);
    let exponent = power + rest.len() as i32;
    [
        format!("{digits}E{power}"),
        format!("-{first}.{rest}D{exponent}"),
    ]
}

/// One outside the class after long ones that are inside, and its neighbours that are too.
fn refusals(s: &mut Script) {
    let held = data("X = ( 9007199254740993 -0.0 )");
    s.load(1, &held);
    for (outside, inside) in [
        ("10000000000000000000", "9999999999999999999"),
        ("-1.0000000000000000000", "-1.000000000000000000"),
        ("100000000.00000000000", "0000000010.00000000000"),
        ("18446744073709551616", "1844674407370955161"),
        ("18446744073709551617E-1", "1844674407370955161.7"),
        ("9999999999999999999E23", "9999999999999999999E22"),
        ("9999999999999999999E-23", "9999999999999999999E-22"),
        ("9.999999999999999999D41", "9.999999999999999999D40"),
        ("6.6443009930565219D-09", "6.6443009930565219D-06"),
        ("-0E23", "-0E22"),
        ("0.00000000000000000000000", "0.0000000000000000000000"),
    ] {
        s.load(
            2,
            &data(&format!(
                "X += 1234567890123456789\nX += ( 2\n  {outside} )"
            )),
        );
        s.fetch(9, "X");
        s.load(
            2,
            &data(&format!("X += 1234567890123456789\nX += ( 2\n  {inside} )")),
        );
        s.fetch(9, "X");
        s.remove(2);
    }
    s.load(1, &held);
    s.fetch(2, "X");
    s.totals();
}
