//! Body codes, and texts about bodies that are mostly complete.

use crate::decimals::inside;
use crate::degrees;
use crate::radii;
use crate::random::Random;
use crate::strings::{quoted, string};

/// Codes around every end of what is legal, ones of the built-in table, and a few others.
const CODES: [u32; 26] = [
    0, 1, 3, 9, 10, 11, 99, 100, 101, 199, 299, 301, 399, 401, 499, 599, 699, 799, 801, 899, 900,
    998, 999, 1000, 1001, 9999,
];

/// The codes that texts speak of: the ends, some that share their angles, some of the table.
const HELD: [u32; 8] = [1, 3, 10, 100, 301, 399, 899, 999];

/// Codes that are not legal, and that texts speak of all the same.
const STRAY: [u32; 4] = [0, 11, 99, 1000];

/// The codes of the built-in table.
pub const TABLE: [u32; 10] = [10, 199, 299, 399, 499, 599, 699, 799, 899, 999];

/// The words of a body's variables.
const WORDS: [&str; 11] = [
    "POLE_RA",
    "POLE_DEC",
    "PM",
    "NUT_PREC_RA",
    "NUT_PREC_DEC",
    "NUT_PREC_PM",
    "NUT_PREC_ANGLES",
    "MAX_PHASE_DEGREE",
    "RADII",
    "CAPTION",
    "CAPTION",
];

/// A code of any kind.
pub fn code(random: &mut Random) -> u32 {
    match random.below(24) {
        0 => random.bits() as u32 | random.one(&[0, 0x8000_0000, u32::MAX]),
        1 => random.below(1100) as u32,
        2 | 3 => random.one(&CODES),
        _ => held_code(random),
    }
}

/// A code that the built-in table mostly has.
pub fn table_code(random: &mut Random) -> u32 {
    if random.once_in(4) {
        code(random)
    } else {
        random.one(&TABLE)
    }
}

/// A code that texts speak of.
pub fn held_code(random: &mut Random) -> u32 {
    if random.once_in(12) {
        random.one(&STRAY)
    } else {
        random.one(&HELD)
    }
}

/// A code that texts speak of and that is legal.
pub fn legal_code(random: &mut Random) -> u32 {
    random.one(&HELD)
}

/// The name of some variable of a body.
pub fn variable(random: &mut Random) -> String {
    format!("BODY{}_{}", held_code(random), random.one(&WORDS))
}

/// A text about one body: pole, meridian and more, now and then with something missing or with a
/// wrong count.
pub fn text(random: &mut Random) -> Vec<u8> {
    let body = held_code(random);
    let system = if body <= 10 { body } else { body / 100 };
    let mut text = String::from("\\begindata\n");
    for word in ["POLE_RA", "POLE_DEC", "PM"] {
        let count = match random.below(60) {
            0 => 4,
            1 => 0,
            _ => random.between(1, 3),
        };
        add(&mut text, random, body, word, count);
    }
    let longest = random.one(&[0, 0, 1, 2, 5, 13, 31, 32]);
    if longest > 0 {
        for word in ["NUT_PREC_RA", "NUT_PREC_DEC", "NUT_PREC_PM"] {
            let count = random.one(&[0, 1, longest, longest, longest]);
            add(&mut text, random, body, word, count);
        }
        // Another text about the system may have said another degree.
        let said = degrees::said(random);
        if !random.once_in(20) {
            text.push_str(&format!("BODY{system}_MAX_PHASE_DEGREE = {}\n", said.words));
        }
        // 32 groups are enough for the terms of any other text about the system.
        let group = said.degree.unwrap_or(1) + 1;
        let count = match random.below(20) {
            0 => 0,
            1 => group * longest - 1,
            2 => group * 33,
            3..=5 => group * longest,
            _ => group * 32,
        };
        add(&mut text, random, system, "NUT_PREC_ANGLES", count);
    }
    let count = random.one(&[0, 3, 3, 3, 3, 3, 2, 4]);
    add(&mut text, random, body, "RADII", count);
    if random.once_in(3) {
        let count = random.between(1, 5);
        add_strings(&mut text, random, body, "CAPTION", count);
    }
    text.into_bytes()
}

/// A statement of so many strings.
fn add_strings(text: &mut String, random: &mut Random, code: u32, word: &str, count: usize) {
    let operator = random.one(&["=", "+="]);
    text.push_str(&format!("BODY{code}_{word} {operator} (\n"));
    for _ in 0..count {
        text.push_str(&quoted(&string(random)));
        text.push('\n');
    }
    text.push_str(")\n");
}

/// A statement of so many values, or none at all; now and then strings in place of numbers.
fn add(text: &mut String, random: &mut Random, code: u32, word: &str, count: usize) {
    if count == 0 {
        return;
    }
    if random.once_in(100) {
        add_strings(text, random, code, word, count.min(4));
        return;
    }
    let operator = if random.once_in(50) { "+=" } else { "=" };
    text.push_str(&format!("BODY{code}_{word} {operator} (\n"));
    for _ in 0..count {
        let value = match word {
            "RADII" => radius(random),
            _ => coefficient(random),
        };
        text.push_str(&value);
        text.push('\n');
    }
    text.push_str(")\n");
}

/// Mostly a length, now and then one that no globe has.
fn radius(random: &mut Random) -> String {
    match random.below(24) {
        0 => radii::bad(random),
        1 => coefficient(random),
        _ => radii::good(random),
    }
}

/// A value as reports print them, or any of the class.
pub fn coefficient(random: &mut Random) -> String {
    match random.below(12) {
        0 => inside(random),
        1 => String::from(random.one(&["0", "-0", "90", "-90", "180", "360", "45", "-270"])),
        2 => format!("{}D-{}", random.below(100_000), random.between(4, 15)),
        3 => format!("{:.4}", (random.fraction() - 0.5) * 1e6),
        _ => format!("{:.5}", (random.fraction() - 0.5) * 720.0),
    }
}
