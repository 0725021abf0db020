//! The double nearest to whole · 10^power: no other one is nearer, ties go to the even significand,
//! and what one rounding of doubles gives stays as it was.

mod common;

use std::cmp::Ordering;

use common::Random;
use twin::limits::{LARGEST_POWER, LARGEST_WHOLE};
use twin::nearest::{by_doubles, by_whole_numbers, nearest};

const POWERS: std::ops::RangeInclusive<i32> = -(LARGEST_POWER as i32)..=LARGEST_POWER as i32;

/// 2^53, up to which whole numbers are doubles.
const EXACT: u64 = 1 << 53;

/// What Rust reads.
fn parsed(whole: u64, power: i32) -> f64 {
    format!("{whole}E{power}").parse().unwrap()
}

/// A whole number below a limit, often one of few digits.
fn whole(random: &mut Random, limit: u64) -> u64 {
    let bits = random.below(1 << 31) << 62 | random.below(1 << 31) << 31 | random.below(1 << 31);
    (bits >> random.one(&[0, 0, 0, 1, 4, 8, 16, 32, 56])) % limit
}

#[test]
fn whole_numbers_that_are_doubles_are_rounded_as_before() {
    let mut random = Random(7);
    for power in POWERS {
        for near in 0..100 {
            same_both_ways(near, power);
            same_both_ways(EXACT - near, power);
        }
        for _ in 0..20_000 {
            same_both_ways(whole(&mut random, EXACT + 1), power);
        }
    }
}

fn same_both_ways(whole: u64, power: i32) {
    let (exact, once) = (by_whole_numbers(whole, power), by_doubles(whole, power));
    assert_eq!(exact.to_bits(), once.to_bits(), "{whole}E{power}");
}

#[test]
fn rust_reads_the_same() {
    let mut random = Random(8);
    for power in POWERS {
        for near in 0..1_000 {
            for whole in [near, EXACT + near, EXACT - near, LARGEST_WHOLE - near] {
                reads_the_same(whole, power);
            }
        }
        for _ in 0..20_000 {
            reads_the_same(whole(&mut random, LARGEST_WHOLE + 1), power);
        }
    }
}

fn reads_the_same(whole: u64, power: i32) {
    let (ours, host) = (nearest(whole, power), parsed(whole, power));
    assert_eq!(ours.to_bits(), host.to_bits(), "{whole}E{power}");
}

#[test]
fn no_other_double_is_nearer() {
    let mut random = Random(9);
    for power in POWERS {
        for _ in 0..5_000 {
            between_its_midpoints(1 + whole(&mut random, LARGEST_WHOLE), power);
        }
    }
}

/// Compared in whole numbers, the value is not past the middle between the double and the next one
/// on either side; in the middle itself only if the double's significand is even.
fn between_its_midpoints(whole: u64, power: i32) {
    let double = nearest(whole, power);
    let (significand, exponent) = parts(double);
    let even = significand % 2 == 0;
    let above = compared(whole, power, 2 * significand + 1, exponent - 1);
    assert!(allowed(above, Ordering::Less, even), "{whole}E{power}");
    // Below a power of two doubles are twice as dense.
    let below = if significand == 1 << 52 {
        compared(whole, power, 4 * significand - 1, exponent - 2)
    } else {
        compared(whole, power, 2 * significand - 1, exponent - 1)
    };
    assert!(allowed(below, Ordering::Greater, even), "{whole}E{power}");
}

fn allowed(order: Ordering, side: Ordering, even: bool) -> bool {
    order == side || even && order == Ordering::Equal
}

/// The significand of a normal double as a whole number, and the power of two that goes with it.
fn parts(double: f64) -> (u64, i32) {
    let bits = double.to_bits();
    let significand = bits & ((1 << 52) - 1) | 1 << 52;
    (significand, (bits >> 52) as i32 - 1075)
}

/// whole · 10^power against other · 2^twos, where they are about the same.
fn compared(whole: u64, power: i32, other: u64, twos: i32) -> Ordering {
    let fives = 5u128.pow(power.unsigned_abs());
    let (whole, other) = (u128::from(whole), u128::from(other));
    let (left, right) = if power >= 0 {
        (whole * fives, other)
    } else {
        (whole, other * fives)
    };
    if power >= twos {
        shifted(left, power - twos).cmp(&right)
    } else {
        left.cmp(&shifted(right, twos - power))
    }
}

fn shifted(number: u128, twos: i32) -> u128 {
    assert!(number.leading_zeros() >= twos as u32);
    number << twos
}

/// Values half way between two doubles, and the even one's significand and power of two.
const TIES: [(u64, i32, u64, i32); 15] = [
    (9007199254740993, 0, 4503599627370496, 1),
    (9007199254740995, 0, 4503599627370498, 1),
    (18014398509481983, 0, 4503599627370496, 2),
    (18014398509481986, 0, 4503599627370496, 2),
    (9223372036854775296, 0, 4503599627370496, 11),
    (9223372036854778880, 0, 4503599627370498, 11),
    (45035996273704965, -1, 4503599627370496, 0),
    (225179981368524875, -2, 4503599627370498, -1),
    (1125899906842624125, -3, 4503599627370496, -2),
    (5629499534213121875, -4, 4503599627370498, -3),
    (9961022295332261888, 1, 6079725522053382, 14),
    (11503188144281600, 5, 8776236071992188, 17),
    (183192187809300480, 12, 5206635131835938, 45),
    (5764607523034234880, 22, 5960464477539062, 83),
    (8070450532247928832, 22, 8344650268554688, 83),
];

#[test]
fn ties_go_to_the_even_significand() {
    for (whole, power, significand, twos) in TIES {
        let even = nearest(whole, power);
        assert_eq!(parts(even), (significand, twos), "{whole}E{power}");
        assert_eq!(significand % 2, 0);
        // One less and one more go to the two doubles beside.
        let (below, above) = (nearest(whole - 1, power), nearest(whole + 1, power));
        assert_eq!(below.to_bits() + 1, above.to_bits(), "{whole}E{power}");
        assert!(even == below || even == above, "{whole}E{power}");
    }
}

/// Values that miss the middle between two doubles by the least that a whole number can.
const NEAR_TIES: [(u64, i32); 24] = [
    (9837452754530997363, -22),
    (741015859870010907, -22),
    (60849875517072851, -18),
    (1623524656061090643, -18),
    (761627232345347511, -13),
    (224036011432706091, -13),
    (10289898155358213, -9),
    (8756179419696393013, -9),
    (206443533655893396, -5),
    (4839334249046189453, -5),
    (11332717844429469, -1),
    (2539553539843206239, -1),
    (680891605341298125, 1),
    (42005341640132195, 1),
    (2633052754763048477, 5),
    (1410652891890325987, 5),
    (64783413226151021, 9),
    (3281185580466135955, 9),
    (58876420847517629, 13),
    (104733825648345155, 13),
    (544015890656593513, 18),
    (1752679181814004119, 18),
    (193225695729504121, 22),
    (67983082657984647, 22),
];

#[test]
fn near_ties_go_to_their_side() {
    for (whole, power) in NEAR_TIES {
        between_its_midpoints(whole, power);
        reads_the_same(whole, power);
    }
}
