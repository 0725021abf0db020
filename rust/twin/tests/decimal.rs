//! Values: form, class and bits.

mod common;

use common::Random;
use twin::decimal::{read, Reading};

fn bits(value: &str) -> u64 {
    match read(value.as_bytes()) {
        Reading::Number(x) => x.to_bits(),
        other => panic!("{value}: {other:?}"),
    }
}

#[test]
fn forms_that_are_numbers() {
    let numbers = [
        ("0", 0.0),
        ("1", 1.0),
        ("+1", 1.0),
        ("-1", -1.0),
        ("1.", 1.0),
        (".5", 0.5),
        ("-.5", -0.5),
        ("+.5e1", 5.0),
        ("1.E2", 100.0),
        ("1e2", 100.0),
        ("1E+2", 100.0),
        ("1D-2", 0.01),
        ("1d-02", 0.01),
        ("-2D0", -2.0),
        ("007", 7.0),
        ("00.700", 0.7),
        ("3397.", 3397.0),
        ("1E0", 1.0),
        ("1E-0", 1.0),
        ("1E0000000000000000000000000000000000000005", 1e5),
    ];
    for (value, x) in numbers {
        assert_eq!(bits(value), f64::to_bits(x), "{value}");
    }
}

#[test]
fn forms_that_are_none() {
    let broken = [
        "", "+", "-", ".", "+.", "-.", "E5", ".E5", "+E5", "1E", "1E+", "1E-", "1D", "1D+", "1..",
        "1.2.3", "..1", "1.2E3.4", "1.2E3E4", "1E5D5", "--1", "++1", "+-1", "1-", "1+2", "1E--2",
        "1E+-2", "abc", "1a", "a1", "1_000", "0x10", "1F5", "NaN", "inf", "1E5x", "1 ", " 1",
        "1\t", "1'", "=1", "1=", "1e 5", "\u{1}1", "1G0",
    ];
    for value in broken {
        assert_eq!(read(value.as_bytes()), Reading::Form, "{value:?}");
    }
    for value in [&b"\xff"[..], b"1\x80", b"1\0", b"\x001"] {
        assert_eq!(read(value), Reading::Form);
    }
}

#[test]
fn a_broken_form_is_told_before_the_class() {
    for value in ["99999999999999999999x", "1E99.", "1E23E", "0E23-", "1E99E"] {
        assert_eq!(read(value.as_bytes()), Reading::Form, "{value}");
    }
}

#[test]
fn the_class_and_its_neighbours() {
    let inside = [
        "9007199254740993",
        "9999999999999999999",
        "9999999999999999999E22",
        "9999999999999999999E-22",
        "-9.999999999999999999E40",
        "9999999999.999999999",
        ".9999999999999999999",
        "0000000000000000000000000000000009999999999999999999",
        "0.0000000000000000009999999999999999999E15",
        "1.000000000000000000",
        "1000000000000000000.",
        "1E22",
        "1.0E23",
        "1.00E24",
        "1.000000000000000000E40",
        "1E-22",
        "0E22",
        "0E-22",
        "0.0000000000000000000000",
        "0.1E-21",
        ".0000000000000000000001",
        "0.0000000000000000000000000000000000000000E40",
        "0.0000000000000000000000000000000000000001E20",
    ];
    for value in inside {
        bits(value);
    }
    let outside = [
        "10000000000000000000",
        "10000000000000000000E-5",
        "-1000000000000000000.0",
        "1.0000000000000000000",
        "9999999999999999999.0",
        "0010000000000000000000",
        "18446744073709551615",
        "18446744073709551616",
        "18446744073709551617",
        "184467440737095516160",
        "184467440737095516161",
        "99999999999999999999999999999999999999999999999999",
        "9999999999999999999E23",
        "9999999999999999999E-23",
        "9.999999999999999999E41",
        "9.999999999999999999E-5",
        "1E23",
        "10E23",
        "1E-23",
        "0E23",
        "0E-23",
        "0.00000000000000000000000",
        "0.1E-22",
        "1E99999999999999999999999999999999999",
        "1E-99999999999999999999999999999999999",
        "1E18446744073709551616",
        "1E4294967296",
        "1E-18446744073709551638",
        "6.6443009930565219D-09",
        "6.644300993056522D-09",
    ];
    for value in outside {
        assert_eq!(read(value.as_bytes()), Reading::Class, "{value}");
    }
}

#[test]
fn document_004_s_number_is_refused_for_its_power_alone() {
    let value = b"6.6443009930565219D-09";
    assert_eq!(read(value), Reading::Class);
    assert_eq!(
        bits("6.6443009930565219D-06"),
        6.6443009930565219e-6f64.to_bits()
    );
}

#[test]
fn marked_cases_3_and_4() {
    assert_eq!(bits("270.000"), 0x4070E00000000000);
    assert_eq!(bits("9007199254740992"), 0x4340000000000000);
    assert_eq!(bits("9007199254740993"), 0x4340000000000000);
}

#[test]
fn a_minus_flips_the_sign() {
    assert_eq!(bits("-0"), (-0.0f64).to_bits());
    assert_eq!(bits("-0.00E5"), (-0.0f64).to_bits());
    assert_eq!(bits("+0"), 0.0f64.to_bits());
    assert_eq!(bits("-9007199254740993"), 0xC340000000000000);
}

#[test]
fn many_digits_before_and_after_the_point() {
    let zeros = "0".repeat(5000);
    assert_eq!(bits(&format!("{zeros}12.5")), 12.5f64.to_bits());
    assert_eq!(bits(&format!("0.{zeros}5E5000")), 0.5f64.to_bits());
    assert_eq!(bits(&format!("5E{zeros}1")), 50f64.to_bits());
    let nines = "9".repeat(5000);
    assert_eq!(read(nines.as_bytes()), Reading::Class);
    let long = format!("1.{zeros}E5000");
    assert_eq!(
        read(long.as_bytes()),
        Reading::Class,
        "its digits are 10^5000"
    );
}

#[test]
fn in_the_class_the_bits_are_the_nearest_double_s() {
    let mut random = Random(3);
    for _ in 0..400_000 {
        let value = class_value(&mut random);
        let plain = value.replace(['D', 'd'], "E");
        let host: f64 = plain.parse().unwrap();
        assert_eq!(bits(&value), host.to_bits(), "{value}");
    }
}

#[test]
fn outside_the_class_is_found_by_whole_numbers() {
    let mut random = Random(4);
    for _ in 0..100_000 {
        let whole = 10_000_000_000_000_000_000 - 50 + random.below(100);
        let point = random.below(19) as usize;
        let power = random.below(30) as i64 - 15 + random.one(&[-15, 0, 15]);
        let digits = whole.to_string();
        let (before, after) = digits.split_at(digits.len() - point);
        let value = format!("{before}.{after}E{}", power + point as i64);
        let inside = whole < 10_000_000_000_000_000_000 && power.abs() <= 22;
        match read(value.as_bytes()) {
            Reading::Number(_) => assert!(inside, "{value}"),
            Reading::Class => assert!(!inside, "{value}"),
            Reading::Form => panic!("{value}"),
        }
    }
}

/// A value of the class in some of its many spellings.
fn class_value(random: &mut Random) -> String {
    let length = 1 + random.below(19);
    let mut whole = 0;
    for _ in 0..length {
        whole = whole * 10 + random.below(10);
    }
    let mut digits = "0".repeat(random.below(4) as usize) + &whole.to_string();
    let point = random.below(1 + digits.len() as u64) as usize;
    let power = random.below(45) as i64 - 22;
    let exponent = power + point as i64;
    if point > 0 || random.below(4) == 0 {
        digits.insert(digits.len() - point, '.');
    }
    let sign = random.one(&["", "+", "-"]);
    if exponent == 0 && random.below(2) == 0 {
        return format!("{sign}{digits}");
    }
    let letter = random.one(&["E", "e", "D", "d"]);
    let plus = if exponent >= 0 && random.below(2) == 0 {
        "+"
    } else {
        ""
    };
    format!("{sign}{digits}{letter}{plus}{exponent}")
}
