//! Orientation and radii from a pool: what must be there, how many values, and in which order
//! that is asked.

use twin::answers::{orientation, radii};
use twin::builtin::builtin_orientation;
use twin::layout::WORDS;
use twin::pool::{fetch, load, make_empty, remove};
use twin::refusal::Refusal;
use twin::rotation::{evaluate, Elements, Nutation, Orientation};

fn pool_of(lines: &str) -> Vec<u64> {
    let mut pool = vec![u64::MAX; WORDS];
    make_empty(&mut pool).unwrap();
    load(&mut pool, 1, format!("\\begindata\n{lines}").as_bytes()).unwrap();
    pool
}

fn asked(lines: &str, code: u32) -> Result<Orientation, Refusal> {
    orientation(&pool_of(lines), code, 1e9)
}

const BODY: &str = "BODY399_POLE_RA = 1\nBODY399_POLE_DEC = 2\nBODY399_PM = 3\n";

#[test]
fn codes() {
    for code in [0, 11, 12, 99, 1000, 1001, u32::MAX] {
        let lines = format!("BODY{code}_POLE_RA = 1\nBODY{code}_POLE_DEC = 1\nBODY{code}_PM = 1\nBODY{code}_RADII = ( 1 2 3 )");
        assert_eq!(asked(&lines, code), Err(Refusal::UnknownBody), "{code}");
        assert_eq!(radii(&pool_of(&lines), code), Err(Refusal::UnknownBody));
    }
    for code in [1, 9, 10, 100, 199, 399, 998, 999] {
        let lines = format!("BODY{code}_POLE_RA = 1\nBODY{code}_POLE_DEC = 1\nBODY{code}_PM = 1\nBODY{code}_RADII = ( 1 2 3 )");
        assert!(asked(&lines, code).is_ok(), "{code}");
        assert_eq!(radii(&pool_of(&lines), code), Ok([1.0, 2.0, 3.0]));
    }
}

#[test]
fn pole_and_meridian() {
    assert_eq!(asked("", 399), Err(Refusal::UnknownBody));
    assert_eq!(
        asked("BODY399_RADII = ( 1 2 3 )\nBODY399_NUT_PREC_RA = 1", 399),
        Err(Refusal::UnknownBody)
    );
    let all: Vec<&str> = BODY.lines().collect();
    for left_out in 0..3 {
        let mut some = all.clone();
        some.remove(left_out);
        assert_eq!(asked(&some.join("\n"), 399), Err(Refusal::Incomplete));
        assert_eq!(asked(all[left_out], 399), Err(Refusal::Incomplete));
    }
    for name in ["POLE_RA", "POLE_DEC", "PM"] {
        let lines = format!("{BODY}BODY399_{name} = ( 1 2 3 )");
        assert!(asked(&lines, 399).is_ok());
        let lines = format!("{BODY}BODY399_{name} = ( 1 2 3 4 )");
        assert_eq!(asked(&lines, 399), Err(Refusal::WrongCount));
    }
}

#[test]
fn missing_values_are_zero() {
    let elements = Elements {
        ra: [1.0, 0.0, 0.0],
        dec: [2.0, 0.0, 0.0],
        pm: [3.0, 0.0, 0.0],
    };
    assert_eq!(
        asked(BODY, 399),
        Ok(evaluate(&elements, &Nutation::NONE, 1e9))
    );
    let spelled = "BODY399_POLE_RA = ( 1 0 0 )\nBODY399_POLE_DEC = ( 2 0 )\nBODY399_PM = ( 3 0 0 )";
    assert_eq!(asked(BODY, 399), asked(spelled, 399));
}

#[test]
fn angles_of_the_system() {
    for (code, system) in [
        (399, 3),
        (301, 3),
        (100, 1),
        (999, 9),
        (3, 3),
        (10, 10),
        (1, 1),
    ] {
        let body = BODY.replace("399", &code.to_string());
        for name in ["NUT_PREC_RA", "NUT_PREC_DEC", "NUT_PREC_PM"] {
            let with_term = format!("{body}BODY{code}_{name} = 1\n");
            assert_eq!(asked(&with_term, code), Err(Refusal::Incomplete));
            let complete = format!("{with_term}BODY{system}_NUT_PREC_ANGLES = ( 30 1 )\n");
            assert!(asked(&complete, code).is_ok());
            assert_ne!(asked(&complete, code), asked(&body, code));
        }
    }
}

#[test]
fn counts_of_angles() {
    let list = |count: usize| "1\n".repeat(count);
    let asked_with = |angles: usize, terms: usize| {
        let lines = format!(
            "{BODY}BODY399_NUT_PREC_DEC = (\n{})\nBODY399_NUT_PREC_RA = 1\nBODY3_NUT_PREC_ANGLES = (\n{})",
            list(terms),
            list(angles)
        );
        asked(&lines, 399).err()
    };
    assert_eq!(asked_with(2, 1), None);
    assert_eq!(asked_with(1, 1), Some(Refusal::WrongCount));
    assert_eq!(asked_with(3, 1), Some(Refusal::WrongCount));
    assert_eq!(asked_with(4, 1), None);
    assert_eq!(asked_with(4, 2), None);
    assert_eq!(asked_with(4, 3), Some(Refusal::WrongCount));
    assert_eq!(asked_with(64, 32), None);
    assert_eq!(asked_with(62, 32), Some(Refusal::WrongCount));
    assert_eq!(asked_with(65, 1), Some(Refusal::WrongCount));
    assert_eq!(asked_with(66, 1), Some(Refusal::WrongCount));
    assert_eq!(asked_with(66, 33), Some(Refusal::WrongCount));
    assert_eq!(asked_with(64, 33), Some(Refusal::WrongCount));
}

#[test]
fn angles_are_not_looked_at_without_terms() {
    let odd = format!("{BODY}BODY3_NUT_PREC_ANGLES = ( 1 2 3 )");
    assert_eq!(asked(&odd, 399), asked(BODY, 399));
}

#[test]
fn incomplete_is_asked_before_any_count() {
    let lines = format!("{BODY}BODY399_PM = ( 1 2 3 4 )\nBODY399_NUT_PREC_RA = 1");
    assert_eq!(asked(&lines, 399), Err(Refusal::Incomplete));
    let lines = "BODY399_POLE_RA = ( 1 2 3 4 )\nBODY399_PM = 1";
    assert_eq!(asked(lines, 399), Err(Refusal::Incomplete));
}

const NUTATION: &str = "BODY399_NUT_PREC_RA = 1\nBODY399_NUT_PREC_DEC = 1\n\
    BODY399_NUT_PREC_PM = 1\nBODY3_NUT_PREC_ANGLES = ( 30 1 )\n";

#[test]
fn a_string_in_a_variable_that_is_met() {
    let complete = format!("{BODY}{NUTATION}");
    assert!(asked(&complete, 399).is_ok());
    for name in [
        "BODY399_POLE_RA",
        "BODY399_POLE_DEC",
        "BODY399_PM",
        "BODY399_NUT_PREC_RA",
        "BODY399_NUT_PREC_DEC",
        "BODY399_NUT_PREC_PM",
        "BODY3_NUT_PREC_ANGLES",
    ] {
        for string in ["= 'a'", "= ''", "+= 'a'", "= ( 'a' 'b' 'c' 'd' )"] {
            let lines = format!("{complete}{name} {string}\n");
            assert_eq!(asked(&lines, 399), Err(Refusal::MixedKind), "{lines}");
            // A direct assignment replaces strings too.
            let mended = format!("{lines}{name} = ( 1 2 )\nBODY3_NUT_PREC_ANGLES = ( 1 2 3 4 )");
            assert!(asked(&mended, 399).is_ok(), "{mended}");
        }
    }
}

#[test]
fn other_variables_are_not_met() {
    let captions = "BODY399_CAPTION = 'The Earth'\nBODY399_RADII = 'none'\nBODY301_PM = 'Moon'\n";
    let angles = "BODY3_NUT_PREC_ANGLES = 'not asked for'\n";
    let lines = format!("{BODY}{captions}{angles}");
    assert_eq!(asked(&lines, 399), asked(BODY, 399));
    let complete = format!("{BODY}{NUTATION}{captions}");
    assert_eq!(
        asked(&complete, 399),
        asked(&format!("{BODY}{NUTATION}"), 399)
    );
}

#[test]
fn mixed_kinds_stand_between_incomplete_and_wrong_counts() {
    let string = "BODY399_NUT_PREC_RA = 'a'\n";
    assert_eq!(
        asked(&format!("{BODY}{string}"), 399),
        Err(Refusal::Incomplete)
    );
    let lines = "BODY399_POLE_RA = 'a'\nBODY399_PM = 1";
    assert_eq!(asked(lines, 399), Err(Refusal::Incomplete));
    assert_eq!(asked(string, 399), Err(Refusal::UnknownBody));
    let counts = "BODY399_POLE_RA = ( 1 2 3 4 )\nBODY399_PM = 'a'\n";
    assert_eq!(
        asked(&format!("{BODY}{counts}"), 399),
        Err(Refusal::MixedKind)
    );
    let odd = format!("{BODY}{NUTATION}BODY3_NUT_PREC_ANGLES = 1\nBODY399_NUT_PREC_PM = 'a'");
    assert_eq!(asked(&odd, 399), Err(Refusal::MixedKind));
    let odd = format!("{BODY}{NUTATION}BODY3_NUT_PREC_ANGLES = ( 'a' 'b' 'c' )");
    assert_eq!(asked(&odd, 399), Err(Refusal::MixedKind));
}

#[test]
fn refusals_come_in_order() {
    let mut damaged = pool_of(BODY);
    damaged[0] = 99;
    assert_eq!(
        orientation(&damaged, 399, f64::NAN),
        Err(Refusal::DamagedPool)
    );
    assert_eq!(orientation(&damaged, 11, 0.0), Err(Refusal::DamagedPool));
    assert_eq!(radii(&damaged, 11), Err(Refusal::DamagedPool));
    assert_eq!(builtin_orientation(11, 0.0), Err(Refusal::UnknownBody));
    let pool = pool_of(BODY);
    assert_eq!(orientation(&pool, 11, f64::NAN), Err(Refusal::Epoch));
    assert_eq!(
        orientation(&pool, 399, 157788000000.00003),
        Err(Refusal::Epoch)
    );
    assert!(orientation(&pool, 399, 157788000000.0).is_ok());
}

#[test]
fn terms_over_several_statements() {
    let lines = format!(
        "{BODY}BODY3_NUT_PREC_ANGLES = ( 30 1\n60 )\nBODY399_NUT_PREC_RA += 1\nBODY3_NUT_PREC_ANGLES += 2\nBODY399_NUT_PREC_RA += -2\nBODY399_NUT_PREC_PM = 0.5"
    );
    let elements = Elements {
        ra: [1.0, 0.0, 0.0],
        dec: [2.0, 0.0, 0.0],
        pm: [3.0, 0.0, 0.0],
    };
    let nutation = Nutation {
        degree: 1,
        angles: &[30.0, 1.0, 60.0, 2.0],
        ra: &[1.0, -2.0],
        dec: &[],
        pm: &[0.5],
    };
    assert_eq!(asked(&lines, 399), Ok(evaluate(&elements, &nutation, 1e9)));
}

#[test]
fn radii_are_three() {
    for (list, expected) in [
        ("( 1 2 3 )", Ok([1.0, 2.0, 3.0])),
        ("( 1 2 )", Err(Refusal::WrongCount)),
        ("1", Err(Refusal::WrongCount)),
        ("( 1 2 3 4 )", Err(Refusal::WrongCount)),
        ("( 'a' 'b' 'c' )", Err(Refusal::MixedKind)),
        ("'a'", Err(Refusal::MixedKind)),
        ("( 1 2 3 )\nBODY10_RADII += 'a'", Err(Refusal::MixedKind)),
        ("'a'\nBODY10_RADII += ( 1 2 )", Err(Refusal::MixedKind)),
        ("'a'\nBODY10_RADII = ( 1 2 3 )", Ok([1.0, 2.0, 3.0])),
    ] {
        let pool = pool_of(&format!("BODY10_RADII = {list}"));
        assert_eq!(radii(&pool, 10), expected);
    }
    assert_eq!(radii(&pool_of(BODY), 399), Err(Refusal::UnknownBody));
}

#[test]
fn radii_are_above_zero() {
    for bad in [
        "0",
        "-0",
        "-1",
        "0.0E5",
        "-1E-22",
        "-9999999999999999999E22",
    ] {
        for list in [
            format!("( {bad} 1 1 )"),
            format!("( 1 {bad} 1 )"),
            format!("( 1 1 {bad} )"),
            format!("( {bad} {bad} {bad} )"),
        ] {
            let pool = pool_of(&format!("BODY10_RADII = {list}"));
            assert_eq!(radii(&pool, 10), Err(Refusal::BadRadius), "{list}");
        }
    }
    let pool = pool_of("BODY10_RADII = ( 1E-22 0.1 9999999999999999999E22 )");
    assert_eq!(radii(&pool, 10), Ok([1e-22, 0.1, 1e41]));
}

#[test]
fn a_bad_radius_is_told_last() {
    for (code, list, expected) in [
        (10, "( 0 0 )", Refusal::WrongCount),
        (10, "( 0 0 0 0 )", Refusal::WrongCount),
        (10, "( 0 0 0 )\nBODY10_RADII += 'a'", Refusal::MixedKind),
        (11, "( 0 0 0 )", Refusal::UnknownBody),
    ] {
        let pool = pool_of(&format!("BODY{code}_RADII = {list}"));
        assert_eq!(radii(&pool, code), Err(expected), "{list}");
    }
    let mut damaged = pool_of("BODY10_RADII = ( 0 0 0 )");
    damaged[0] = 99;
    assert_eq!(radii(&damaged, 10), Err(Refusal::DamagedPool));
}

#[test]
fn only_radii_ask_for_more_than_zero() {
    let zeros = "BODY399_POLE_RA = 0\nBODY399_POLE_DEC = -0\nBODY399_PM = ( -1 0 -0 )\nBODY399_RADII = ( 0 -0 -1 )\n";
    let pool = pool_of(zeros);
    assert_eq!(radii(&pool, 399), Err(Refusal::BadRadius));
    assert!(orientation(&pool, 399, 0.0).is_ok());
    let mut room = [7.0; 3];
    assert_eq!(fetch(&pool, b"BODY399_RADII", &mut room), Ok(3));
    assert_eq!(room.map(f64::to_bits), [0.0, -0.0, -1.0].map(f64::to_bits));
}

#[test]
fn a_later_text_replaces_bad_radii() {
    let mut pool = pool_of("BODY10_RADII = ( 1 0 )");
    assert_eq!(radii(&pool, 10), Err(Refusal::WrongCount));
    load(&mut pool, 2, b"\\begindata\nBODY10_RADII += -1").unwrap();
    assert_eq!(radii(&pool, 10), Err(Refusal::BadRadius));
    load(&mut pool, 3, b"\\begindata\nBODY10_RADII = ( 1 2 3 )").unwrap();
    assert_eq!(radii(&pool, 10), Ok([1.0, 2.0, 3.0]));
    remove(&mut pool, 3).unwrap();
    assert_eq!(radii(&pool, 10), Err(Refusal::BadRadius));
}
