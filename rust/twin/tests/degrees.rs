//! The degree of a system's angles: K8 of document 02.

use twin::answers::{orientation, radii};
use twin::layout::WORDS;
use twin::pool::{load, make_empty};
use twin::refusal::Refusal;
use twin::rotation::{evaluate, Elements, Nutation, Orientation};

fn pool_of(lines: &str) -> Vec<u64> {
    let mut pool = vec![u64::MAX; WORDS];
    make_empty(&mut pool).unwrap();
    load(&mut pool, 1, format!("\\begindata\n{lines}").as_bytes()).unwrap();
    pool
}

const EPOCH: f64 = -3.3e10;

fn asked(lines: &str) -> Result<Orientation, Refusal> {
    orientation(&pool_of(lines), 399, EPOCH)
}

const BODY: &str = "BODY399_POLE_RA = 1\nBODY399_POLE_DEC = 2\nBODY399_PM = 3\n";
const TERMS: &str = "BODY399_NUT_PREC_RA = ( 4 5 )\nBODY399_NUT_PREC_DEC = 6\n";
const ANGLES: [f64; 12] = [
    0.1, 30.7, 1e-3, 7.3, -0.2, 3e5, 2.9, -11.0, 0.5, 5.0, 60.0, -7e-5,
];

/// A body with terms, and the twelve angles: whole groups of every degree, and enough of them.
fn complete() -> String {
    let angles = ANGLES.map(|angle| format!("{angle:e}\n")).concat();
    format!("{BODY}{TERMS}BODY3_NUT_PREC_ANGLES = (\n{angles})\n")
}

/// A complete body with one more statement on the degree.
fn with_degree(value: &str) -> String {
    format!("{}BODY3_MAX_PHASE_DEGREE = {value}\n", complete())
}

/// What the twelve angles give at a degree.
fn of_degree(degree: usize) -> Orientation {
    let elements = Elements {
        ra: [1.0, 0.0, 0.0],
        dec: [2.0, 0.0, 0.0],
        pm: [3.0, 0.0, 0.0],
    };
    let nutation = Nutation {
        degree,
        angles: &ANGLES,
        ra: &[4.0, 5.0],
        dec: &[6.0],
        pm: &[],
    };
    evaluate(&elements, &nutation, EPOCH)
}

fn list(count: usize) -> String {
    format!("(\n{})", "1.5\n".repeat(count))
}

#[test]
fn one_two_and_three_are_degrees() {
    for (degree, values) in [
        (1, ["1", "1.0", "10E-1", "+0.1D1", "0.9999999999999999999"]),
        (2, ["2", "2.000", "20E-1", "+0.2D1", "1.999999999999999999"]),
        (3, ["3", "3.0", "30E-1", "300D-2", "2.999999999999999999"]),
    ] {
        for value in values {
            assert_eq!(asked(&with_degree(value)), Ok(of_degree(degree)), "{value}");
        }
    }
    assert_ne!(of_degree(1), of_degree(2));
    assert_ne!(of_degree(2), of_degree(3));
}

#[test]
fn no_degree_is_one() {
    assert_eq!(asked(&complete()), Ok(of_degree(1)));
}

#[test]
fn other_values_are_none() {
    for value in [
        "0",
        "-0",
        "4",
        "-1",
        "-2",
        "1.5",
        "2.5",
        "1E22",
        "1E-22",
        "1.000000000000001",
        "0.999999999999999",
        "3.000000000000001",
        "'2'",
        "''",
        "( 'a' 'b' )",
        "( 1 1 )",
        "( 2 0 )",
        "( 1 2 3 )",
        "1\nBODY3_MAX_PHASE_DEGREE += 1",
        "2\nBODY3_MAX_PHASE_DEGREE += 'a'",
        "'a'\nBODY3_MAX_PHASE_DEGREE += 2",
    ] {
        let lines = with_degree(value);
        assert_eq!(asked(&lines), Err(Refusal::BadDegree), "{value}");
        let mended = format!("{lines}BODY3_MAX_PHASE_DEGREE = 2");
        assert_eq!(asked(&mended), Ok(of_degree(2)), "{value}");
    }
    let appended_only = format!("{}BODY3_MAX_PHASE_DEGREE += 3", complete());
    assert_eq!(asked(&appended_only), Ok(of_degree(3)));
}

#[test]
fn the_degree_is_the_systems() {
    for (code, system) in [(399, 3), (301, 3), (100, 1), (999, 9), (3, 3), (10, 10)] {
        let named = |lines: &str| {
            lines
                .replace("BODY399_", &format!("BODY{code}_"))
                .replace("BODY3_", &format!("BODY{system}_"))
        };
        let at = |lines: &str| orientation(&pool_of(&named(lines)), code, EPOCH);
        assert_eq!(at(&with_degree("2")), Ok(of_degree(2)), "{code}");
        assert_eq!(at(&with_degree("4")), Err(Refusal::BadDegree), "{code}");
    }
    let elsewhere = "BODY399_MAX_PHASE_DEGREE = 4\nBODY4_MAX_PHASE_DEGREE = 4\n";
    let lines = format!("{}{elsewhere}", complete());
    assert_eq!(asked(&lines), Ok(of_degree(1)));
    // The angles of body 10 are its own.
    let sun = lines.replace("BODY399_", "BODY10_");
    let asked = orientation(&pool_of(&sun), 10, EPOCH);
    assert_eq!(asked, Err(Refusal::Incomplete));
}

#[test]
fn it_is_looked_at_only_beside_terms() {
    let still = asked(BODY);
    assert!(still.is_ok());
    for value in ["4", "1.5", "'a'", "( 1 2 )", "2"] {
        let degree = format!("{BODY}BODY3_MAX_PHASE_DEGREE = {value}\n");
        assert_eq!(asked(&degree), still, "{value}");
        let angles = format!("{degree}BODY3_NUT_PREC_ANGLES = ( 1 2 3 4 5 )\n");
        assert_eq!(asked(&angles), still, "{value}");
    }
    for term in ["NUT_PREC_RA", "NUT_PREC_DEC", "NUT_PREC_PM"] {
        for value in ["1", "'a'"] {
            let lines = format!(
                "{BODY}BODY399_{term} = {value}\nBODY3_NUT_PREC_ANGLES = ( 1 2 )\nBODY3_MAX_PHASE_DEGREE = 4"
            );
            assert_eq!(asked(&lines), Err(Refusal::BadDegree), "{term} = {value}");
        }
    }
    let lines = format!("{}BODY399_RADII = ( 1 2 3 )", with_degree("4"));
    assert_eq!(radii(&pool_of(&lines), 399), Ok([1.0, 2.0, 3.0]));
}

#[test]
fn groups_are_counted() {
    for degree in 1..=3 {
        let group = degree + 1;
        let number = |values: usize, terms: usize| {
            let lines = format!(
                "{BODY}BODY399_NUT_PREC_DEC = {}\nBODY399_NUT_PREC_PM = 1\n\
                 BODY3_NUT_PREC_ANGLES = {}\nBODY3_MAX_PHASE_DEGREE = {degree}",
                list(terms),
                list(values)
            );
            asked(&lines).map_or_else(Refusal::number, |_| 0)
        };
        for groups in [31, 32, 33] {
            let values = groups * group;
            assert_eq!(number(values, 1), if groups == 33 { 12 } else { 0 });
            for part in 1..group {
                assert_eq!(number(values - part, 1), 12, "{degree} {values} {part}");
            }
        }
        for terms in [1, 2, 31, 32] {
            assert_eq!(number(terms * group, terms), 0, "{degree} {terms}");
            assert_eq!(number((terms + 1) * group - 1, terms), 12);
            assert_eq!(number(terms * group - 1, terms), 12, "{degree} {terms}");
        }
        assert_eq!(number(group, 2), 12, "{degree}");
        assert_eq!(number(31 * group, 32), 12, "{degree}");
        assert_eq!(number(32 * group, 33), 12, "{degree}");
        assert_eq!(number(33 * group, 33), 12, "{degree}");
    }
}

#[test]
fn refusals_come_in_order() {
    let bad = "BODY3_MAX_PHASE_DEGREE = 4\n";
    let mut damaged = pool_of(&with_degree("4"));
    damaged[0] = 99;
    let asked_of_damaged = orientation(&damaged, 399, f64::NAN);
    assert_eq!(asked_of_damaged, Err(Refusal::DamagedPool));
    let pool = pool_of(&with_degree("4"));
    assert_eq!(orientation(&pool, 399, f64::NAN), Err(Refusal::Epoch));
    assert_eq!(orientation(&pool, 11, EPOCH), Err(Refusal::UnknownBody));
    assert_eq!(orientation(&pool, 301, EPOCH), Err(Refusal::UnknownBody));
    for (lines, refusal) in [
        (format!("{TERMS}{bad}"), Refusal::UnknownBody),
        (format!("{BODY}{TERMS}{bad}"), Refusal::Incomplete),
        (complete().replace("BODY399_PM", "X"), Refusal::Incomplete),
        (
            with_degree("4").replace("BODY399_PM", "X"),
            Refusal::Incomplete,
        ),
        (with_degree("4") + "BODY399_PM = 'a'", Refusal::BadDegree),
        (
            with_degree("4") + "BODY3_NUT_PREC_ANGLES = 'a'",
            Refusal::BadDegree,
        ),
        (
            with_degree("'a'") + "BODY399_NUT_PREC_RA += 'a'",
            Refusal::BadDegree,
        ),
        (
            with_degree("4") + "BODY399_POLE_RA = ( 1 2 3 4 )",
            Refusal::BadDegree,
        ),
        (
            with_degree("4") + "BODY3_NUT_PREC_ANGLES = 1",
            Refusal::BadDegree,
        ),
        (with_degree("2") + "BODY399_PM = 'a'", Refusal::MixedKind),
        (
            with_degree("2") + "BODY3_NUT_PREC_ANGLES = ( 'a' 'b' )",
            Refusal::MixedKind,
        ),
        (
            with_degree("2") + "BODY3_NUT_PREC_ANGLES = ( 1 2 3 4 )",
            Refusal::WrongCount,
        ),
        (
            with_degree("3") + "BODY399_PM = ( 1 2 3 4 )",
            Refusal::WrongCount,
        ),
    ] {
        assert_eq!(asked(&lines), Err(refusal), "{lines}");
    }
}

#[test]
fn groups_past_the_terms_are_not_evaluated() {
    let more = with_degree("3") + "BODY3_NUT_PREC_ANGLES += ( 1 2 3 4 )";
    assert_eq!(asked(&more), Ok(of_degree(3)));
}

#[test]
fn degree_one_is_as_before() {
    let before = asked(&complete());
    assert_eq!(before, asked(&with_degree("1")));
    // Square terms of 0 change no bit either.
    let pairs = ANGLES.chunks(2);
    let groups: String = pairs
        .map(|p| format!("{:e} {:e} 0\n", p[0], p[1]))
        .collect();
    let lines = format!("{BODY}{TERMS}BODY3_NUT_PREC_ANGLES = (\n{groups})\n");
    assert_eq!(before, asked(&format!("{lines}BODY3_MAX_PHASE_DEGREE = 2")));
    assert_ne!(before, asked(&lines));
}
