//! The names that a query may read: the list, and that each of them can move an answer.

use twin::answers::{orientation, radii};
use twin::layout::WORDS;
use twin::pool::{load, make_empty};
use twin::reads::{names, Asked};

#[test]
fn of_mars() {
    assert_eq!(
        names(Asked::Orientation, 499),
        [
            "BODY499_POLE_RA",
            "BODY499_POLE_DEC",
            "BODY499_PM",
            "BODY499_NUT_PREC_RA",
            "BODY499_NUT_PREC_DEC",
            "BODY499_NUT_PREC_PM",
            "BODY4_NUT_PREC_ANGLES",
            "BODY4_MAX_PHASE_DEGREE",
        ]
    );
    assert_eq!(names(Asked::Radii, 499), ["BODY499_RADII"]);
}

#[test]
fn a_code_up_to_10_is_its_own_system() {
    for code in 1..=10 {
        let all = names(Asked::Orientation, code);
        let own = format!("BODY{code}_");
        assert_eq!(all.len(), 8);
        assert!(all.iter().all(|name| name.starts_with(&own)), "{code}");
    }
}

#[test]
fn angles_are_read_by_a_system_alone() {
    let readers = |name: &str| -> Vec<u32> {
        let reads = |code: &u32| names(Asked::Orientation, *code).contains(&name.to_string());
        (0..1200).filter(reads).collect()
    };
    let mars: Vec<u32> = [4].into_iter().chain(400..500).collect();
    assert_eq!(readers("BODY4_NUT_PREC_ANGLES"), mars);
    assert_eq!(readers("BODY4_MAX_PHASE_DEGREE"), mars);
    assert_eq!(readers("BODY10_NUT_PREC_ANGLES"), [10]);
    assert_eq!(readers("BODY499_NUT_PREC_ANGLES"), []);
}

#[test]
fn what_is_no_code_reads_nothing() {
    for code in [0, 11, 99, 1000, 1099, u32::MAX] {
        assert!(names(Asked::Orientation, code).is_empty(), "{code}");
        assert!(names(Asked::Radii, code).is_empty(), "{code}");
    }
}

/// Answers of a body by one text: the orientation and the radii, refusals too.
fn answers(code: u32, lines: &str) -> (String, String) {
    let mut pool = vec![0; WORDS];
    make_empty(&mut pool).unwrap();
    load(&mut pool, 1, format!("\\begindata\n{lines}").as_bytes()).unwrap();
    let oriented = orientation(&pool, code, 1e9);
    (format!("{oriented:?}"), format!("{:?}", radii(&pool, code)))
}

#[test]
fn each_name_is_read() {
    for code in [4, 10, 100, 401, 499, 999] {
        let all = [names(Asked::Orientation, code), names(Asked::Radii, code)].concat();
        let values = ["1", "2", "3", "4", "5", "6", "( 7 8 )", "1", "( 1 2 3 )"];
        let statement = |name: &String, value: &str| format!("{name} = {value}\n");
        let whole: String = all
            .iter()
            .zip(values)
            .map(|(name, value)| statement(name, value))
            .collect();
        let before = answers(code, &whole);
        assert!(before.0.starts_with("Ok") && before.1.starts_with("Ok"));
        for (place, name) in all.iter().enumerate() {
            let after = answers(code, &(whole.clone() + &statement(name, "'a string'")));
            let moved = (after.0 != before.0, after.1 != before.1);
            assert_eq!(moved, (place < 8, place == 8), "{name}");
        }
        for near in ["BODY499_POLE_RA_", "body499_pole_ra", "BODY499_CAPTION"] {
            let more = statement(&near.to_string(), "'a string'");
            assert_eq!(answers(code, &(whole.clone() + &more)), before, "{near}");
        }
    }
}
