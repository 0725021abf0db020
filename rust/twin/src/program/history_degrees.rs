//! The part of the script that is about the degree of a system's angles, K8 of document 02, as far as
//! a pool has it: which double is read, and which values are left as texts come and go.

use super::script::{data, Script};

const DEGREE: &str = "BODY4_MAX_PHASE_DEGREE";
const ANGLES: &str = "BODY4_NUT_PREC_ANGLES";

pub fn add(s: &mut Script) {
    s.empty();
    spellings(s);
    replacements(s);
}

/// Degrees as they may be written, what is near them, other counts and strings.
fn spellings(s: &mut Script) {
    for value in [
        "1",
        "1.0",
        "10E-1",
        "0.9999999999999999999",
        "1.0000000000000001",
        "1.999999999999999999",
        "+0.02D2",
        "2.999999999999999999",
        "3.000000000000001",
        "1.5",
        "0",
        "-0",
        "4",
        "( 2 2 )",
        "'2'",
    ] {
        s.load(1, &data(&format!("{DEGREE} = {value}")));
        s.fetch(2, DEGREE);
        s.quoted(1, 1, DEGREE);
        s.remove(1);
    }
}

/// A degree beside its angles, appended to itself, replaced, and back again.
fn replacements(s: &mut Script) {
    s.load(1, &data(&format!("{ANGLES} = ( 169.51 -15916.2801 )")));
    s.load(
        2,
        &data(&format!(
            "{DEGREE} = 2\n{ANGLES} = ( 169.51 -15916.2801 0\n192.93 41215163.19675 8.864 )"
        )),
    );
    s.load(3, &data(&format!("{DEGREE} += 2\n{ANGLES} += ( 1 2 3 )")));
    s.load(4, &data(&format!("{DEGREE} = 3")));
    for label in [4, 3, 2] {
        s.fetch(9, DEGREE);
        s.fetch(9, ANGLES);
        s.remove(label);
    }
    s.fetch(9, DEGREE);
    s.fetch(9, ANGLES);
    s.totals();
}
