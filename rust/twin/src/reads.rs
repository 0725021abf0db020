//! The names that a query of a pool may read: document 01, "With n the code, the variables are ..", with the degree of K8.
//! The angles and their degree are among them though they are read only beside nutation terms.

use crate::answers::system;

/// What is asked of a pool about a body.
#[derive(Clone, Copy, Debug, PartialEq, Eq)]
pub enum Asked {
    Orientation,
    Radii,
}

/// The names, in the order in which document 01 has them; none for a code that is none.
pub fn names(asked: Asked, code: u32) -> Vec<String> {
    let Some(system) = system(code) else {
        return Vec::new();
    };
    let of = |n: u32, words: &[&str]| -> Vec<String> {
        words.iter().map(|word| format!("BODY{n}_{word}")).collect()
    };
    match asked {
        Asked::Orientation => {
            let own = of(
                code,
                &[
                    "POLE_RA",
                    "POLE_DEC",
                    "PM",
                    "NUT_PREC_RA",
                    "NUT_PREC_DEC",
                    "NUT_PREC_PM",
                ],
            );
            [own, of(system, &["NUT_PREC_ANGLES", "MAX_PHASE_DEGREE"])].concat()
        }
        Asked::Radii => of(code, &["RADII"]),
    }
}
