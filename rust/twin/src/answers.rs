//! Orientation and radii from a pool: document 01, "Elements wanted", and of document
//! 02 the 16 of K2, the degree of K8 and the 24 of K10.

use std::io::Write;

use crate::layout::Held;
use crate::limits::{ANGLES, ANGLE_VALUES, HIGHEST_DEGREE, NAME_BYTES, POLYNOMIAL_VALUES};
use crate::refusal::Refusal;
use crate::rotation::{check_epoch, evaluate, Elements, Nutation, Orientation};
use crate::variable::Variable;

/// The values of BODYn_RADII.
const RADII_VALUES: usize = 3;

/// The degree of angles that nothing is said of, and the lowest.
const LINEAR: usize = 1;

/// The orientation of a body by the variables of a pool.
/// Whether variables are there is asked of all of them before the degree, the degree before any
/// other's kind, and kinds before any count.
pub fn orientation(pool: &[u64], code: u32, epoch: f64) -> Result<Orientation, Refusal> {
    let held = Held::of(pool)?;
    check_epoch(epoch)?;
    let wanted = Wanted::found(&held, code)?;
    are_numbers(wanted.all())?;

    let [ra, dec, pm] = &wanted.elements;
    let elements = Elements {
        ra: polynomial(&held, ra)?,
        dec: polynomial(&held, dec)?,
        pm: polynomial(&held, pm)?,
    };
    wanted.check_angles()?;
    let mut angle_room = [0.0; ANGLE_VALUES];
    let mut rooms = [[0.0; ANGLES]; 3];
    let [ra_room, dec_room, pm_room] = &mut rooms;
    let [ra, dec, pm] = &wanted.terms;
    let nutation = Nutation {
        degree: wanted.degree,
        angles: values(&held, &wanted.angles, &mut angle_room),
        ra: values(&held, ra, ra_room),
        dec: values(&held, dec, dec_room),
        pm: values(&held, pm, pm_room),
    };
    Ok(evaluate(&elements, &nutation, epoch))
}

/// The variables that an orientation meets: those of RA, DEC and PM, the terms that are there, and
/// if any term is the angles, which are of a degree.
struct Wanted {
    elements: [Variable; 3],
    terms: [Option<Variable>; 3],
    angles: Option<Variable>,
    degree: usize,
}

impl Wanted {
    /// What a body has of them, unless something is missing or the degree is none.
    fn found(held: &Held, code: u32) -> Result<Wanted, Refusal> {
        let system = system(code).ok_or(Refusal::UnknownBody)?;
        let elements = ["POLE_RA", "POLE_DEC", "PM"].map(|word| body_variable(held, code, word));
        let elements = match elements {
            [None, None, None] => return Err(Refusal::UnknownBody),
            [Some(ra), Some(dec), Some(pm)] => [ra, dec, pm],
            _ => return Err(Refusal::Incomplete),
        };
        let terms = ["NUT_PREC_RA", "NUT_PREC_DEC", "NUT_PREC_PM"]
            .map(|word| body_variable(held, code, word));
        let (angles, degree) = if terms.iter().any(Option::is_some) {
            let angles = body_variable(held, system, "NUT_PREC_ANGLES");
            let angles = angles.ok_or(Refusal::Incomplete)?;
            (Some(angles), degree(held, system)?)
        } else {
            (None, LINEAR)
        };
        Ok(Wanted {
            elements,
            terms,
            angles,
            degree,
        })
    }

    fn all(&self) -> impl Iterator<Item = &Variable> {
        let terms = self.terms.iter().flatten();
        self.elements.iter().chain(terms).chain(&self.angles)
    }

    /// Whether the angles that are there are whole groups, not too many, and enough for the terms.
    fn check_angles(&self) -> Result<(), Refusal> {
        let Some(angles) = &self.angles else {
            return Ok(());
        };
        let (group, longest) = (self.degree + 1, self.longest());
        let (groups, rest) = (angles.count / group, angles.count % group);
        if rest != 0 || groups > ANGLES || groups < longest {
            return Err(Refusal::WrongCount);
        }
        Ok(())
    }

    /// The number of coefficients that the longest of the terms has.
    fn longest(&self) -> usize {
        let counts = self.terms.iter().flatten().map(|term| term.count);
        counts.max().unwrap_or(0)
    }
}

/// The degree of a system's angles: what its one value is as a double.
fn degree(held: &Held, system: u32) -> Result<usize, Refusal> {
    let Some(variable) = body_variable(held, system, "MAX_PHASE_DEGREE") else {
        return Ok(LINEAR);
    };
    if variable.has_strings || variable.count != 1 {
        return Err(Refusal::BadDegree);
    }
    let mut value = [0.0];
    variable.copy_numbers(held, &mut value);
    (LINEAR..=HIGHEST_DEGREE)
        .find(|degree| value == [*degree as f64])
        .ok_or(Refusal::BadDegree)
}

/// The radii of a body by the variables of a pool.
pub fn radii(pool: &[u64], code: u32) -> Result<[f64; RADII_VALUES], Refusal> {
    let held = Held::of(pool)?;
    system(code).ok_or(Refusal::UnknownBody)?;
    let variable = body_variable(&held, code, "RADII").ok_or(Refusal::UnknownBody)?;
    are_numbers([&variable])?;
    if variable.count != RADII_VALUES {
        return Err(Refusal::WrongCount);
    }
    let mut radii = [0.0; RADII_VALUES];
    variable.copy_numbers(&held, &mut radii);
    if !radii.iter().all(|radius| *radius > 0.0) {
        return Err(Refusal::BadRadius);
    }
    Ok(radii)
}

/// The system whose angles a body uses: the hundreds of its code, or the code itself up to 10.
pub(crate) fn system(code: u32) -> Option<u32> {
    match code {
        1..=10 => Some(code),
        100..=999 => Some(code / 100),
        _ => None,
    }
}

/// The variable BODYn_WORD.
fn body_variable(held: &Held, code: u32, word: &str) -> Option<Variable> {
    let mut name = [0; NAME_BYTES];
    let mut free = &mut name[..];
    write!(free, "BODY{code}_{word}").ok()?;
    let length = NAME_BYTES - free.len();
    Variable::find(held, &name[..length])
}

/// Nothing if no variable has a string in it.
fn are_numbers<'a>(variables: impl IntoIterator<Item = &'a Variable>) -> Result<(), Refusal> {
    if variables.into_iter().any(|variable| variable.has_strings) {
        return Err(Refusal::MixedKind);
    }
    Ok(())
}

/// The one to three values of a pole or meridian, missing ones 0.
fn polynomial(held: &Held, variable: &Variable) -> Result<[f64; POLYNOMIAL_VALUES], Refusal> {
    let mut values = [0.0; POLYNOMIAL_VALUES];
    let room = values
        .get_mut(..variable.count)
        .ok_or(Refusal::WrongCount)?;
    variable.copy_numbers(held, room);
    Ok(values)
}

/// The values of a variable, none if there is no variable.
fn values<'a>(held: &Held, variable: &Option<Variable>, room: &'a mut [f64]) -> &'a [f64] {
    match variable {
        None => &[],
        Some(variable) => {
            let room = &mut room[..variable.count];
            variable.copy_numbers(held, room);
            room
        }
    }
}
