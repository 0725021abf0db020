//! From elements and an epoch to an orientation: document 01, "Evaluation" and "Matrix", and the
//! angles of K8 of document 02.

use crate::angle::{sine_cosine, wrap};
use crate::refusal::Refusal;

const SECONDS_PER_DAY: f64 = 86400.0;
const DAYS_PER_CENTURY: f64 = 36525.0;

/// The largest size of an epoch, in seconds of TDB from J2000.
pub const EPOCH_LIMIT: f64 = 157788000000.0;

/// Days from J2000: what the meridian turns with.
#[derive(Clone, Copy)]
struct Days(f64);

/// Julian centuries from J2000: what the pole and the angles move with.
#[derive(Clone, Copy)]
struct Centuries(f64);

/// Constant, rate and square rate of pole and meridian, in degrees; missing ones are 0.
/// The pole's rates are per century, the meridian's per day.
#[derive(Clone, Copy, Debug, PartialEq)]
pub struct Elements {
    pub ra: [f64; 3],
    pub dec: [f64; 3],
    pub pm: [f64; 3],
}

/// Periodic terms: angles as groups of constant, rate per century and so on to the term of their
/// degree, and for each of pole and meridian as many coefficients as it has. There is an angle for
/// every coefficient.
#[derive(Clone, Copy, Debug, PartialEq)]
pub struct Nutation<'a> {
    pub degree: usize,
    pub angles: &'a [f64],
    pub ra: &'a [f64],
    pub dec: &'a [f64],
    pub pm: &'a [f64],
}

impl Nutation<'_> {
    /// No periodic term at all.
    pub const NONE: Nutation<'static> = Nutation {
        degree: 1,
        angles: &[],
        ra: &[],
        dec: &[],
        pm: &[],
    };

    /// The number of angles in use: the length of the longest coefficient list.
    pub fn terms(&self) -> usize {
        self.ra.len().max(self.dec.len()).max(self.pm.len())
    }
}

/// Pole, meridian and the matrix from inertial to body axes.
#[derive(Clone, Copy, Debug, PartialEq)]
pub struct Orientation {
    pub ra: f64,
    pub dec: f64,
    pub w: f64,
    pub m11: f64,
    pub m12: f64,
    pub m13: f64,
    pub m21: f64,
    pub m22: f64,
    pub m23: f64,
    pub m31: f64,
    pub m32: f64,
    pub m33: f64,
}

impl Orientation {
    /// The twelve doubles in their order.
    pub fn doubles(&self) -> [f64; 12] {
        [
            self.ra, self.dec, self.w, self.m11, self.m12, self.m13, self.m21, self.m22, self.m23,
            self.m31, self.m32, self.m33,
        ]
    }
}

/// Refuses an epoch that is not finite or beyond the limit.
pub fn check_epoch(epoch: f64) -> Result<(), Refusal> {
    if epoch.abs() <= EPOCH_LIMIT {
        Ok(())
    } else {
        Err(Refusal::Epoch)
    }
}

/// The orientation of a body with these elements and terms at an admitted epoch.
pub fn evaluate(elements: &Elements, nutation: &Nutation, epoch: f64) -> Orientation {
    let days = Days(epoch / SECONDS_PER_DAY);
    let centuries = Centuries(days.0 / DAYS_PER_CENTURY);
    let mut ra = at_century(&elements.ra, centuries);
    let mut dec = at_century(&elements.dec, centuries);
    let mut w = at_day(&elements.pm, days);
    let groups = nutation.angles.chunks_exact(nutation.degree + 1);
    for (i, group) in groups.take(nutation.terms()).enumerate() {
        let (sine, cosine) = sine_cosine(angle(group, centuries));
        if let Some(coefficient) = nutation.ra.get(i) {
            ra += coefficient * sine;
        }
        if let Some(coefficient) = nutation.dec.get(i) {
            dec += coefficient * cosine;
        }
        if let Some(coefficient) = nutation.pm.get(i) {
            w += coefficient * sine;
        }
    }
    oriented(wrap(ra), dec, wrap(w))
}

/// The value of a polynomial of the pole.
fn at_century(c: &[f64; 3], Centuries(t): Centuries) -> f64 {
    c[0] + t * (c[1] + t * c[2])
}

/// The value of an angle, from its highest coefficient inward.
fn angle(group: &[f64], Centuries(t): Centuries) -> f64 {
    let inward = group.iter().copied().rev();
    inward.reduce(|inner, c| c + t * inner).unwrap_or(0.0)
}

/// The value of the meridian's polynomial.
fn at_day(c: &[f64; 3], Days(d): Days) -> f64 {
    c[0] + d * (c[1] + d * c[2])
}

/// Pole and meridian together with their matrix.
fn oriented(ra: f64, dec: f64, w: f64) -> Orientation {
    let (sa, ca) = sine_cosine(ra);
    let (sd, cd) = sine_cosine(dec);
    let (sw, cw) = sine_cosine(w);
    Orientation {
        ra,
        dec,
        w,
        m11: -(cw * sa) - (sw * sd) * ca,
        m12: cw * ca - (sw * sd) * sa,
        m13: sw * cd,
        m21: sw * sa - (cw * sd) * ca,
        m22: -(sw * ca) - (cw * sd) * sa,
        m23: cw * cd,
        m31: cd * ca,
        m32: cd * sa,
        m33: sd,
    }
}
