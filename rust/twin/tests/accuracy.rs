//! How near the series come to sine and cosine, and how near the matrix comes to a rotation.
//! Document 01 fixes the bits; these bounds say that the bits are also good ones.

use twin::angle::sine_cosine;
use twin::rotation::{evaluate, Elements, Nutation, Orientation, EPOCH_LIMIT};

/// The distance between 1 and the next double: errors are told in this unit.
const ULP: f64 = f64::EPSILON;

/// The largest distance allowed between a sine or cosine and the host's, in ulps of 1: 0.751 is
/// measured, the host's own rounding (up to 0.25) included, also over ten times as many angles.
const SERIES_BOUND: f64 = 0.8;

/// The largest departure allowed to an entry of M·Mᵀ - 1 and to det M - 1, in ulps of 1, the
/// roundings of product and determinant included: 3.5 and 3 are measured.
const MATRIX_BOUND: f64 = 5.0;

const ANGLES: u32 = 4_000_000;
const ORIENTATIONS: u32 = 200_000;

/// Degrees to radians as a sum of two doubles.
const RADIANS_HIGH: f64 = 0.017453292519943295;
const RADIANS_LOW: f64 = 2.9486522708701687e-19;

#[test]
fn sine_and_cosine_are_near_the_host_s() {
    let mut worst_sine = (0.0, 0.0);
    let mut worst_cosine = (0.0, 0.0);
    let mut random = Random(1);
    for i in 0..ANGLES {
        let even = f64::from(i) / f64::from(ANGLES) * 360.0;
        let x = if i % 2 == 0 {
            even
        } else {
            random.up_to(360.0)
        };
        let (sine, cosine) = sine_cosine(x);
        let (host_sine, host_cosine) = host(x);
        note(&mut worst_sine, distance(sine, host_sine), x);
        note(&mut worst_cosine, distance(cosine, host_cosine), x);
    }
    println!(
        "sine: at most {:.3} ulps of 1, at {} degrees; cosine: at most {:.3}, at {}",
        worst_sine.0, worst_sine.1, worst_cosine.0, worst_cosine.1
    );
    assert!(worst_sine.0 <= SERIES_BOUND);
    assert!(worst_cosine.0 <= SERIES_BOUND);
}

#[test]
fn the_matrix_is_a_rotation() {
    let mut random = Random(2);
    let mut worst_product: f64 = 0.0;
    let mut worst_determinant: f64 = 0.0;
    for _ in 0..ORIENTATIONS {
        let elements = Elements {
            ra: [random.around(360.0), random.around(1.0), 0.0],
            dec: [random.around(90.0), random.around(1.0), 0.0],
            pm: [random.around(360.0), random.around(1000.0), 0.0],
        };
        let epoch = random.around(EPOCH_LIMIT);
        let rows = rows(&evaluate(&elements, &Nutation::NONE, epoch));
        for i in 0..3 {
            for j in 0..3 {
                let product: f64 = (0..3).map(|k| rows[i][k] * rows[j][k]).sum();
                let wanted = if i == j { 1.0 } else { 0.0 };
                worst_product = worst_product.max((product - wanted).abs() / ULP);
            }
        }
        worst_determinant = worst_determinant.max((determinant(&rows) - 1.0).abs() / ULP);
    }
    println!(
        "matrix: its product with its transpose departs from 1 by at most {worst_product:.3} ulps, \
         its determinant by at most {worst_determinant:.3}"
    );
    assert!(worst_product <= MATRIX_BOUND);
    assert!(worst_determinant <= MATRIX_BOUND);
}

/// A reference value as two doubles: the host's answer for a double near the angle in radians,
/// and what the rest of the angle adds. Adding them would round a second time.
type Reference = (f64, f64);

/// Sine and cosine of x degrees, x from 0 up to 360, by the host's functions.
/// The reduction is exact, and the radians are kept to twice a double's precision.
fn host(x: f64) -> (Reference, Reference) {
    let quarter = (x / 90.0).round();
    let y = x - 90.0 * quarter;
    let high = y * RADIANS_HIGH;
    let low = y.mul_add(RADIANS_HIGH, -high) + y * RADIANS_LOW;
    let s = (high.sin(), low * high.cos());
    let c = (high.cos(), -low * high.sin());
    let minus = |(near, rest): Reference| (-near, -rest);
    match quarter as u32 % 4 {
        0 => (s, c),
        1 => (c, minus(s)),
        2 => (minus(s), minus(c)),
        _ => (minus(c), s),
    }
}

/// The distance of a double from a reference, in ulps of 1.
fn distance(x: f64, (near, rest): Reference) -> f64 {
    ((x - near) - rest).abs() / ULP
}

fn rows(o: &Orientation) -> [[f64; 3]; 3] {
    [
        [o.m11, o.m12, o.m13],
        [o.m21, o.m22, o.m23],
        [o.m31, o.m32, o.m33],
    ]
}

fn determinant(m: &[[f64; 3]; 3]) -> f64 {
    m[0][0] * (m[1][1] * m[2][2] - m[1][2] * m[2][1])
        - m[0][1] * (m[1][0] * m[2][2] - m[1][2] * m[2][0])
        + m[0][2] * (m[1][0] * m[2][1] - m[1][1] * m[2][0])
}

/// Keeps the larger error and where it was met.
fn note(worst: &mut (f64, f64), error: f64, x: f64) {
    if error > worst.0 {
        *worst = (error, x);
    }
}

/// A small generator, the same numbers at every run.
struct Random(u64);

impl Random {
    fn up_to(&mut self, limit: f64) -> f64 {
        self.0 = self
            .0
            .wrapping_mul(6364136223846793005)
            .wrapping_add(1442695040888963407);
        (self.0 >> 11) as f64 / (1u64 << 53) as f64 * limit
    }

    fn around(&mut self, limit: f64) -> f64 {
        self.up_to(2.0 * limit) - limit
    }
}
