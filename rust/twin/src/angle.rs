//! Angles in degrees: document 01, "Wrap" and "Sine and cosine".

pub const CIRCLE: f64 = 360.0;
const RADIANS_PER_DEGREE: f64 = 0.017453292519943295;

/// The divisors of the sine's series, innermost first.
const SINE_DIVISORS: [f64; 7] = [210.0, 156.0, 110.0, 72.0, 42.0, 20.0, 6.0];

/// The divisors of the cosine's series, innermost first.
const COSINE_DIVISORS: [f64; 8] = [240.0, 182.0, 132.0, 90.0, 56.0, 30.0, 12.0, 2.0];

/// x brought into 0 up to 360, a zero being +0.
/// r + 360 rounds to 360 for a tiny negative r; that, like whatever is no number, becomes 0.
pub fn wrap(x: f64) -> f64 {
    let r = x % CIRCLE;
    let r = if r < 0.0 { r + CIRCLE } else { r };
    if r > 0.0 && r < CIRCLE {
        r
    } else {
        0.0
    }
}

/// The sine and the cosine of x degrees.
pub fn sine_cosine(x: f64) -> (f64, f64) {
    let x = wrap(x);
    if x < 45.0 {
        let (s, c) = near_zero(x);
        (s, c)
    } else if x < 135.0 {
        let (s, c) = near_zero(x - 90.0);
        (c, -s)
    } else if x < 225.0 {
        let (s, c) = near_zero(x - 180.0);
        (-s, -c)
    } else if x < 315.0 {
        let (s, c) = near_zero(x - 270.0);
        (-c, s)
    } else {
        let (s, c) = near_zero(x - 360.0);
        (s, c)
    }
}

/// S and C of y degrees, y from -45 to 45.
fn near_zero(y: f64) -> (f64, f64) {
    let t = y * RADIANS_PER_DEGREE;
    let z = t * t;
    (t * series(z, &SINE_DIVISORS), series(z, &COSINE_DIVISORS))
}

/// The nested series in z, closed from its innermost term.
fn series(z: f64, divisors: &[f64]) -> f64 {
    let mut q = 1.0;
    for p in divisors {
        q = 1.0 - (z / p) * q;
    }
    q
}
