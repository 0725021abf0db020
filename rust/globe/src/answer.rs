//! What is answered when nothing is refused.

/// How a body is oriented.
#[derive(Clone, Copy, Debug, PartialEq)]
pub struct Orientation {
    /// The right ascension of the north pole in degrees, at least 0 and below 360.
    pub ra: f64,
    /// The declination of the north pole in degrees.
    pub dec: f64,
    /// The prime meridian in degrees, at least 0 and below 360.
    pub w: f64,
    /// The matrix from inertial to body-fixed axes, row by row.
    pub matrix: [[f64; 3]; 3],
}

/// What a pool holds.
#[derive(Clone, Copy, Debug, Default, PartialEq, Eq)]
pub struct Totals {
    /// The texts, each under a label of its own.
    pub texts: usize,
    /// The statements of all texts.
    pub statements: usize,
    /// The values of all statements, numbers and strings.
    pub values: usize,
}

/// Where a motor should stand on its ring, and its way there.
#[derive(Clone, Copy, Debug, PartialEq, Eq)]
pub struct Motion {
    /// The position, counted from 0.
    pub target: u32,
    /// So many positions forward, or back where it is negative: the shorter way round, forward if
    /// both are as long, and 0 exactly if the motor stands there already.
    pub steps: i32,
}
