//! The built-in source: document 01, the table of "Elements wanted".

use crate::refusal::Refusal;
use crate::rotation::{check_epoch, evaluate, Elements, Nutation, Orientation};

/// One body of the table; the Sun has no radii.
struct Row {
    elements: Elements,
    nutation: Nutation<'static>,
    radii: Option<[f64; 3]>,
}

/// The orientation of a body of the table.
pub fn builtin_orientation(code: u32, epoch: f64) -> Result<Orientation, Refusal> {
    check_epoch(epoch)?;
    let row = row(code).ok_or(Refusal::UnknownBody)?;
    Ok(evaluate(&row.elements, &row.nutation, epoch))
}

/// The radii of a body of the table, in km.
pub fn builtin_radii(code: u32) -> Result<[f64; 3], Refusal> {
    row(code)
        .and_then(|row| row.radii)
        .ok_or(Refusal::UnknownBody)
}

fn row(code: u32) -> Option<Row> {
    let row = match code {
        10 => Row {
            radii: None,
            ..still([286.13, 0.0], [63.87, 0.0], [84.10, 14.1844], [0.0; 3])
        },
        199 => still(
            [281.01, -0.033],
            [61.45, -0.005],
            [329.548, 6.1385025],
            [2439.7, 2439.7, 2439.7],
        ),
        299 => still(
            [272.76, 0.0],
            [67.16, 0.0],
            [160.20, -1.4813688],
            [6051.8, 6051.8, 6051.8],
        ),
        399 => still(
            [0.0, -0.641],
            [90.0, -0.557],
            [190.147, 360.9856235],
            [6378.14, 6378.14, 6356.75],
        ),
        499 => still(
            [317.68143, -0.1061],
            [52.88650, -0.0609],
            [176.630, 350.89198226],
            [3397.0, 3397.0, 3375.0],
        ),
        599 => still(
            [268.05, -0.009],
            [64.49, 0.003],
            [284.95, 870.536642],
            [71492.0, 71492.0, 66854.0],
        ),
        699 => still(
            [40.589, -0.036],
            [83.537, -0.004],
            [38.90, 810.7939024],
            [60268.0, 60268.0, 54364.0],
        ),
        799 => still(
            [257.311, 0.0],
            [-15.175, 0.0],
            [203.81, -501.1600928],
            [25559.0, 25559.0, 24973.0],
        ),
        899 => Row {
            nutation: Nutation {
                degree: 1,
                angles: &[357.85, 52.316],
                ra: &[0.70],
                dec: &[-0.51],
                pm: &[-0.48],
            },
            ..still(
                [299.36, 0.0],
                [43.46, 0.0],
                [253.18, 536.3128492],
                [24764.0, 24764.0, 24341.0],
            )
        },
        999 => still(
            [313.02, 0.0],
            [9.09, 0.0],
            [236.77, -56.3623195],
            [1195.0, 1195.0, 1195.0],
        ),
        _ => return None,
    };
    Some(row)
}

/// A row without periodic terms, from constants and rates.
fn still(ra: [f64; 2], dec: [f64; 2], pm: [f64; 2], radii: [f64; 3]) -> Row {
    Row {
        elements: Elements {
            ra: [ra[0], ra[1], 0.0],
            dec: [dec[0], dec[1], 0.0],
            pm: [pm[0], pm[1], 0.0],
        },
        nutation: Nutation::NONE,
        radii: Some(radii),
    }
}
