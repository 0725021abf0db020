//! `twin turns`: positions and moves of the globe drive, by the built-in source, at chosen bodies,
//! epochs and rings. A move is told as a double, which has a sign.

use std::io::{self, Write};

use twin::drive::{motion, position, Source};

use super::bits::bits;

const CODES: [u32; 4] = [10, 399, 899, 301];

const EPOCHS: [f64; 8] = [
    0.0,
    43200.0,
    -86164.0,
    123456789.125,
    -98765432109.875,
    157788000000.0,
    157788000000.00003,
    f64::NAN,
];

const RINGS: [u32; 12] = [2, 3, 35, 39, 200, 360, 4095, 4096, 0, 1, 4097, 4294967295];

const PRESENTS: [u32; 7] = [0, 1, 19, 180, 2048, 4095, 4294967295];

/// For every body, epoch and ring the position, and the move from every present one.
pub fn write(out: &mut impl Write) -> io::Result<()> {
    for code in CODES {
        for epoch in EPOCHS {
            for ring in RINGS {
                write_position(out, code, epoch, ring)?;
                for present in PRESENTS {
                    write_move(out, code, epoch, ring, present)?;
                }
            }
        }
    }
    Ok(())
}

fn write_position(out: &mut impl Write, code: u32, epoch: f64, ring: u32) -> io::Result<()> {
    write!(out, "position {code} {} {ring} ", bits(epoch))?;
    match position(Source::Builtin, code, epoch, ring) {
        Ok(position) => writeln!(out, "0 {position}"),
        Err(refusal) => writeln!(out, "{}", refusal.number()),
    }
}

fn write_move(
    out: &mut impl Write,
    code: u32,
    epoch: f64,
    ring: u32,
    present: u32,
) -> io::Result<()> {
    write!(out, "move {code} {} {ring} {present} ", bits(epoch))?;
    match motion(Source::Builtin, code, epoch, ring, present) {
        Ok(motion) => {
            let steps = bits(f64::from(motion.steps));
            writeln!(out, "0 {} {steps}", motion.target)
        }
        Err(refusal) => writeln!(out, "{}", refusal.number()),
    }
}
