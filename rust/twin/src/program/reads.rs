//! `twin reads`: the names that a query about each code of standard input may read.

use std::io::{self, Write};

use twin::reads::{names, Asked};

/// A code is a line, in decimal; what is no number of 32 bits is passed over.
pub fn write(input: &[u8], out: &mut impl Write) -> io::Result<()> {
    for line in input.split(|byte| *byte == b'\n') {
        if let Some(code) = code(line) {
            write_names(out, code)?;
        }
    }
    Ok(())
}

/// Figures alone: `parse` takes a sign too.
fn code(line: &[u8]) -> Option<u32> {
    if !line.iter().all(u8::is_ascii_digit) {
        return None;
    }
    std::str::from_utf8(line).ok()?.parse().ok()
}

fn write_names(out: &mut impl Write, code: u32) -> io::Result<()> {
    let (orientation, radii) = (names(Asked::Orientation, code), names(Asked::Radii, code));
    if orientation.is_empty() {
        return writeln!(out, "{code} none");
    }
    for name in orientation {
        writeln!(out, "{code} orientation {name}")?;
    }
    for name in radii {
        writeln!(out, "{code} radii {name}")?;
    }
    Ok(())
}
