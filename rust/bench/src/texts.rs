//! The texts that are measured.

use std::fmt::Write;

/// The bodies of a system, their angles, and the variables that nobody asks for: 32 statements with
/// 192 values, so that sixteen systems fill a pool to its limits.
const BODIES: u32 = 3;
const ANGLES: usize = 13;
const OTHERS: usize = 10;

/// A body of a system; the first one is what is asked for.
pub fn body(system: u32, place: u32) -> u32 {
    100 * (system % 9 + 1) + 3 * (system / 9) + place
}

/// A text about a system: its angles, its bodies with pole, meridian, terms and radii, and more.
pub fn system(system: u32) -> String {
    system_of_degree(system, 1)
}

/// The same with angles of a degree, which is said if it is not 1.
pub fn system_of_degree(system: u32, degree: usize) -> String {
    let mut text = String::from("KPL/PCK\n\nA system of bodies.\n\n\\begindata\n\n");
    let angles = system % 9 + 1;
    if degree > 1 {
        writeln!(text, "BODY{angles}_MAX_PHASE_DEGREE = {degree}").expect("a string grows");
    }
    add(
        &mut text,
        &format!("BODY{angles}_NUT_PREC_ANGLES"),
        (degree + 1) * ANGLES,
    );
    for place in 0..BODIES {
        add_body(&mut text, body(system, place));
    }
    // Ten variables with thirteen values.
    for place in 0..OTHERS {
        let count = if place < 3 { 2 } else { 1 };
        add(&mut text, &format!("SYSTEM{system}_OTHER{place}"), count);
    }
    text.push_str("\n\\begintext\n");
    text
}

/// The bytes of a text that is like a published kernel in its share of comments, and as long.
const KERNEL_BYTES: usize = 60_000;

/// A text like a published kernel: half of it comments.
pub fn kernel() -> String {
    const COMMENT: &str =
        "     Values of this body are those of the report; rates are per century.\n";
    let mut text = String::from("KPL/PCK\n\n");
    let mut body = 100;
    while text.len() < KERNEL_BYTES {
        text.push_str("\\begintext\n\n");
        let mut section = String::from("\n\\begindata\n\n");
        add_body(&mut section, body);
        text.push_str(&COMMENT.repeat(section.len() / COMMENT.len()));
        text.push_str(&section);
        body += 1;
    }
    text.truncate(text[..KERNEL_BYTES].rfind("\\begintext").unwrap_or(0));
    text
}

/// The captions of a globe.
pub const CAPTIONS: usize = 10;

/// A text of captions for some globes, a statement each: six strings of 60 bytes, three of 57 and
/// one of 15.
pub fn captions(globes: std::ops::Range<u32>) -> String {
    const LINE: &str = "The dark spot is Syrtis Major, seen by Huygens in 1659, here";
    let mut text = String::from("KPL/PCK\n\nCaptions of globes.\n\n\\begindata\n\n");
    for globe in globes {
        write!(text, "GLOBE{globe}_CAPTION = (").expect("a string grows");
        for length in [60, 60, 60, 60, 60, 60, 57, 57, 57, 15] {
            write!(text, "\n    '{}'", &LINE[..length]).expect("a string grows");
        }
        text.push_str(" )\n");
    }
    text.push_str("\n\\begintext\n");
    text
}

/// How a number is written: its digits, those of them after the point, and what follows them.
pub struct Spelling {
    pub digits: usize,
    pub after: usize,
    pub exponent: &'static str,
}

/// A text of one list of so many numbers, four a line.
pub fn numbers(count: usize, spelling: &Spelling) -> String {
    let mut text = String::from("\\begindata\nX = (");
    for place in 0..count {
        text.push(if place % 4 == 0 { '\n' } else { ' ' });
        text.push_str(&number(place, spelling));
    }
    text.push_str(" )\n");
    text
}

/// A number of its own for each place.
fn number(place: usize, spelling: &Spelling) -> String {
    const LEAST: u64 = 1_000_000_000_000_000_000;
    const SPREAD: u64 = 0x9E37_79B9_7F4A_7C15;
    let digits = LEAST + (place as u64).wrapping_mul(SPREAD) % (9 * LEAST);
    let digits = &digits.to_string()[..spelling.digits];
    let (before, fraction) = digits.split_at(spelling.digits - spelling.after);
    let point = if fraction.is_empty() { "" } else { "." };
    format!("{before}{point}{fraction}{}", spelling.exponent)
}

fn add_body(text: &mut String, body: u32) {
    for (word, count) in [
        ("POLE_RA", 3),
        ("POLE_DEC", 3),
        ("PM", 3),
        ("NUT_PREC_RA", ANGLES),
        ("NUT_PREC_DEC", ANGLES),
        ("NUT_PREC_PM", ANGLES),
        ("RADII", 3),
    ] {
        add(text, &format!("BODY{body}_{word}"), count);
    }
}

/// A statement in the layout of published kernels, four values a line.
fn add(text: &mut String, name: &str, count: usize) {
    write!(text, "{name:<22}= (").expect("a string grows");
    for place in 0..count {
        if place > 0 && place % 4 == 0 {
            write!(text, "\n{:25}", "").expect("a string grows");
        }
        let value = 269.9949 - 37.06 * place as f64;
        write!(text, " {value:>11.5}").expect("a string grows");
    }
    text.push_str(" )\n");
}
