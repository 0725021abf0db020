//! Places: whatever a text holds, a refusal points to a byte of its kind, or one past the line.

mod common;

use common::Random;
use twin::text::read;

const TEXTS: usize = 200_000;

/// What texts are put together from.
const PIECES: [&str; 30] = [
    "X",
    "Y_1",
    " ",
    "  ",
    "\t",
    "=",
    "=",
    " = ",
    " += ",
    "+",
    "(",
    "(",
    ")",
    ")",
    ",",
    "1",
    "-2.5",
    "1E99",
    "9x",
    "'a'",
    "'it''s'",
    "'",
    "''",
    "\n",
    "\n",
    "\r\n",
    "\r",
    "\u{1}",
    "\\begintext",
    "\\begindata",
];

#[test]
fn a_refusal_points_to_a_byte_of_its_kind() {
    let mut random = Random(3);
    let mut met = [0; 22];
    for _ in 0..TEXTS {
        let text = random_text(&mut random);
        if let Err(refused) = read(text.as_bytes()) {
            let number = refused.refusal.number();
            met[number as usize] += 1;
            let lines = lines(text.as_bytes());
            let line = lines[refused.line as usize - 1];
            let (before, rest) = line.split_at(refused.column as usize - 1);
            assert!(
                fits(number, before, rest),
                "{number} before {rest:?} in {text:?}"
            );
            if number == 20 && rest.is_empty() {
                assert_eq!(refused.line as usize, lines.len(), "{text:?}");
            }
        }
    }
    for number in [3, 4, 6, 17, 18, 19, 20, 21] {
        assert!(met[number] > 20, "{number} is met {} times", met[number]);
    }
}

/// Whether a fault may stand between what is before it on its line and the rest.
fn fits(number: u32, before: &[u8], rest: &[u8]) -> bool {
    let first = rest.first().copied();
    let blank = matches!(first, Some(b' ' | b'\t'));
    match number {
        3 => before.len() == 132 && first.is_some(),
        4 => first.is_some_and(|b| !is_data(b)) && before.iter().all(|b| is_data(*b)),
        6 => matches!(first, Some(b'+' | b'-' | b'.' | b'0'..=b'9')),
        17 => first.is_some() && !blank && before.iter().all(|b| matches!(b, b' ' | b'\t')),
        18 => !blank && first != Some(b'=') && !before.is_empty(),
        19 => !blank,
        20 => matches!(first, None | Some(b')')) || before.is_empty(),
        21 => first.is_some() && !blank && !before.is_empty(),
        _ => false,
    }
}

fn is_data(b: u8) -> bool {
    matches!(b, b' '..=b'~' | b'\t')
}

/// The lines of a text without their ends.
fn lines(text: &[u8]) -> Vec<&[u8]> {
    let mut lines: Vec<&[u8]> = text.split(|b| *b == b'\n').collect();
    let last = lines.len() - 1;
    for line in &mut lines[..last] {
        *line = line.strip_suffix(b"\r").unwrap_or(line);
    }
    if lines[last].is_empty() {
        lines.pop();
    }
    lines
}

/// A data section, mostly of statements that begin well.
fn random_text(random: &mut Random) -> String {
    let mut text = String::from("\\begindata\n");
    for _ in 0..random.below(4) {
        text.push_str(random.one(&[
            "X = 1\n",
            "X = ( 1\n2 )\n",
            "X = ( 'a'\n",
            " \r\n",
            "X += (",
        ]));
    }
    if random.below(20) == 0 {
        text.push_str(&" ".repeat(random.one(&[120, 130, 131, 132]) as usize));
    }
    for _ in 0..random.below(8) {
        text.push_str(random.one(&PIECES));
    }
    text
}
