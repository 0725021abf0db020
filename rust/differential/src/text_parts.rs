//! What texts are put together from: names, values, statements and lines, right ones and faulty
//! ones.

use twin::limits::LINE_BYTES;

use crate::decimals::{inside, near, outside};
use crate::random::Random;
use crate::strings::{faulty, quoted, string};

/// Lines of right texts are broken before a value that would make them longer than this.
const BREAK: usize = 120;

/// Names that come again, so that statements meet.
const NAMES: &[&str] = &[
    "X",
    "x",
    "Y_1",
    "_",
    "9",
    "BODY399_PM",
    "BODY399_POLE_RA",
    "BODY3_NUT_PREC_ANGLES",
    "A234567890123456789012345678901",
    "A2345678901234567890123456789012",
];

const NAME_BYTES: &[u8] = b"ABCDEFGHIJKLMNOPQRSTUVWXYZabcdefghijklmnopqrstuvwxyz0123456789_";

/// A name of 1 to 32 bytes.
pub fn name(random: &mut Random) -> String {
    if !random.once_in(4) {
        return String::from(random.one(NAMES));
    }
    let length = random.one(&[1, 2, 5, 8, 9, 16, 17, 24, 25, 31, 32]);
    (0..length)
        .map(|_| char::from(random.one(NAME_BYTES)))
        .collect()
}

/// An operator between optional blanks.
pub fn operator(random: &mut Random) -> &'static str {
    random.one(&[
        " = ", " = ", "=", " =", "= ", "\t=\t", " += ", " += ", "+=", "  +=  ",
    ])
}

/// A right statement with the end of its last line.
pub fn statement(random: &mut Random, end: &str) -> String {
    let name = name(random);
    let operator = operator(random);
    let indent = random.one(&["", "", " ", "\t"]);
    let mut text = format!("{indent}{name}{operator}");
    let strings = random.once_in(4);
    if random.once_in(3) {
        let room = BREAK - text.len();
        text.push_str(&value(random, strings, room));
    } else {
        let count = random.one(&[1, 1, 2, 3, 3, 4, 6, 9]);
        let values: Vec<String> = (0..count).map(|_| value(random, strings, BREAK)).collect();
        list(&mut text, random, end, &values);
    }
    if random.once_in(16) {
        let blanks = random.between(LINE_BYTES - 1, LINE_BYTES) - last_line(&text);
        text.push_str(&" ".repeat(blanks));
    } else {
        text.push_str(random.one(&["", "", "", " ", "\t "]));
    }
    text.push_str(end);
    text
}

/// A number, or a string of no more bytes than there is room for.
fn value(random: &mut Random, string_wanted: bool, room: usize) -> String {
    if !string_wanted {
        return inside(random);
    }
    let string = quoted(&string(random));
    if string.len() <= room {
        string
    } else {
        String::from("'a caption'")
    }
}

/// The bytes of the line that a text ends in.
fn last_line(text: &str) -> usize {
    text.len() - text.rfind('\n').map_or(0, |at| at + 1)
}

/// A list of values.
fn list(text: &mut String, random: &mut Random, end: &str, values: &[String]) {
    text.push_str(random.one(&["(", "( ", "(,", "( ,\t"]));
    for (place, value) in values.iter().enumerate() {
        if place > 0 {
            text.push_str(random.one(&[" ", " ", ", ", ",", "\t", " , ", ",,"]));
        }
        if last_line(text) + value.len() > BREAK || random.once_in(8) {
            text.push_str(end);
            text.push_str(random.one(&["", "  ", "\t", ","]));
        }
        text.push_str(value);
    }
    text.push_str(random.one(&[")", " )", ",)", "\t)"]));
}

/// A line of a text section, of any bytes, with its end.
pub fn note(random: &mut Random, end: &str) -> Vec<u8> {
    let mut line = match random.below(8) {
        0 => Vec::new(),
        1 => random.one(&NOTES).as_bytes().to_vec(),
        2 => (0..random.below(200))
            .map(|_| other_than_lf(random))
            .collect(),
        3 => vec![b'x'; length(random)],
        4 => {
            let (note, length) = (random.one(&NOTES), length(random));
            padded(random, note, length).into_bytes()
        }
        _ => b"Some words about the numbers below.".to_vec(),
    };
    // A CR at the end would be dropped or counted by what follows it.
    if line.last() == Some(&b'\r') {
        line.pop();
    }
    line.extend_from_slice(end.as_bytes());
    line
}

/// Lines that look like something else.
const NOTES: [&str; 8] = [
    "X = 1",
    "X = ( 1",
    "\\begindata.",
    "\\begin data",
    "begindata",
    "\\BEGINDATA",
    "x \\begindata",
    "\\begindata\\begintext",
];

fn other_than_lf(random: &mut Random) -> u8 {
    match random.bits() as u8 {
        b'\n' => b' ',
        byte => byte,
    }
}

/// A length about the limit of data and delimiter lines, or far over it.
fn length(random: &mut Random) -> usize {
    match random.below(10) {
        0 => 300,
        1 => random.between(1_000, 5_000),
        _ => random.between(LINE_BYTES - 1, LINE_BYTES + 2),
    }
}

/// A line of so many bytes, blanks before the words, behind them or on both sides.
fn padded(random: &mut Random, words: &str, length: usize) -> String {
    let blanks = length - words.len();
    let some = random.below(blanks);
    let before = random.one(&[0, some, blanks]);
    let blank = random.one(&[" ", "\t"]);
    format!(
        "{}{words}{}",
        blank.repeat(before),
        blank.repeat(blanks - before)
    )
}

/// A delimiter line with its end.
pub fn delimiter(random: &mut Random, word: &str, end: &str) -> String {
    if random.once_in(8) {
        let length = random.between(LINE_BYTES - 1, LINE_BYTES);
        return padded(random, word, length) + end;
    }
    let before = random.one(&["", "", "", " ", "\t\t"]);
    let after = random.one(&["", "", "", " ", " \t"]);
    format!("{before}{word}{after}{end}")
}

/// A data line that is faulty in one of many ways, without its end.
pub fn faulty_line(random: &mut Random) -> Vec<u8> {
    match random.below(15) {
        0 | 1 => long_line(random),
        2 | 3 => bad_line(random),
        4 => format!("{} = {}", name(random), near(random)).into_bytes(),
        5 => format!("{} = {}", name(random), outside(random)).into_bytes(),
        6 => {
            let values = [near(random), outside(random), inside(random)];
            let (first, second) = (random.below(3), random.below(3));
            format!("X = ( {} {} )", values[first], values[second]).into_bytes()
        }
        7 => {
            let rest = random.one(&["x", ",", ")", "(", "1", "= 2", "1E99", "#"]);
            format!("{} = {} {rest}", name(random), inside(random)).into_bytes()
        }
        9 | 10 => format!("{} = {}", name(random), faulty(random).value).into_bytes(),
        8 => format!("{}{} = 1", name(random), "N".repeat(random.between(30, 36))).into_bytes(),
        11 => open_list(random).into_bytes(),
        _ => random.one(FAULTS).as_bytes().to_vec(),
    }
}

/// A list that is empty, or that a delimiter line or the end of the text may find open.
fn open_list(random: &mut Random) -> String {
    let mut line = format!("{} = (", name(random));
    if random.once_in(2) {
        line.push_str(&inside(random));
    } else {
        line.push_str(random.one(&[")", " )", ",,)", "\n)", " ,\t) ?"]));
    }
    line.push_str(random.one(&["", " ", "\n", "\n\n", "\r\n \t", "\n,"]));
    line.push_str(random.one(&["", "", "\n\\begindata", "\n \t\\begintext "]));
    line
}

/// A line of about the limit and more, every second time one of a few words among blanks.
fn long_line(random: &mut Random) -> Vec<u8> {
    let length = length(random);
    if random.once_in(2) {
        let words = random.one(&["\\begindata", "\\begintext", "\\begindata x", "X = 1", ")"]);
        return padded(random, words, length).into_bytes();
    }
    let mut line = random
        .one(&["X = 1", "X = ( 1", "", "1 2 3", "\\begindata", "?"])
        .as_bytes()
        .to_vec();
    line.resize(length, random.one(b" \t,x0\x01"));
    line
}

/// A line with a byte that may not stand in a data line.
fn bad_line(random: &mut Random) -> Vec<u8> {
    let mut line = random
        .one(&[
            "X = 1",
            "X = ( 1 2",
            "X = 1E99 ",
            "X = ? ",
            "",
            "\\begintext",
        ])
        .as_bytes()
        .to_vec();
    let byte = random.one(&[0, 1, 8, 11, 12, 13, 13, 27, 31, 127, 128, 160, 194, 255]);
    line.insert(random.between(0, line.len()), byte);
    line
}

/// Lines with one fault each, or none.
const FAULTS: &[&str] = &[
    "X",
    "X =",
    "X +=",
    "X +",
    "X + = 1",
    "X : 1",
    "X   ",
    "X\t?",
    "  X-Y = 1",
    "X == 1",
    "X =   ",
    "X =+= 1",
    "= 1",
    " \t= 1",
    "  -1",
    ", X = 1",
    "?",
    "1",
    ")",
    "X = ()",
    "X = ( )",
    "X = ( ,, )",
    "X = ( ) ?",
    "X = )",
    "X = ( 1\n  \\begintext",
    "X = ( 1\n\n",
    "X = ( 1\n \t",
    "X = ( 1",
    "X = (",
    "X = ( 1 ( 2 )",
    "X = (( 1 ))",
    "X = ( 1 ) )",
    "X = ( 1 ), ",
    "X = ( 1 ) 2",
    "X = 1,",
    "X = 1 \t ,",
    "X = 1)",
    "X = 1(",
    "X = ,1",
    "X = 1E99 junk",
    "X = junk 1E99",
    "X = ( 1E99",
    "X = ( 1E99 ( )",
    "X = ( a 1E99 )",
    "X = ( 1E99 a )",
    "X = 1E99,",
    "X = 1 Y = 2",
    "X Y = 1",
    "X.Y = 1",
    "X = 'MARS'",
    "X = 'MARS",
    "X = '",
    "X = '''",
    "X = ''''",
    "X = 'a''",
    "X = 'a''b'",
    "X = 'a'b",
    "X = 'a' 'b'",
    "X = 'a',",
    "X = 'a')",
    "X = 1'a'",
    "X = +'a'",
    "X = ( 'a' 1 )",
    "X = ( 1 'a' )",
    "X = ( 'a' 1E99 )",
    "X = ( 1E99 'a' )",
    "X = ( 'a' 'b",
    "X = ( 'a'('b'))",
    "X = ( 'a'b )",
    "'X' = 1",
    "X '= 1'",
    "X = @1-JAN-2000",
    "\\begindata x",
    "\\begintextx",
    "X = 1E23",
    "X = 10000000000000000000",
    "X = 1.0E23",
    "X = 9999999999999999999",
];

/// Pieces that are strung together without any order.
pub const TOKENS: &[&str] = &[
    "\\begindata",
    "\\begintext",
    "\n",
    "\n",
    "\n",
    "\r\n",
    "\r",
    " ",
    " ",
    "\t",
    "X",
    "BODY1_PM",
    "=",
    " = ",
    "+=",
    "+",
    "(",
    "(",
    ")",
    ")",
    ",",
    "1",
    "2.5",
    "-3E4",
    ".",
    "E",
    "1E99",
    "9999999999999999999",
    "'",
    "'",
    "''",
    "'a'",
    "'Mars, (red)'",
    "\u{1}",
    "\u{e9}",
];
