//! Strings in quotes: both sides against what was written, by its bytes.

use twin::layout::WORDS;
use twin::limits::STRING_BYTES;
use twin::refusal::Refusal;
use twin::string::written;

use crate::call::{Answer, Call};
use crate::pair::{Pair, STRING_ROOM};
use crate::random::Random;
use crate::tally::Tally;

/// Lengths of strings: about the bytes of a word, and about the limit.
const LENGTHS: [usize; 14] = [0, 1, 2, 4, 7, 8, 9, 15, 16, 17, 33, 58, 59, 60];

/// What captions are made of; quotes come often.
const PIECES: [&str; 10] = [
    "Mars",
    " ",
    "'",
    "''",
    "\t",
    "(",
    ")",
    ",",
    "Herschel's map",
    "1E99 = \\begindata",
];

/// What may not follow a closing quote.
const WRONG: &[u8] = b"ab01=+-.\\\"#_";

/// Writes so many variables of strings, right ones and faulty ones, and tells how the loads and
/// fetches were answered.
pub fn run(random: &mut Random, variables: usize) -> Tally {
    let mut tally = Tally::default();
    let words: Vec<u64> = (0..WORDS).map(|_| random.bits()).collect();
    let mut pair = Pair::new(&words);
    pair.ask(&Call::MakeEmpty);
    for _ in 0..variables {
        // A text before it, so that the strings begin anywhere in a word.
        load(&mut pair, 1, &format!("Y = {}", quoted(&string(random))));
        if random.once_in(4) {
            tally.add(refuse(&mut pair, &faulty(random)));
        } else {
            compare(&mut pair, random, &mut tally);
        }
        pair.ask(&Call::Clear);
    }
    tally
}

/// Loads a faulty value, which is refused for its fault and where that is; the refusal's number.
fn refuse(pair: &mut Pair, faulty: &Faulty) -> u32 {
    let before = "\\begindata\nX = ";
    let text = format!("{before}{}", faulty.value);
    let (line, column) = place(text.as_bytes(), before.len() + faulty.at);
    let answer = pair.ask(&Call::Load {
        label: 2,
        text: text.as_bytes(),
    });
    let expected = Answer::of(faulty.refusal.number(), line, column);
    assert_eq!(answer, expected, "{text}");
    answer.number
}

/// The line and the column of a byte, by counting.
fn place(text: &[u8], at: usize) -> (u32, u32) {
    let lines: Vec<&[u8]> = text[..at].split(|byte| *byte == b'\n').collect();
    (lines.len() as u32, lines[lines.len() - 1].len() as u32 + 1)
}

/// Loads a list of strings, takes the text before it out now and then, and fetches each string.
fn compare(pair: &mut Pair, random: &mut Random, tally: &mut Tally) {
    let count = random.between(1, 6);
    let strings: Vec<Vec<u8>> = (0..count).map(|_| string(random)).collect();
    let lines: Vec<String> = strings.iter().map(|string| quoted(string)).collect();
    let number = load(pair, 2, &format!("X = (\n{}\n)", lines.join("\n")));
    assert_eq!(number, 0, "{lines:?}");
    tally.add(number);
    if random.once_in(2) {
        pair.ask(&Call::Remove { label: 1 });
    }
    for (before, string) in strings.iter().enumerate() {
        let (place, room) = (before + 1, random.one(&[string.len(), STRING_ROOM]));
        let name = b"X";
        let fetched = pair.ask(&Call::FetchString { name, place, room });
        assert_eq!(fetched.number, 0);
        assert_eq!(pair.fetched_string(&fetched), string);
        tally.add(fetched.number);
        if let Some(room) = string.len().checked_sub(1) {
            tally.add(pair.ask(&Call::FetchString { name, place, room }).number);
        }
    }
    let name = random.one(&[b"X", b"x"]);
    let place = random.one(&[0, count + 1, usize::MAX]);
    let room = STRING_ROOM;
    tally.add(pair.ask(&Call::FetchString { name, place, room }).number);
    tally.add(pair.ask(&Call::Fetch { name, room }).number);
}

fn load(pair: &mut Pair, label: u32, lines: &str) -> u32 {
    let text = format!("\\begindata\n{lines}");
    let text = text.as_bytes();
    pair.ask(&Call::Load { label, text }).number
}

/// The bytes of a string.
pub fn string(random: &mut Random) -> Vec<u8> {
    let length = random.one(&LENGTHS);
    if random.once_in(4) {
        return vec![random.one(b"x'\t "); length];
    }
    let mut bytes = Vec::new();
    while bytes.len() < length {
        if random.once_in(2) {
            bytes.extend(random.one(&PIECES).bytes());
        } else {
            bytes.push(random.between(32, 126) as u8);
        }
    }
    bytes.truncate(length);
    bytes
}

/// A string as a text has it.
pub fn quoted(bytes: &[u8]) -> String {
    String::from_utf8(written(bytes)).expect("all bytes are ASCII")
}

/// What is no right value for a string's faults alone.
pub struct Faulty {
    pub value: String,
    refusal: Refusal,
    /// The place of the fault among the value's bytes.
    at: usize,
}

impl Faulty {
    fn new(value: String, refusal: Refusal, at: usize) -> Faulty {
        Faulty { value, refusal, at }
    }
}

/// A faulty value; no line of it is too long behind `X = `.
pub fn faulty(random: &mut Random) -> Faulty {
    let right = quoted(&string(random));
    let (length, bad) = (right.len(), Refusal::BadValue);
    match random.below(6) {
        0 => Faulty::new(String::from(&right[..length - 1]), bad, 0),
        1 => Faulty::new(format!("{right}{}", char::from(random.one(WRONG))), bad, 0),
        2 => Faulty::new(too_long(random), bad, 0),
        3 => {
            let other = random.one(&["1", "1E99", "?", "( 'a' )"]);
            Faulty::new(format!("(\n{right}\n{other} )"), bad, length + 3)
        }
        4 => Faulty::new(format!("( 1, 2\n{right} )"), bad, 7),
        _ => {
            let rest = random.one(&[",", ")", "(", " 'a'", " 1", " ,"]);
            let at = length + usize::from(rest.starts_with(' '));
            Faulty::new(format!("{right}{rest}"), Refusal::RestOfLine, at)
        }
    }
}

/// A string of 61 bytes or more.
fn too_long(random: &mut Random) -> String {
    let length = STRING_BYTES + random.one(&[1, 1, 1, 2, 20]);
    let quotes = random.one(&[0, 1, 7, 30]);
    quoted(&[vec![b'\''; quotes], vec![b'x'; length - quotes]].concat())
}
