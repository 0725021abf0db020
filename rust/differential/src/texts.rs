//! Generated texts, loaded by both sides: right ones, ones with a fault or a few changed bytes,
//! hostile ones, and ones at the limits.

use twin::layout::WORDS;
use twin::limits::{STATEMENTS, STRING_BYTES, STRING_ROOM, TEXTS, TEXT_BYTES, VALUES};

use crate::call::Call;
use crate::kernels::KERNELS;
use crate::pair::Pair;
use crate::random::Random;
use crate::tally::Tally;
use crate::text_parts::{delimiter, faulty_line, note, statement, TOKENS};

/// Loads so many texts and tells how they were answered.
pub fn run(random: &mut Random, texts: usize) -> Tally {
    let mut tally = Tally::default();
    let pools = pools(random);
    let mut pair = Pair::new(&pools[0]);
    for _ in 0..texts {
        pair.set(one_pool(&pools, random));
        let text = text(random);
        // Held labels count up from 0, so this one is held now and then.
        let label = if random.once_in(50) { 0 } else { 1000 };
        tally.add(pair.ask(&Call::Load { label, text: &text }).number);
    }
    tally
}

/// An empty pool, and pools that have each limit near or reached.
pub fn pools(random: &mut Random) -> [Vec<u64>; 6] {
    [
        pool_of(random, &[]),
        pool_of(random, &vec![String::new(); TEXTS - 1]),
        pool_of(random, &vec![String::new(); TEXTS]),
        pool_of(random, &[statements(STATEMENTS - 3)]),
        pool_of(random, &[values(VALUES - 5)]),
        pool_of(random, &[strings(STRING_ROOM - 20)]),
    ]
}

/// One of these pools, mostly the empty one.
pub fn one_pool<'a>(pools: &'a [Vec<u64>; 6], random: &mut Random) -> &'a [u64] {
    &pools[random.one(&[0, 0, 0, 0, 0, 0, 1, 2, 3, 4, 5])]
}

/// A pool of texts labelled from 0 on, in memory that held something else before.
fn pool_of(random: &mut Random, texts: &[String]) -> Vec<u64> {
    let words: Vec<u64> = (0..WORDS).map(|_| random.bits()).collect();
    let mut pair = Pair::new(&words);
    pair.ask(&Call::MakeEmpty);
    for (label, text) in texts.iter().enumerate() {
        let label = label as u32;
        let text = text.as_bytes();
        assert_eq!(pair.ask(&Call::Load { label, text }).number, 0);
    }
    pair.words().to_vec()
}

/// A text of so many statements.
fn statements(count: usize) -> String {
    format!("\\begindata\n{}", "X += 1\n".repeat(count))
}

/// A text of so many values.
fn values(count: usize) -> String {
    format!("\\begindata\nX = (\n{})\n", "1\n".repeat(count))
}

/// A text of strings with so many bytes.
fn strings(bytes: usize) -> String {
    let mut text = String::from("\\begindata\nX = (\n");
    for before in (0..bytes).step_by(STRING_BYTES) {
        let length = STRING_BYTES.min(bytes - before);
        text.push_str(&format!("'{}'\n", "c".repeat(length)));
    }
    text + ")\n"
}

/// A text of some kind.
pub fn text(random: &mut Random) -> Vec<u8> {
    match random.below(200) {
        0..=59 => right(random),
        60..=119 => changed(random),
        120..=159 => faulty(random),
        160..=179 => strung(random),
        180..=193 => hostile(random),
        194..=195 => changed_kernel(random),
        196..=197 => many(random),
        _ => long(random),
    }
}

/// Sections of notes and statements, nothing wrong with them.
pub fn right(random: &mut Random) -> Vec<u8> {
    let ends = random.one(&[&["\n"][..], &["\r\n"], &["\n", "\r\n"]]);
    let mut text = Vec::new();
    for _ in 0..random.below(3) {
        let end = random.one(ends);
        text.extend(note(random, end));
    }
    for _ in 0..random.one(&[0, 1, 1, 1, 2, 3]) {
        add_section(&mut text, random, ends);
    }
    if random.once_in(3) && text.last() == Some(&b'\n') {
        text.pop();
        if text.last() == Some(&b'\r') {
            text.pop();
        }
    }
    text
}

/// A data section and, every second time, a text section after it.
fn add_section(text: &mut Vec<u8>, random: &mut Random, ends: &[&'static str]) {
    let end = random.one(ends);
    text.extend(delimiter(random, "\\begindata", end).bytes());
    for _ in 0..random.below(6) {
        let end = random.one(ends);
        if random.once_in(8) {
            text.extend(random.one(&["", " ", "\t \t"]).bytes());
            text.extend(end.bytes());
        } else {
            text.extend(statement(random, end).bytes());
        }
    }
    if random.once_in(2) {
        let end = random.one(ends);
        text.extend(delimiter(random, "\\begintext", end).bytes());
        for _ in 0..random.below(3) {
            let end = random.one(ends);
            text.extend(note(random, end));
        }
    }
}

/// A right text with a few changes.
fn changed(random: &mut Random) -> Vec<u8> {
    let mut text = right(random);
    for _ in 0..random.between(1, 3) {
        change(&mut text, random);
    }
    text
}

/// Changes a byte, a token or a line.
fn change(text: &mut Vec<u8>, random: &mut Random) {
    const BYTES: &[u8] = b" \t,()=+-.09EDed\r\n\\_X''\x01\x7f\xff";
    let place = random.below(text.len() + 1);
    match random.below(10) {
        0 | 1 => text.insert(place, random.one(BYTES)),
        2 | 3 if place < text.len() => text[place] = random.one(BYTES),
        4 | 5 if place < text.len() => {
            text.remove(place);
        }
        6 => {
            let token = random.one(TOKENS).bytes();
            text.splice(place..place, token);
        }
        7 => text.truncate(place),
        8 => {
            let blanks = random.one(&[40, 80, 110, 130, 300]);
            text.splice(place..place, vec![random.one(b"  \t,0"); blanks]);
        }
        _ => {
            let line: Vec<u8> = text[place..].iter().copied().take(40).collect();
            let other = random.below(text.len() + 1);
            text.splice(other..other, line);
        }
    }
}

/// A right text with a faulty line somewhere in or after it.
fn faulty(random: &mut Random) -> Vec<u8> {
    let mut text = right(random);
    if random.once_in(2) {
        text.extend(b"\n\\begindata\n");
    }
    let starts: Vec<usize> = (0..=text.len())
        .filter(|at| *at == 0 || text[at - 1] == b'\n')
        .collect();
    let start = if random.once_in(2) {
        starts[starts.len() - 1]
    } else {
        random.one(&starts)
    };
    let mut line = faulty_line(random);
    let end = random.one(&["\n", "\n", "\n", "\r\n", "", "\r", "\r\r\n"]);
    line.extend(end.bytes());
    text.splice(start..start, line);
    text
}

/// Tokens without any order, mostly in a data section.
fn strung(random: &mut Random) -> Vec<u8> {
    let mut text = opened(random);
    for _ in 0..random.below(60) {
        text.extend(random.one(TOKENS).bytes());
    }
    text
}

/// Any bytes, or any that may stand in data lines.
fn hostile(random: &mut Random) -> Vec<u8> {
    let mut text = opened(random);
    let printable = random.once_in(2);
    for _ in 0..random.one(&[1, 5, 20, 100, 400]) {
        text.push(match random.below(24) {
            0 => b'\n',
            _ if printable => random.between(32, 126) as u8,
            _ => random.bits() as u8,
        });
    }
    text
}

/// The start of a text, mostly of its first data section.
fn opened(random: &mut Random) -> Vec<u8> {
    random
        .one(&["\\begindata\n", "\\begindata\n", "\\begindata\r\n", ""])
        .as_bytes()
        .to_vec()
}

/// A kernel of the source documents with a few changes.
fn changed_kernel(random: &mut Random) -> Vec<u8> {
    let mut text = random.one(&KERNELS).1.to_vec();
    for _ in 0..random.below(3) {
        change(&mut text, random);
    }
    text
}

/// About as many statements, values or bytes of strings as a pool holds.
fn many(random: &mut Random) -> Vec<u8> {
    let off = random.below(5);
    let text = match random.below(3) {
        0 => statements(STATEMENTS + 2 - off),
        1 => values(VALUES + 2 - off),
        _ => strings(STRING_ROOM + 2 - off),
    };
    text.into_bytes()
}

/// About as many bytes as a text may have, or many more.
fn long(random: &mut Random) -> Vec<u8> {
    let bytes = random.one(&[
        TEXT_BYTES - 1,
        TEXT_BYTES,
        TEXT_BYTES + 1,
        TEXT_BYTES + 2,
        TEXT_BYTES + 77,
        2 * TEXT_BYTES,
    ]);
    let mut text = right(random);
    text.resize(bytes, random.one(b"\n\n x"));
    text
}

#[cfg(test)]
mod tests {
    use super::{right, Random};

    #[test]
    fn right_texts_are_right() {
        let mut random = Random::new(1);
        for _ in 0..10_000 {
            let text = right(&mut random);
            let read = twin::text::read(&text);
            assert!(read.is_ok(), "{read:?}: {}", text.escape_ascii());
        }
    }
}
