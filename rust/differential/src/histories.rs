//! Histories of calls on one pool, made on both sides; at the end the pool is compared with one
//! that only ever got the texts that are still held, each the way it came.

use twin::layout::WORDS;

use crate::bodies;
use crate::call::Call;
use crate::epochs::epoch;
use crate::pair::{in_use, Pair, ROOM, STRING_ROOM};
use crate::random::Random;
use crate::strings::{quoted, string};
use crate::tally::Tally;
use crate::text_parts::name;
use crate::texts;

/// Labels beside the small ones.
const LARGE_LABELS: [u32; 3] = [0x7FFF_FFFF, 0x8000_0000, u32::MAX];

/// A text that is held, or that is fed.
struct Text {
    label: u32,
    bytes: Vec<u8>,
    in_parts: bool,
}

/// What a history has come to.
#[derive(Default)]
struct Kept {
    /// The texts that are held, in the order of their loads and closings.
    texts: Vec<Text>,
    /// The open one, of which so many bytes were fed.
    open: Option<(Text, usize)>,
}

/// Makes so many histories and tells how their calls were answered.
pub fn run(random: &mut Random, histories: usize) -> Tally {
    let mut tally = Tally::default();
    let mut pair = Pair::new(&[]);
    for _ in 0..histories {
        let words: Vec<u64> = (0..WORDS).map(|_| random.bits()).collect();
        pair.set(&words);
        pair.ask(&Call::MakeEmpty);
        let mut kept = Kept::default();
        for _ in 0..random.between(5, 40) {
            tally.add(step(&mut pair, &mut kept, random));
        }
        compare_with_kept(&mut pair, &kept);
    }
    tally
}

/// One call; the number that it is answered with.
fn step(pair: &mut Pair, kept: &mut Kept, random: &mut Random) -> u32 {
    // While a text is open, every second call is about it, so that it comes to its end.
    let kinds = if kept.open.is_some() { 72 } else { 40 };
    match random.below(kinds) {
        36.. => part(pair, kept, random),
        0..=12 => load(pair, kept, random),
        13..=17 => {
            let label = held_label(kept, random);
            let number = pair.ask(&Call::Remove { label }).number;
            if number == 0 {
                kept.texts.retain(|text| text.label != label);
            }
            number
        }
        18 if random.once_in(4) => {
            let clears = random.once_in(2);
            let call = if clears { Call::Clear } else { Call::MakeEmpty };
            let number = pair.ask(&call).number;
            if number == 0 {
                *kept = Kept::default();
            }
            number
        }
        18..=20 => pair.ask(&Call::Totals).number,
        21..=24 => {
            let name = any_name(random);
            let room = random.one(&[0, 1, 2, 3, 4, 8, 64, ROOM, ROOM]);
            let name = name.as_bytes();
            pair.ask(&Call::Fetch { name, room }).number
        }
        32..=35 => {
            let name = any_name(random);
            let place = random.one(&[0, 1, 1, 1, 2, 3, 5, 9, usize::MAX]);
            let room = random.one(&[0, 1, 8, 20, STRING_ROOM, STRING_ROOM]);
            let name = name.as_bytes();
            pair.ask(&Call::FetchString { name, place, room }).number
        }
        25..=28 => {
            let (body, epoch) = (bodies::code(random), epoch(random));
            pair.ask(&Call::Orientation { body, epoch }).number
        }
        29 | 30 => {
            let body = bodies::code(random);
            pair.ask(&Call::Radii { body }).number
        }
        _ => {
            let (body, epoch) = (bodies::code(random), epoch(random));
            pair.ask(&Call::BuiltinRadii { body });
            pair.ask(&Call::BuiltinOrientation { body, epoch }).number
        }
    }
}

fn load(pair: &mut Pair, kept: &mut Kept, random: &mut Random) -> u32 {
    let text = any_text(random);
    let label = any_label(random);
    let number = pair.ask(&Call::Load { label, text: &text }).number;
    if number == 0 {
        kept.texts.push(Text {
            label,
            bytes: text,
            in_parts: false,
        });
    }
    number
}

/// A text is opened, fed with its next part, closed or dropped.
fn part(pair: &mut Pair, kept: &mut Kept, random: &mut Random) -> u32 {
    if kept.open.is_none() && !random.once_in(4) {
        return open(pair, kept, random);
    }
    match random.below(12) {
        0 => open(pair, kept, random),
        1..=7 => feed(pair, kept, random),
        8..=10 => {
            let number = pair.ask(&Call::Close).number;
            if let Some((mut text, fed)) = kept.open.take() {
                text.bytes.truncate(fed);
                kept.texts.extend((number == 0).then_some(text));
            }
            number
        }
        _ => {
            kept.open = None;
            pair.ask(&Call::Drop).number
        }
    }
}

fn open(pair: &mut Pair, kept: &mut Kept, random: &mut Random) -> u32 {
    let label = any_label(random);
    let number = pair.ask(&Call::Open { label }).number;
    if number == 0 {
        let text = Text {
            label,
            bytes: any_text(random),
            in_parts: true,
        };
        kept.open = Some((text, 0));
    }
    number
}

fn feed(pair: &mut Pair, kept: &mut Kept, random: &mut Random) -> u32 {
    let Some((text, fed)) = &mut kept.open else {
        return pair.ask(&Call::Feed { part: b"X" }).number;
    };
    let rest = &text.bytes[*fed..];
    let length = random.one(&[0, 1, 2, 10, 100, 512, rest.len(), rest.len()]);
    let part = &rest[..length.min(rest.len())];
    *fed += part.len();
    pair.ask(&Call::Feed { part }).number
}

fn any_text(random: &mut Random) -> Vec<u8> {
    match random.below(16) {
        0..=7 => bodies::text(random),
        8..=11 => texts::right(random),
        12 => filler(random),
        _ => texts::text(random),
    }
}

/// A text that takes much of a pool's room.
fn filler(random: &mut Random) -> Vec<u8> {
    let mut text = String::from("\\begindata\n");
    for _ in 0..random.below(400) {
        text.push_str("FILLER += 1\n");
    }
    text.push_str("FILLER = (\n");
    for value in 0..random.between(1, 2000) {
        text.push_str(&format!("{value}\n"));
    }
    text.push_str(")\nCAPTIONS += (\n");
    for _ in 0..random.below(100) {
        text.push_str(&quoted(&string(random)));
        text.push('\n');
    }
    text.push_str("'')");
    text.into_bytes()
}

/// One of more labels than texts are held.
fn any_label(random: &mut Random) -> u32 {
    if random.once_in(8) {
        random.one(&LARGE_LABELS)
    } else {
        random.below(18) as u32
    }
}

/// Mostly a label that is held.
fn held_label(kept: &Kept, random: &mut Random) -> u32 {
    if kept.texts.is_empty() || random.once_in(3) {
        any_label(random)
    } else {
        kept.texts[random.below(kept.texts.len())].label
    }
}

/// A name that some text has, or bytes that are no name.
fn any_name(random: &mut Random) -> String {
    match random.below(12) {
        0 => String::from(random.one(&["", " X", "X ", "X\0", "\u{e9}", "X=", "(", "NOWHERE"])),
        1 => "N".repeat(random.between(31, 70)),
        2 => String::from(random.one(&["FILLER", "CAPTIONS"])),
        3..=6 => name(random),
        _ => bodies::variable(random),
    }
}

/// Fails unless the pool holds what a fresh one holds after the kept texts alone, a text that came
/// in parts fed at once.
fn compare_with_kept(pair: &mut Pair, kept: &Kept) {
    let after = pair.words().to_vec();
    pair.ask(&Call::MakeEmpty);
    for text in &kept.texts {
        let (label, bytes) = (text.label, &text.bytes[..]);
        let number = if text.in_parts {
            pair.ask(&Call::Open { label });
            pair.ask(&Call::Feed { part: bytes });
            pair.ask(&Call::Close).number
        } else {
            pair.ask(&Call::Load { label, text: bytes }).number
        };
        assert_eq!(number, 0);
    }
    let labels: Vec<u32> = kept.texts.iter().map(|text| text.label).collect();
    let (ours, fresh) = (in_use(&after), in_use(pair.words()));
    assert!(ours == fresh, "after a history, not what {labels:?} hold");
}
