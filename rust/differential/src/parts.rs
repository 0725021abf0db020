//! Texts in parts, on both sides: cut at every byte, byte by byte, at random with other calls
//! between, of megabytes. Cut anywhere, the memory is that of one part, and the closing's answer and
//! the texts then held are those of a load.

use twin::limits::{PARTS_BYTES, TEXT_BYTES};

use crate::bodies;
use crate::call::{Answer, Call};
use crate::epochs::epoch;
use crate::kernels::KERNELS;
use crate::pair::{in_use, same, Pair, ROOM, STRING_ROOM};
use crate::random::Random;
use crate::tally::Tally;
use crate::text_parts::name;
use crate::texts::{one_pool, pools, text};

/// The label of texts in parts; pools here hold only smaller ones.
const LABEL: u32 = 1000;

/// Texts of up to so many bytes are cut at every place, longer ones at fewer places by chance, so that
/// no more bytes are fed.
const EVERY_PLACE: usize = 2_000;

/// Texts of fewer bytes are fed byte by byte, longer ones in no more parts than this.
const BYTE_BY_BYTE: usize = 16_384;

/// Cuts so many texts of all kinds at every byte into two parts, feeds each byte by byte, and tells
/// how their closings were answered.
pub fn run_cuts(random: &mut Random, texts: usize) -> Tally {
    let mut tally = Tally::default();
    let pools = pools(random);
    let mut pair = Pair::new(&pools[0]);
    for _ in 0..texts {
        let start = one_pool(&pools, random);
        let text = cut_text(random);
        let opened = opened(&mut pair, start);
        pair.feed([&text[..]]);
        let whole = pair.words().to_vec();
        for cut in cuts(random, text.len()) {
            let (first, second) = text.split_at(cut);
            pair.set(&opened);
            pair.feed([first]);
            pair.feed([second]);
            let equal = same(pair.words(), &whole);
            assert!(equal, "cut at {cut}: {}", text.escape_ascii());
        }
        pair.set(&opened);
        pair.feed(text.chunks(1 + text.len() / BYTE_BY_BYTE));
        let equal = same(pair.words(), &whole);
        assert!(equal, "byte by byte: {}", text.escape_ascii());
        tally.add(close_as_a_load(&mut pair, start, &text).number);
    }
    tally
}

/// A text that is cut, every sixth time a delimiter among many blanks.
fn cut_text(random: &mut Random) -> Vec<u8> {
    if random.once_in(6) {
        padded_delimiter(random, 480)
    } else {
        text(random)
    }
}

/// Every place of a text of so many bytes, or as many by chance as are fed soon enough.
fn cuts(random: &mut Random, bytes: usize) -> Vec<usize> {
    if bytes <= EVERY_PLACE {
        return (0..=bytes).collect();
    }
    let count = EVERY_PLACE * EVERY_PLACE / bytes;
    (0..count).map(|_| random.below(bytes + 1)).collect()
}

/// Feeds so many texts in parts of random lengths, with other calls between them, and tells how all
/// calls were answered.
pub fn run(random: &mut Random, texts: usize) -> Tally {
    let mut tally = Tally::default();
    let pools = pools(random);
    let mut pair = Pair::new(&pools[0]);
    for _ in 0..texts {
        let start = one_pool(&pools, random);
        let text = text(random);
        let opened = opened(&mut pair, start);
        let mut rest = &text[..];
        let most = random
            .one(&[text.len() / 4 + 1, 512, 20])
            .max(text.len() / 40);
        while !rest.is_empty() {
            let (part, after) = rest.split_at(random.below(most + 1).min(rest.len()));
            tally.add(pair.ask(&Call::Feed { part }).number);
            if random.once_in(4) {
                tally.add(between(&mut pair, random));
            }
            rest = after;
        }
        let words = pair.words().to_vec();
        let whole = fed(&mut pair, &opened, [&text[..]]);
        assert!(words == whole, "in parts: {}", text.escape_ascii());
        tally.add(end(&mut pair, start, &text, random));
    }
    tally
}

/// Drops the open text now and then, and closes it otherwise.
fn end(pair: &mut Pair, start: &[u64], text: &[u8], random: &mut Random) -> u32 {
    if random.once_in(12) {
        let number = pair.ask(&Call::Drop).number;
        assert!(in_use(pair.words()) == in_use(start));
        return number;
    }
    close_as_a_load(pair, start, text).number
}

/// A call between two parts. Those that would change what is held are refused, and every query
/// sees the held texts alone.
fn between(pair: &mut Pair, random: &mut Random) -> u32 {
    let (body, epoch) = (bodies::code(random), epoch(random));
    let name = name(random);
    let (name, room) = (name.as_bytes(), ROOM);
    let label = random.one(&[0, 1, LABEL, u32::MAX]);
    let call = match random.below(10) {
        0 => Call::Totals,
        1 => Call::Fetch { name, room },
        2 => Call::FetchString {
            name,
            place: 1,
            room: STRING_ROOM,
        },
        3 => Call::Orientation { body, epoch },
        4 => Call::Radii { body },
        5 => Call::Load { label, text: b"?" },
        6 => Call::Open { label },
        7 => Call::Remove { label },
        8 => Call::Clear,
        _ => Call::Feed { part: b"" },
    };
    pair.ask(&call).number
}

/// Feeds so many texts of megabytes in parts of each length, and tells how their closings were
/// answered.
pub fn run_long(random: &mut Random, texts: usize) -> Tally {
    let mut tally = Tally::default();
    let pools = pools(random);
    let mut pair = Pair::new(&pools[0]);
    for place in 0..texts {
        let start = one_pool(&pools, random);
        let text = long_text(random, place);
        let opened = opened(&mut pair, start);
        let whole = fed(&mut pair, &opened, [&text[..]]);
        let cut = random.below(text.len());
        let (first, second) = text.split_at(cut);
        assert!(fed(&mut pair, &opened, [first, second]) == whole);
        let length = random.one(&[4_096, 65_536, text.len() / 50]);
        assert!(fed(&mut pair, &opened, text.chunks(length)) == whole);
        tally.add(pair.ask(&Call::Close).number);
    }
    tally
}

/// In turn a kernel behind long comments, a line of a megabyte, a delimiter among as many blanks,
/// and about as many bytes as parts may have.
fn long_text(random: &mut Random, place: usize) -> Vec<u8> {
    const MEGABYTE: usize = 1 << 20;
    match place % 4 {
        0 => {
            let comment = b"A comment of a kernel that has many of them.\r\n";
            let lines = random.between(MEGABYTE, 2 * MEGABYTE) / comment.len();
            let kernel = random.one(&KERNELS).1;
            let comments = comment.repeat(lines);
            [&comments, kernel, b"\n\\begintext\n", &comments].concat()
        }
        1 => {
            let mut text = text(random);
            let line = vec![random.one(b"x \t\r\\"); MEGABYTE];
            let place = random.below(text.len() + 1);
            text.splice(place..place, line);
            text
        }
        2 => padded_delimiter(random, MEGABYTE),
        _ => {
            let bytes = PARTS_BYTES + random.below(5) - 2;
            let mut text = text(random);
            text.resize(bytes, random.one(b"\n\n x"));
            text
        }
    }
}

/// A line with a delimiter among up to so many blanks, or with something that is nearly one.
fn padded_delimiter(random: &mut Random, blanks: usize) -> Vec<u8> {
    let mut text = Vec::new();
    for word in [
        "",
        random.one(&["\\begindata", "\\begintext", "\\begin", "\\begindata\r"]),
        random.one(&["", "", "", "data", "x", "\r"]),
        random.one(&["\n", "\r\n", "\n?\n", "\nX = 1\n", "\r"]),
    ] {
        text.extend(word.bytes());
        let length = random.one(&[0, 1, 122, 123, 124, 133, blanks / 2]);
        text.extend(vec![random.one(b" \t"); length]);
    }
    text
}

/// The words of a pool in which a text was opened.
fn opened(pair: &mut Pair, start: &[u64]) -> Vec<u64> {
    pair.set(start);
    assert_eq!(pair.ask(&Call::Open { label: LABEL }).number, 0);
    pair.words().to_vec()
}

/// The words after parts were fed to a text that was just opened.
fn fed<'a>(pair: &mut Pair, opened: &[u64], parts: impl IntoIterator<Item = &'a [u8]>) -> Vec<u64> {
    pair.set(opened);
    for part in parts {
        assert_eq!(pair.ask(&Call::Feed { part }).number, 0);
    }
    pair.words().to_vec()
}

/// Closes the open text, which was fed with all of a text. It fails unless the answer is that of a
/// load of it on the pool from before, and so are the texts then held.
fn close_as_a_load(pair: &mut Pair, start: &[u64], text: &[u8]) -> Answer {
    let closed = pair.ask(&Call::Close);
    let held = in_use(pair.words());
    if text.len() <= TEXT_BYTES {
        pair.set(start);
        let loaded = pair.ask(&Call::Load { label: LABEL, text });
        assert_eq!(closed, loaded, "{}", text.escape_ascii());
        assert!(held == in_use(pair.words()), "{}", text.escape_ascii());
    }
    closed
}
