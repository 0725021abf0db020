//! The part of the script that is about texts in parts, K5 of document 02.

use twin::layout::{
    pair, BYTE_COUNT, CR_WAITS, FAULT, FAULT_LINE, FAULT_PLACE, HEADS_AT, KEPT_AT, KEPT_LENGTH,
    LAST_LENGTH, LINES, NAMES_AT, NAME_WORDS, OPEN, OPEN_STRING_BYTES, OPEN_VALUES, READER,
    STRINGS_AT, TEXTS_AT, VALUES_AT, WAY,
};
use twin::limits::{KEPT_BYTES, LINE_BYTES, PARTS_BYTES, STATEMENTS, TEXTS};

use super::random::Random;
use super::script::{data, Change, Script};

/// How many calls are mixed at the end.
const MIXTURES: usize = 150;

/// A text with all that may be cut: a delimiter, line ends, a list, strings.
const CUT: &str = "a\n \\begindata\r\nX = (\r\n1,2)\nY += 'it''s'\n";

pub fn add(s: &mut Script) {
    s.empty();
    cuts(s);
    byte_by_byte(s);
    long_lines(s);
    order(s);
    dropped(s);
    texts_held(s);
    no_room(s);
    too_long(s);
    damages(s);
    meanings(s);
    mixtures(s);
}

/// Opens a text, feeds it with these parts and closes it.
fn fed<'a>(s: &mut Script, parts: impl IntoIterator<Item = &'a str>) {
    s.open(9);
    for part in parts {
        s.feed(part);
    }
    s.close();
}

/// A text is cut at every byte.
fn cuts(s: &mut Script) {
    s.load(1, &data("X = ( 8 9 )\nY = 'caption'"));
    for cut in 0..=CUT.len() {
        let (first, second) = CUT.split_at(cut);
        fed(s, [first, second]);
        s.fetch(2, "X");
        s.remove(9);
    }
    s.clear();
}

/// Texts of each outcome, a byte at a time.
fn byte_by_byte(s: &mut Script) {
    for lines in [
        "",
        "\r",
        "X = (\n\n0\n)",
        "X = (\n''\n'a')\r",
        "X = (\n)",
        "X = (\n",
        "X = ( 1\n\\begintext",
        "X = 1E23\n?\n",
        "X = 1,\n?",
        "X\n= 1",
        "X = 1\n 'X'",
        "X = ( 1 'a' )",
        "X = 1\u{1}\r",
    ] {
        let text = data(lines);
        let (start, rest) = text.split_at(8);
        fed(s, std::iter::once(start).chain(letters(rest)));
        s.totals();
        s.remove(9);
    }
}

fn letters(text: &str) -> impl Iterator<Item = &str> {
    text.split_inclusive(|_: char| true)
}

/// Delimiters among more blanks than are kept, and data lines about the limit.
fn long_lines(s: &mut Script) {
    let blanks = " ".repeat(KEPT_BYTES);
    let note = "x".repeat(2 * KEPT_BYTES);
    for parts in [
        &[&blanks[..], "\\begin", "data\n?"][..],
        &[&blanks, "\\begin", "data.\n?"],
        &["\\begintext", &blanks, "\r\n"],
        &["\\begintext", &blanks, "\r"],
        &["\\begintext", &blanks, "\t.\t", "\n"],
        &[&blanks[..KEPT_BYTES - 6], "\\begin", " data\n?"],
        &[&note, "\n\\begindata\nX = 1"],
        &["\\begindata\nX = 1", &blanks[..LINE_BYTES - 5], "\r", "\n"],
        &["\\begindata\nX = 1", &blanks[..LINE_BYTES - 5], "\r"],
        &["\\begindata\nX = 1", &blanks[..LINE_BYTES - 4], "\n"],
    ] {
        fed(s, parts.iter().copied());
        s.remove(9);
    }
}

/// Which refusal comes first, with a text open and with none.
fn order(s: &mut Script) {
    s.load(7, &data("X = 1"));
    s.feed("");
    s.close();
    s.drop();
    s.open(7);
    s.open(9);
    s.feed(&data("X = 2\nX = ( 'open'\n"));
    for label in [7, 9, 10] {
        s.open(label);
        s.load(label, "?");
        s.remove(label);
    }
    s.clear();
    s.totals();
    s.fetch(2, "X");
    s.quoted(9, 1, "X");
    s.feed(")");
    s.close();
    s.quoted(9, 1, "X");
    s.totals();
    s.clear();
}

/// A dropped text was never there, and make empty drops too.
fn dropped(s: &mut Script) {
    s.load(7, &data("X = 1"));
    s.open(9);
    s.feed(&data("X = 2\nC = 'gone'\nZ = ("));
    s.drop();
    s.drop();
    s.totals();
    s.load(9, &data("X += 3"));
    s.fetch(2, "X");
    s.open(10);
    s.feed("\\begindata");
    s.empty();
    s.feed("\n");
    s.totals();
    fed(s, ["\nX = 1"]);
    s.clear();
}

/// With sixteen texts held a text is opened and fed, and has no room at its closing.
fn texts_held(s: &mut Script) {
    for label in 100..100 + TEXTS as u32 {
        s.load(label, &data("X += 1"));
    }
    for lines in ["X = 2\nY = 3", "X = ?\n", "X = (\n"] {
        fed(s, [&data(lines)[..]]);
    }
    fed(s, []);
    s.totals();
    s.clear();
}

/// A line without room, and what is told of the lines after it.
fn no_room(s: &mut Script) {
    s.load(1, &data(&"A=1\n".repeat(STATEMENTS)));
    for lines in [
        "X = 1\nY = 'a'\n",
        "X = 1",
        "X = (\n",
        "X = 1\nY = ( 1\n",
        "X = 1\nY = ( 1\n'a' )\n",
        "X = 1\n?\n",
        "X = 1\n\\begintext\n?",
    ] {
        fed(s, [&data(lines)[..]]);
    }
    s.totals();
    s.clear();
}

/// The number of bytes is set near the limit, then the last ones are fed.
fn too_long(s: &mut Script) {
    for lines in ["X = 1\n", "X = 1\nX = ?\n"] {
        for parts in [
            ["Y", " = 1"],
            ["Y", " = 12"],
            ["Y = 1", "\n"],
            ["\n\n\n\n\n\n", "?"],
        ] {
            s.open(9);
            s.feed(&data(lines));
            s.word(BYTE_COUNT, PARTS_BYTES as u64 - 5);
            for part in parts {
                s.feed(part);
            }
            s.feed("");
            s.close();
            s.totals();
            s.clear();
        }
    }
}

/// Opens a text beside a held one and feeds it, in the middle of a list of strings.
fn half_open(s: &mut Script) {
    s.load(7, &data("X = ( 1 2 )\nY = 'caption'"));
    s.open(9);
    s.feed(&data("Z = 3\nC = ( 'one'\n'two'\n  "));
}

/// One damage for each condition on an open text, and neighbours that are none.
fn damages(s: &mut Script) {
    half_open(s);
    let most = PARTS_BYTES as u64;
    let [statement, name, value] = [HEADS_AT + 2, NAMES_AT + 2 * NAME_WORDS, VALUES_AT + 3];
    let changes: &[Change] = &[
        (OPEN_VALUES, 2, 3),
        (OPEN_VALUES, 4, 3),
        (OPEN_VALUES, u64::MAX, 3),
        (OPEN_STRING_BYTES, 5, 6),
        (OPEN_STRING_BYTES, u64::MAX, 6),
        (TEXTS_AT + 1, pair(7, 2), pair(9, 2)),
        (TEXTS_AT + 1, pair(9, 1), pair(9, 2)),
        (TEXTS_AT + 1, pair(9, 3), pair(9, 2)),
        (TEXTS_AT + 1, pair(9, u32::MAX), pair(9, 2)),
        (statement, 0, 1),
        (statement, pair(4, 1), 1),
        (name, 0, u64::from(b'Z') << 56),
        (value, f64::INFINITY.to_bits(), 3.0f64.to_bits()),
        (value + 1, 61, 3),
        (STRINGS_AT, word(b"caption\n"), word(b"captiono")),
        (KEPT_LENGTH, KEPT_BYTES as u64 + 1, 2),
        (KEPT_LENGTH, u64::MAX, 2),
        (BYTE_COUNT, most + 2, 37),
        (BYTE_COUNT, u64::MAX, 37),
    ];
    for change in changes {
        s.damage(&[*change]);
    }
    for change in [
        (OPEN, u64::MAX, 1),
        (TEXTS_AT + 1, pair(u32::MAX, 2), pair(9, 2)),
        (KEPT_LENGTH, KEPT_BYTES as u64, 2),
        (BYTE_COUNT, most + 1, 37),
        // None open: the words of an open text are not looked at.
        (OPEN, 0, 1),
    ] {
        s.write(&[change]);
        s.totals();
        s.drop();
        s.restore(&[change, (OPEN, 0, 1)]);
    }
    s.drop();
    s.clear();
}

fn word(bytes: &[u8; 8]) -> u64 {
    u64::from_be_bytes(*bytes)
}

/// Every content of the other words has a meaning.
fn meanings(s: &mut Script) {
    for (index, words) in [
        (WAY, &[1, 2, 3, u64::MAX][..]),
        (READER, &[0, 1, 2, 3, 5, u64::MAX]),
        (LINES, &[PARTS_BYTES as u64 + 1, PARTS_BYTES as u64 + 2]),
        (LAST_LENGTH, &[133, 134]),
        (CR_WAITS, &[1, 2, u64::MAX]),
        (KEPT_AT, &[u64::MAX, 0]),
    ] {
        for word in words {
            for part in ["", "'x' )\nQ = (\n"] {
                half_open(s);
                s.word(index, *word);
                s.feed(part);
                s.close();
                s.totals();
                s.clear();
            }
        }
    }
    for fault in 0..9 {
        half_open(s);
        for (index, word) in [
            (WAY, 2),
            (FAULT, fault),
            (FAULT_LINE, 4_194_300 + fault),
            (FAULT_PLACE, 130 + fault),
        ] {
            s.word(index, word);
        }
        s.feed("?\n");
        s.close();
        s.clear();
    }
}

/// Calls in no order, over few labels, texts and parts.
fn mixtures(s: &mut Script) {
    let parts = [
        "",
        "\n",
        "\r",
        "\\begindata\n",
        "\\begintext\r\n",
        "X = 1\n",
        "X += ( 2\n3 )\n",
        "Y = ( 'a'",
        " 'b' )\n",
        "Y += (\n",
        "0 )\n",
        "X",
        " = 4",
        "?\n",
    ];
    let labels = [0, 1, 2, u32::MAX];
    let mut random = Random(16);
    for _ in 0..MIXTURES {
        match random.below(24) {
            0..=3 => s.open(random.one(&labels)),
            4..=13 => s.feed(random.one(&parts)),
            14..=16 => s.close(),
            17 => s.drop(),
            18 => s.load(random.one(&labels), &data("X += 5")),
            19 => s.remove(random.one(&labels)),
            20 | 21 => s.fetch(9, random.one(&["X", "Y"])),
            22 => s.quoted(9, 1, "Y"),
            _ => match random.below(6) {
                0 => s.empty(),
                1 => s.clear(),
                _ => s.totals(),
            },
        }
    }
    s.empty();
}
