//! The part of the script that is about strings: captions fetched by place, both kinds under one
//! name, their faults and their room, removals before them, and their damages.

use twin::layout::{pair, HEADS_AT, STRINGS_AT, STRING_TOTAL, TEXTS_AT, VALUES_AT};
use twin::limits::{STRING_BYTES, STRING_ROOM, VALUES};

use super::script::{data, Change, Script};

/// The longest string, and room that is longer.
const SIXTY: usize = STRING_BYTES;
const MORE: usize = STRING_BYTES + 4;

/// The bytes of the strings that damages are tried on, eight to a word; the last two are not in
/// use.
const HELD: [&[u8; 8]; 3] = [b"Marsit's", b" redcapt", b"ionabc\xA5\xA5"];
const HELD_BYTES: u64 = 22;

pub fn add(s: &mut Script) {
    captions(s);
    lengths(s);
    both_kinds(s);
    text_faults(s);
    string_room(s);
    value_room(s);
    removals(s);
    gaps(s);
    damages(s);
}

/// Strings by their places, in buffers that are exact, longer and short.
fn captions(s: &mut Script) {
    s.empty();
    s.load(
        1,
        &data("X = ( 'Olympus Mons' '' 'Herschel''s map' '\ttab (,) ' )\nY = ''''\nN = 1"),
    );
    s.load(2, &data("X += ( '''' , 'a''' '''a''b'\n'''''' )"));
    for place in 0..=9 {
        s.quoted(SIXTY, place, "X");
        s.quoted(0, place, "X");
    }
    for room in [1, 11, 12, 13, MORE] {
        s.quoted(room, 1, "X");
    }
    for place in [2, 10, (1 << 32) + 1, u32::MAX as usize] {
        s.quoted(SIXTY, place, "Y");
        s.quoted(SIXTY, place, "N");
    }
    for name in ["X", "Y", "N"] {
        s.fetch(9, name);
        s.fetch(0, name);
        s.quoted(1, 1, name);
        s.quoted(0, 1, name);
    }
    for name in ["", " ", "x", "X ", "XX", "X X", "NONE"] {
        s.quoted(SIXTY, 1, name);
        s.quoted(0, 0, name);
    }
    s.totals();
    s.clear();
    s.quoted(SIXTY, 1, "X");
}

/// Strings of every length about a word's bytes and about the limit.
fn lengths(s: &mut Script) {
    for (label, byte) in ["c", "''", "\t"].into_iter().enumerate() {
        s.empty();
        for length in [0, 1, 7, 8, 9, 15, 16, 17, 58, 59, 60, 61] {
            let label = (100 * label + length) as u32;
            s.load(label, &data(&format!("X += '{}'", byte.repeat(length))));
        }
        for place in 1..=12 {
            s.quoted(SIXTY, place, "X");
            s.quoted(SIXTY - 1, place, "X");
        }
        s.totals();
    }
}

/// Numbers and strings under one name, by appending and by replacing.
fn both_kinds(s: &mut Script) {
    s.empty();
    s.load(1, &data("X = ( 1 2 )\nY = 'a'"));
    read(s);
    s.load(2, &data("X += 'b'\nY += 3"));
    read(s);
    s.load(3, &data("X = ( 'c' 'd' )\nY = ( 4 5 )"));
    read(s);
    s.load(4, &data("X += 6\nY += 'e'\nX = 'f'\nY = 7"));
    read(s);
    s.remove(3);
    read(s);
    s.remove(4);
    read(s);
    s.remove(1);
    read(s);
    s.load(1, &data("X = 'g'\nX += ( 'h' 'i' )\nY += ( 8 9 )"));
    read(s);
    s.remove(2);
    read(s);
}

/// All that can be read of X and Y, in buffers of enough room and of none.
fn read(s: &mut Script) {
    s.totals();
    for name in ["X", "Y"] {
        for room in [SIXTY, 0] {
            s.fetch(room, name);
            for place in 0..=4 {
                s.quoted(room, place, name);
            }
        }
    }
}

/// Strings that are refused, and where.
fn text_faults(s: &mut Script) {
    s.empty();
    s.load(1, &data("X = 'held'"));
    for lines in [
        "X = 'a",
        "X = '",
        "X = '''",
        "X = 'a''",
        "X = 'a'b",
        "X = 'a'1",
        "X = 'a''b'c'",
        "X = 'a')",
        "X = 'a'(",
        "X = 'a',",
        "X = 'a' 'b'",
        "X = 1'a'",
        "X = +'a'",
        "X = ( 'a'\n\n'b\n)",
        "X = ( 'a'\n1 )",
        "X = ( 1\n2\n'a' )",
        "X = ( 'a' 1E99 )",
        "X = ( 'a'\n1E99 )",
        "X = ( 1E99 'a' )",
        "X = ( 'a'('b'))",
        "X = ( 'a'\n\\begintext\n'b' )",
        "X = ( 'a'",
        "Y = 'b'\nX = 'a\u{1}'",
        "Y = 'b'\nX = '\u{e9}'",
        "Y = 'b'\nX = 'a\r'\n",
    ] {
        s.load(2, &data(lines));
    }
    s.load(2, &data(&format!("X = '{}' 1E99", "x".repeat(61))));
    s.load(
        2,
        &data(&format!("X = '{}{}'", "x".repeat(59), "''".repeat(2))),
    );
    s.load(
        2,
        &data(&format!("X = '{}'{}", "''".repeat(60), " ".repeat(7))),
    );
    s.load(
        2,
        &data(&format!("X = '{}'{}", "''".repeat(60), " ".repeat(6))),
    );
    s.totals();
    s.quoted(SIXTY, 1, "X");
}

/// 8,192 bytes of strings and one more, in one text and in several.
fn string_room(s: &mut Script) {
    s.empty();
    s.load(1, &strings(STRING_ROOM + 1));
    s.load(1, &strings(5000));
    s.load(2, &strings(3193));
    s.load(2, &strings(3192));
    s.load(3, &strings(1));
    s.load(3, &data("E = ( '' '' )\nN = 1"));
    for place in [1, 84, 85, 137, 138, 139] {
        s.quoted(SIXTY, place, "C");
    }
    s.quoted(0, 2, "E");
    s.totals();
    s.remove(2);
    s.load(4, &strings(3191));
    s.load(5, &strings(2));
    s.load(5, &data("C = ''''"));
    s.load(6, &strings(1));
    s.quoted(SIXTY, 1, "C");
    s.remove(1);
    s.quoted(SIXTY, 1, "C");
    s.remove(5);
    s.quoted(SIXTY, 54, "C");
    s.totals();
}

/// 3,072 values, most of them strings, and one more.
fn value_room(s: &mut Script) {
    let strings = "'' '' '' ''\n".repeat(VALUES / 4 - 1);
    s.empty();
    s.load(1, &data(&format!("E = (\n{strings})")));
    s.load(2, &data("V = ( 1 2 3 4 5 )"));
    s.load(2, &data("V = ( 'a' 'b' 'c' 'd' 'e' )"));
    s.load(2, &data("V = ( 'a' 'b' 'c' 'd' )"));
    s.load(3, &data("V = 1"));
    s.load(3, &data("V = ''"));
    s.totals();
    s.quoted(0, VALUES - 4, "E");
    s.quoted(0, VALUES - 3, "E");
    s.quoted(SIXTY, 4, "V");
}

/// The first, a middle and the last text taken out, strings before and behind it.
fn removals(s: &mut Script) {
    for gone in 1..=4 {
        s.empty();
        s.load(1, &data("X = ( 'first' 'text' )\nY = 13"));
        s.load(2, &data("Y += ( 21 22 )\nX += ( 'second' '' 'it''s' )"));
        s.load(3, &data("Y = 31"));
        s.load(4, &data("Z = 'fourth'\nX += ( 'caption' 'of the map' )"));
        s.remove(gone);
        read_strings(s);
        s.load(gone, &data("Z = ( 'again' '' )\nX += 'last'"));
        read_strings(s);
        s.remove(1 + gone % 4);
        read_strings(s);
    }
}

fn read_strings(s: &mut Script) {
    s.totals();
    s.fetch(9, "Y");
    for (name, places) in [("X", 8), ("Z", 3)] {
        for place in 1..=places {
            s.quoted(SIXTY, place, name);
        }
    }
}

/// Gaps of every kind: what stands before them and what is taken out ends anywhere in a word.
fn gaps(s: &mut Script) {
    for before in 0..=8 {
        for taken in [1, 5, 8, 11, 16] {
            s.empty();
            s.load(1, &data(&format!("A = '{}'", &"before__"[..before])));
            s.load(
                2,
                &data(&format!("B = '{}'", &"taken out of here"[..taken])),
            );
            s.load(3, &data("C = ( 'abcdefg' 'hijklmnopqrstuv' 'wxyz' )"));
            s.remove(2);
            s.quoted(SIXTY, 1, "A");
            s.quoted(SIXTY, 1, "C");
            s.quoted(SIXTY, 3, "C");
        }
    }
}

/// One damage for each condition on strings, and neighbours that are none.
fn damages(s: &mut Script) {
    s.empty();
    s.load(7, &data("X = ( 'Mars' '' 'it''s red' )\nN = 1"));
    s.load(8, "");
    s.load(9, &data("X += 'caption'\nY = ( 'a' 'bc' )"));
    s.word(STRINGS_AT + 2, word(HELD[2]));
    read_held(s);

    damaged_totals(s);
    damaged_lengths(s);
    damaged_heads(s);
    damaged_bytes(s);

    s.remove(8);
    s.remove(7);
    read_held(s);
    s.word(STRING_TOTAL, HELD_BYTES);
    s.ask_all();
    s.empty();
    read_held(s);
}

fn read_held(s: &mut Script) {
    s.totals();
    s.fetch(9, "N");
    s.fetch(9, "X");
    for (name, places) in [("X", 4), ("Y", 2)] {
        for place in 1..=places {
            s.quoted(SIXTY, place, name);
        }
    }
}

/// Words that do not damage the pool, and the words as they were.
fn neighbour(s: &mut Script, changes: &[Change]) {
    s.write(changes);
    read_held(s);
    s.restore(changes);
}

fn damaged_totals(s: &mut Script) {
    for total in [
        0,
        HELD_BYTES - 1,
        HELD_BYTES + 1,
        STRING_ROOM as u64,
        STRING_ROOM as u64 + 1,
        HELD_BYTES + (1 << 32),
        HELD_BYTES + (1 << 63),
        u64::MAX,
    ] {
        s.damage(&[(STRING_TOTAL, total, HELD_BYTES)]);
    }
}

fn damaged_lengths(s: &mut Script) {
    let lengths = [(0, 4), (1, 0), (2, 8), (4, 7), (5, 1), (6, 2)];
    for (place, length) in lengths {
        let at = VALUES_AT + place;
        s.damage(&[(at, length + 1, length)]);
        s.damage(&[(at, length + (1 << 32), length)]);
        s.damage(&[(at, length ^ 1, length)]);
    }
    let [first, second] = [VALUES_AT, VALUES_AT + 1];
    neighbour(s, &[(first, 0, 4), (second, 4, 0)]);
    neighbour(s, &[(first, 5, 4), (VALUES_AT + 4, 6, 7)]);
    // Lengths that add up but for 2^64.
    s.damage(&[(first, u64::MAX, 4), (second, 5, 0)]);
    s.damage(&[(first, (1 << 63) + 4, 4), (second, 1 << 63, 0)]);
    // A string of 60 bytes and one of 61, all of them spaces.
    let spaces = word(b"        ");
    s.word(STRINGS_AT + 2, word(b"ionabc  "));
    for at in STRINGS_AT + 3..STRINGS_AT + 10 {
        s.word(at, spaces);
    }
    let total = |first: u64| HELD_BYTES - 4 + first;
    neighbour(s, &[(first, 60, 4), (STRING_TOTAL, total(60), HELD_BYTES)]);
    s.damage(&[(first, 61, 4), (STRING_TOTAL, total(61), HELD_BYTES)]);
    s.word(STRINGS_AT + 2, word(HELD[2]));
}

fn damaged_heads(s: &mut Script) {
    let heads = [pair(2, 3), pair(0, 1), pair(3, 1), pair(2, 2)];
    let at = [HEADS_AT, HEADS_AT + 1, HEADS_AT + 2, HEADS_AT + 3];
    for code in [0, 1, 4, 5, 6, 7, 1 << 8, 1 << 31, u32::MAX] {
        s.damage(&[(at[0], pair(code, 3), heads[0])]);
        s.damage(&[(at[2], pair(code, 1), heads[2])]);
    }
    for code in [2, 3, 4, 6] {
        s.damage(&[(at[1], pair(code, 1), heads[1])]);
    }
    for (place, code, count) in [(0, 3, 3), (1, 1, 1), (2, 2, 1), (3, 3, 2)] {
        neighbour(s, &[(at[place], pair(code, count), heads[place])]);
    }
    for count in [0, 2, 4] {
        s.damage(&[(at[0], pair(2, count), heads[0])]);
    }
    // The value between strings changes its kind together with all that belongs to it.
    neighbour(
        s,
        &[
            (at[0], pair(0, 3), heads[0]),
            (STRING_TOTAL, 10, HELD_BYTES),
        ],
    );
    let one = 1.0f64.to_bits();
    neighbour(s, &[(at[1], pair(2, 1), heads[1]), (VALUES_AT + 3, 0, one)]);
    // A text that ends between strings.
    neighbour(
        s,
        &[
            (TEXTS_AT, pair(7, 3), pair(7, 2)),
            (TEXTS_AT + 2, pair(9, 1), pair(9, 2)),
        ],
    );
    s.damage(&[(TEXTS_AT, pair(7, 3), pair(7, 2))]);
}

fn damaged_bytes(s: &mut Script) {
    for (place, byte) in [(0, 0), (0, 7), (1, 3), (2, 0), (2, 5)] {
        let (at, held) = (STRINGS_AT + place, word(HELD[place]));
        for bad in [0, 1, 8, 10, 13, 31, 127, 128, 160, 255] {
            s.damage(&[(at, with_byte(held, byte, bad), held)]);
        }
        for good in [9, 32, 39, 40, 126] {
            neighbour(s, &[(at, with_byte(held, byte, good), held)]);
        }
    }
    let (at, held) = (STRINGS_AT + 2, word(HELD[2]));
    for any in [0, 10, 127, 255] {
        neighbour(s, &[(at, with_byte(held, 6, any), held)]);
        s.word(STRINGS_AT + 3, with_byte(u64::MAX, 0, any));
        s.totals();
    }
}

fn word(bytes: &[u8; 8]) -> u64 {
    u64::from_be_bytes(*bytes)
}

/// A word with another byte at a place, counted from its highest one.
fn with_byte(word: u64, place: usize, byte: u8) -> u64 {
    let mut bytes = word.to_be_bytes();
    bytes[place] = byte;
    u64::from_be_bytes(bytes)
}

/// A text of strings with so many bytes together, each of 60 but the last.
fn strings(bytes: usize) -> String {
    let mut text = data("C += (\n");
    let mut left = bytes;
    while left > 0 {
        let length = left.min(SIXTY);
        let string: String = (0..length).map(|i| byte_of(left + i)).collect();
        text.push_str(&format!("'{string}'\n"));
        left -= length;
    }
    text.push(')');
    text
}

/// Letters that tell strings and places apart.
fn byte_of(place: usize) -> char {
    char::from(b"abcdefghijklmnopqrstuvw"[place % 23])
}
