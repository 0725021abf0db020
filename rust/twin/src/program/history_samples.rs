//! The script that pools are compared on: every call, every refusal on both sides of its limit,
//! every damage with its accepted neighbour, removals in every place, and mixtures of all that.

use twin::layout::{
    pack_name, pair, HEADS_AT, NAMES_AT, NAME_WORDS, STATEMENT_TOTAL, STRINGS_AT, STRING_TOTAL,
    TEXTS_AT, TEXT_TOTAL, VALUES_AT, VALUE_TOTAL, WORDS,
};
use twin::limits::{LINE_BYTES, STATEMENTS, STRING_ROOM, TEXTS, TEXT_BYTES, VALUES};

use super::history_degrees;
use super::history_numbers;
use super::history_parts;
use super::history_strings;
use super::random::Random;
use super::script::{data, Change, Script};

/// How many calls are mixed at the end.
const MIXTURES: usize = 400;

/// A name of 32 bytes.
const LONG: &str = "BODY499_ABCDEFGHIJKLMNOPQRSTUV_9";

/// The values of the pool that damages are tried on, and its bits that are tried as values.
const HELD_VALUES: usize = 7;
const LARGEST_VALUE: u64 = 0x4C6F_FFFF_FFFF_FFFF;
const SIGN: u64 = 1 << 63;

/// The whole script.
pub fn script() -> Vec<u8> {
    let mut script = Script { bytes: Vec::new() };
    start(&mut script);
    variables(&mut script);
    fetches(&mut script);
    removals(&mut script);
    text_faults(&mut script);
    text_lengths(&mut script);
    text_room(&mut script);
    statement_room(&mut script);
    value_room(&mut script);
    all_room(&mut script);
    damages(&mut script);
    history_strings::add(&mut script);
    history_numbers::add(&mut script);
    history_degrees::add(&mut script);
    history_parts::add(&mut script);
    radii(&mut script);
    mixtures(&mut script);
    script.bytes
}

/// Memory that is no pool yet, and memory of another size.
fn start(s: &mut Script) {
    s.ask_all();
    for size in [0, 1, 3, 4, WORDS - 1, WORDS + 1, WORDS + 49] {
        s.size(size);
        s.empty();
        s.ask_all();
    }
    s.size(WORDS);
    s.ask_all();
    s.empty();
    s.totals();
    s.fetch(4, "X");
    s.remove(0);
    s.clear();
    s.empty();
    s.totals();
}

/// Direct and appending statements, within a text and over several.
fn variables(s: &mut Script) {
    s.empty();
    s.load(1, &data("X = 1\nX += 2"));
    s.fetch(2, "X");
    s.load(2, &data("X += 2\nX = 1"));
    s.fetch(2, "X");
    s.clear();
    s.load(7, &data("X = 1"));
    s.load(8, &data("X = 2"));
    s.fetch(9, "X");
    s.remove(8);
    s.fetch(9, "X");
    s.load(9, &data("X += ( 3 4 )\nY += 5"));
    s.load(10, &data("Y += 6\nX += 7"));
    s.load(11, "");
    s.load(12, "X = 9\n");
    s.load(13, &data("x = -0\nY += ( 8, 9, 10 )"));
    s.fetch(9, "X");
    s.fetch(9, "Y");
    s.fetch(9, "x");
    s.totals();
    s.remove(7);
    s.fetch(9, "X");
    s.load(7, &data("X = 1"));
    s.fetch(9, "X");
    s.remove(9);
    s.fetch(9, "X");
    s.fetch(9, "Y");
    s.remove(7);
    s.fetch(9, "X");
    s.remove(10);
    s.fetch(9, "X");
    s.fetch(9, "Y");
    s.remove(11);
    s.remove(12);
    s.remove(13);
    s.totals();
    s.load(
        0,
        &data("A = 1\nB = 2\nA += 3\nB = 4\nA += ( 5 6 )\nB += 7"),
    );
    s.load(u32::MAX, &data("A += 8\nB += 9"));
    s.fetch(9, "A");
    s.fetch(9, "B");
    s.clear();
    s.totals();
}

/// Room that is exact, larger and short; names that are and that are not held.
fn fetches(s: &mut Script) {
    s.empty();
    s.load(
        1,
        &data(&format!("X = ( 1 2 3 )\n{LONG} = 4\nX8_BYTES = 5\nX += -0")),
    );
    for room in [0, 1, 3, 4, 5, 100] {
        s.fetch(room, "X");
    }
    s.fetch(0, LONG);
    s.fetch(1, LONG);
    s.fetch(1, "X8_BYTES");
    for name in [
        "",
        " ",
        "x",
        "X ",
        " X",
        "X X",
        "XX",
        "X=",
        "X8_BYTE",
        "X8_BYTES_",
        "X8",
        "NONE",
        "BODY499_",
    ] {
        s.fetch(8, name);
        s.fetch(0, name);
    }
    s.fetch(8, &LONG[..31]);
    s.fetch(8, &format!("{LONG}_"));
    s.fetch(8, &format!("{LONG}{LONG}"));
    s.clear();
    s.fetch(8, "X");
    s.fetch(8, "");
}

/// The first, a middle and the last text taken out; loaded again, a text stands last.
fn removals(s: &mut Script) {
    for gone in 1..=4 {
        s.empty();
        s.load(1, &data("X = ( 11 12 )\nY = 13"));
        s.load(2, &data("Y += ( 21 22 23 )"));
        s.load(3, "no statement");
        s.load(4, &data("Z = 41\nX += ( 42 43 44 45 )\nY = 46"));
        s.remove(gone);
        s.remove(gone);
        for name in ["X", "Y", "Z"] {
            s.fetch(9, name);
        }
        s.totals();
        s.load(gone, &data("X = 51\nY += 52"));
        for name in ["X", "Y", "Z"] {
            s.fetch(9, name);
        }
        s.remove(5);
        s.totals();
    }
}

/// Refusals of a load's text, and which of them comes first.
fn text_faults(s: &mut Script) {
    let long_line = "x".repeat(LINE_BYTES + 1);
    let long_delimiter = format!("{}\\begindata", " ".repeat(LINE_BYTES));
    s.empty();
    s.load(1, &data("X = 1"));
    for text in [
        data(&long_line),
        format!("{long_line}\n{long_delimiter}\nX = 2"),
        data(&format!("X = ( 2\n{long_delimiter}")),
        data("X = 1 \u{1}"),
        data("X = ("),
        data("X = ( )"),
        data("X = 1E23"),
        data("X = 10000000000000000000"),
        data("X = 2\nY = 3\nZ = ?"),
        data("X = 2\nY = 3\nZ = ( 1 2\n3 1E99 )"),
        data("X = 2\n\n\nX = ( 1\n\n\n"),
        data("X = 1E99 \u{1}"),
        data("X = 2\n \t'Y' = 3"),
        data(&format!("X = 2\n{LONG}9 = 3")),
        data("X = 2\r\nY  -Z = 3"),
        data("X = 2\nY  \t"),
        data("X = 2\n\tY = (3 (4))"),
        data("X = 2\nY =   \r\n3"),
        data("X = 2\nY = ( 3\n  \\begintext\n)"),
        data("X = ( 2 3 4 \r\n"),
        data("X = ( 2\n3 ) \t 4"),
        data("X = 2,"),
    ] {
        s.load(2, &text);
        s.load(1, &text);
        s.totals();
    }
    s.fetch(9, "X");
    s.load(1, &data("X = 1"));
    s.load(1, "");
    s.load(3, &format!("{}\n{}", long_line.repeat(20), data("X = 3")));
    s.fetch(9, "X");
    s.load(
        2,
        &data("X = ( 9007199254740992 9007199254740993 )\nX += 1E22\nX += 1.0E23\nX += 270.000"),
    );
    s.fetch(9, "X");
}

/// Texts of 65,536 bytes and one more.
fn text_lengths(s: &mut Script) {
    let statement = data("X = 1\n");
    let line = format!("{}\n", "note ".repeat(15));
    let mut longest = line.repeat((TEXT_BYTES - statement.len()) / line.len());
    longest.push_str(&"\n".repeat(TEXT_BYTES - statement.len() - longest.len()));
    longest.push_str(&statement);
    s.empty();
    s.load(1, &longest);
    s.fetch(1, "X");
    let longer = format!("{}\n", "?".repeat(TEXT_BYTES));
    s.load(2, &longer);
    s.totals();
}

/// Sixteen texts and a seventeenth.
fn text_room(s: &mut Script) {
    s.empty();
    for label in 1..=TEXTS as u32 {
        let text = match label % 3 {
            0 => String::new(),
            1 => data("X += 1"),
            _ => data(&format!("X += ( {label} 0 )\nY = {label}")),
        };
        s.load(label, &text);
    }
    s.totals();
    s.load(17, "");
    s.load(17, &data("X = 1"));
    s.load(17, &data("X = ?"));
    s.load(16, "");
    s.fetch(32, "X");
    s.fetch(32, "Y");
    s.remove(5);
    s.load(17, &data("X = 5"));
    s.load(18, "");
    s.remove(1);
    s.remove(17);
    s.load(18, "");
    s.load(1, &data("X += 6"));
    s.load(5, "");
    s.fetch(32, "X");
    s.totals();
    s.clear();
    s.load(5, "");
    s.totals();
}

/// 512 statements and one more.
fn statement_room(s: &mut Script) {
    s.empty();
    s.load(1, &statements(STATEMENTS + 1));
    s.load(1, &statements(STATEMENTS));
    s.load(2, &statements(1));
    s.load(2, "");
    s.totals();
    s.fetch(STATEMENTS, "A");
    s.remove(1);
    s.load(1, &statements(STATEMENTS - 1));
    s.load(3, &statements(2));
    s.load(3, &statements(1));
    s.load(4, &statements(1));
    s.totals();
    s.remove(3);
    s.load(4, &statements(1));
    s.clear();
    s.load(1, &statements(500));
    s.load(2, &statements(13));
    s.load(2, &statements(12));
    s.totals();
    s.remove(1);
    s.totals();
}

/// 3,072 values and one more.
fn value_room(s: &mut Script) {
    s.empty();
    s.load(1, &values(VALUES + 1));
    s.load(1, &values(VALUES));
    s.fetch(VALUES - 1, "V");
    s.fetch(VALUES, "V");
    s.load(2, &values(1));
    s.load(2, "");
    s.totals();
    s.remove(1);
    s.load(1, &values(VALUES - 1));
    s.load(3, &values(2));
    s.load(3, &values(1));
    s.load(4, &values(1));
    s.totals();
    s.clear();
    s.load(1, &values(3000));
    s.load(2, &values(73));
    s.load(2, &values(72));
    s.totals();
    s.remove(1);
    s.fetch(72, "V");
    s.totals();
}

/// All three limits reached together.
fn all_room(s: &mut Script) {
    let statements = STATEMENTS / TEXTS;
    let values = VALUES / STATEMENTS;
    s.empty();
    for text in 0..TEXTS {
        let lines: String = (0..statements)
            .map(|i| format!("S{} = ({})\n", text * statements + i, " 1".repeat(values)))
            .collect();
        s.load(text as u32, &data(&lines));
    }
    s.totals();
    s.fetch(values, "S0");
    s.fetch(values, "S511");
    s.load(99, "");
    s.load(99, &data("X = 1"));
    s.remove(0);
    s.remove(15);
    s.remove(7);
    s.totals();
    s.fetch(values, "S0");
    s.fetch(values, "S32");
    s.fetch(values, "S479");
    s.clear();
}

/// One damage for each condition, and neighbours that are none.
fn damages(s: &mut Script) {
    let texts = [pair(7, 2), pair(8, 0), pair(9, 2)];
    let heads = [pair(0, 3), pair(0, 1), pair(1, 1), pair(0, 2)];
    s.empty();
    s.load(7, &data(&format!("X = ( 1 2 3 )\n{LONG} = 4")));
    s.load(8, "");
    s.load(9, &data("X += 5\nY = ( 6 7 )"));
    read_all(s);

    damaged_totals(s);
    damaged_texts(s, &texts);
    damaged_heads(s, &heads);
    damaged_names(s);
    tried_values(s);
    unused_words(s);

    s.remove(8);
    s.remove(7);
    read_all(s);
    s.word(TEXT_TOTAL, u64::MAX);
    s.ask_all();
    s.empty();
    read_all(s);
}

/// Everything that can be read of the pool that damages are tried on.
fn read_all(s: &mut Script) {
    s.totals();
    s.fetch(9, "X");
    s.fetch(9, LONG);
    s.fetch(9, "Y");
}

/// Words that do not damage the pool, and the words as they were.
fn neighbour(s: &mut Script, changes: &[Change]) {
    s.write(changes);
    read_all(s);
    s.restore(changes);
}

fn damaged_totals(s: &mut Script) {
    for (index, total, limit) in [
        (TEXT_TOTAL, 3, TEXTS),
        (STATEMENT_TOTAL, 4, STATEMENTS),
        (VALUE_TOTAL, HELD_VALUES as u64, VALUES),
    ] {
        let limit = limit as u64;
        for damage in [
            limit + 1,
            limit,
            total - 1,
            total + 1,
            0,
            total + (1 << 32),
            total + SIGN,
            u64::MAX,
        ] {
            s.damage(&[(index, damage, total)]);
        }
    }
    for damage in [
        1,
        STRING_ROOM as u64,
        STRING_ROOM as u64 + 1,
        1 << 32,
        u64::MAX,
    ] {
        s.damage(&[(STRING_TOTAL, damage, 0)]);
    }
    // A text of no statements more or less is no damage, if its label is another one.
    s.word(TEXTS_AT + 3, pair(10, 0));
    neighbour(s, &[(TEXT_TOTAL, 4, 3)]);
    s.word(TEXTS_AT + 3, pair(7, 0));
    s.damage(&[(TEXT_TOTAL, 4, 3)]);
    // Totals of nothing at all are an empty pool.
    neighbour(
        s,
        &[
            (TEXT_TOTAL, 0, 3),
            (STATEMENT_TOTAL, 0, 4),
            (VALUE_TOTAL, 0, HELD_VALUES as u64),
        ],
    );
}

fn damaged_texts(s: &mut Script, texts: &[u64; 3]) {
    let [first, second, third] = [TEXTS_AT, TEXTS_AT + 1, TEXTS_AT + 2];
    for label in [7, 9] {
        s.damage(&[(second, pair(label, 0), texts[1])]);
    }
    for label in [0, 6, 10, u32::MAX] {
        neighbour(s, &[(second, pair(label, 0), texts[1])]);
    }
    s.damage(&[(third, pair(7, 2), texts[2])]);
    for count in [1, 3] {
        s.damage(&[(first, pair(7, count), texts[0])]);
        s.damage(&[(third, pair(9, count), texts[2])]);
    }
    s.damage(&[(second, pair(8, 1), texts[1])]);
    neighbour(
        s,
        &[(first, pair(7, 3), texts[0]), (third, pair(9, 1), texts[2])],
    );
    neighbour(
        s,
        &[
            (first, pair(7, 0), texts[0]),
            (second, pair(8, 4), texts[1]),
            (third, pair(9, 0), texts[2]),
        ],
    );
    s.damage(&[
        (first, pair(7, u32::MAX), texts[0]),
        (second, pair(8, 3), texts[1]),
    ]);
    s.damage(&[
        (first, pair(7, 1 << 31), texts[0]),
        (second, pair(8, (1 << 31) + 2), texts[1]),
    ]);
}

fn damaged_heads(s: &mut Script, heads: &[u64; 4]) {
    let at = [HEADS_AT, HEADS_AT + 1, HEADS_AT + 2, HEADS_AT + 3];
    for operator in [2, 3, 4, 1 << 8, 1 << 31, u32::MAX] {
        s.damage(&[(at[0], pair(operator, 3), heads[0])]);
        s.damage(&[(at[2], pair(operator, 1), heads[2])]);
    }
    neighbour(s, &[(at[0], pair(1, 3), heads[0])]);
    neighbour(s, &[(at[2], pair(0, 1), heads[2])]);
    for count in [0, 2, 4] {
        s.damage(&[(at[0], pair(0, count), heads[0])]);
    }
    s.damage(&[(at[3], pair(0, 1), heads[3])]);
    s.damage(&[(at[3], pair(0, 3), heads[3])]);
    s.damage(&[(at[0], pair(0, 4), heads[0]), (at[1], 0, heads[1])]);
    s.damage(&[(at[2], pair(1, 0), heads[2]), (at[3], pair(0, 3), heads[3])]);
    neighbour(s, &[(at[0], pair(0, 1), heads[0]), (at[1], 3, heads[1])]);
    neighbour(
        s,
        &[(at[2], pair(1, 2), heads[2]), (at[3], pair(0, 1), heads[3])],
    );
    s.damage(&[
        (at[0], pair(0, u32::MAX), heads[0]),
        (at[1], pair(0, 5), heads[1]),
    ]);
    s.damage(&[
        (at[0], pair(0, 1 << 31), heads[0]),
        (at[1], pair(0, (1 << 31) + 4), heads[1]),
    ]);
}

fn damaged_names(s: &mut Script) {
    let name = words("X");
    let at = NAMES_AT;
    for byte in [
        1, b' ', b'-', b'/', b':', b'@', b'[', b'^', b'`', b'{', 0x7f, 0x80, 0xff,
    ] {
        s.damage(&[(at, u64::from(byte) << 56, name[0])]);
        s.damage(&[(at, name[0] | u64::from(byte) << 48, name[0])]);
    }
    for byte in *b"09AZ_az" {
        neighbour(s, &[(at, u64::from(byte) << 56, name[0])]);
        neighbour(s, &[(at, name[0] | u64::from(byte) << 48, name[0])]);
    }
    s.damage(&[(at, 0, name[0])]);
    s.damage(&[(at, u64::from(b'X') << 48, name[0])]);
    s.damage(&[(at, name[0] | u64::from(b'Y') << 40, name[0])]);
    s.damage(&[(at, name[0] | 1, name[0])]);
    for place in 1..NAME_WORDS {
        s.damage(&[(at + place, 1, 0)]);
        s.damage(&[(at + place, u64::from(b'X') << 56, 0)]);
    }
    let eight = words("X8_BYTES");
    neighbour(s, &[(at, eight[0], name[0])]);
    neighbour(s, &[(at, eight[0], name[0]), (at + 1, name[0], 0)]);
    s.damage(&[(at, eight[0], name[0]), (at + 2, name[0], 0)]);
    let long = words(LONG);
    let last = at + NAME_WORDS + 3;
    s.damage(&[(last, long[3] & !0xff | u64::from(b'.'), long[3])]);
    neighbour(s, &[(last, long[3] & !0xff, long[3])]);
    neighbour(s, &[(last, 0, long[3])]);
    s.damage(&[(last - 1, 0, long[2])]);
}

fn tried_values(s: &mut Script) {
    let first = VALUES_AT;
    let last = VALUES_AT + HELD_VALUES - 1;
    let refused = [
        LARGEST_VALUE + 1,
        f64::MAX.to_bits(),
        f64::INFINITY.to_bits(),
        f64::INFINITY.to_bits() + 1,
        0x7FF8_0000_0000_0000,
        SIGN - 1,
    ];
    let accepted = [
        LARGEST_VALUE,
        0,
        1,
        0x000F_FFFF_FFFF_FFFF,
        0x0010_0000_0000_0000,
        1e22f64.to_bits(),
    ];
    for (index, value) in [(first, 1.0f64), (last, 7.0)] {
        for bits in refused {
            s.damage(&[(index, bits, value.to_bits())]);
            s.damage(&[(index, bits | SIGN, value.to_bits())]);
        }
        for bits in accepted {
            neighbour(s, &[(index, bits, value.to_bits())]);
            neighbour(s, &[(index, bits | SIGN, value.to_bits())]);
        }
    }
}

/// Words that are not in use may hold anything.
fn unused_words(s: &mut Script) {
    for index in [
        TEXTS_AT + 3,
        HEADS_AT - 1,
        HEADS_AT + 4,
        NAMES_AT - 1,
        NAMES_AT + 4 * NAME_WORDS,
        VALUES_AT - 1,
        VALUES_AT + HELD_VALUES,
        STRINGS_AT,
        WORDS - 1,
        WORDS,
    ] {
        for word in [0, u64::MAX, f64::INFINITY.to_bits(), pair(7, 0)] {
            s.word(index, word);
            s.totals();
        }
    }
    read_all(s);
}

/// Radii that no globe has are loaded and fetched as any values are, and replaced by a later text.
fn radii(s: &mut Script) {
    const NAME: &str = "BODY499_RADII";
    s.empty();
    s.load(1, &data(&format!("{NAME} = ( 3397 3397 3375 )")));
    for bad in ["0", "-0", "-1", "-3397.0D0", "0E22", "-0.0"] {
        s.load(2, &data(&format!("{NAME} = ( 3397 {bad}\n{bad} )")));
        s.fetch(3, NAME);
        s.fetch(2, NAME);
        s.load(3, &data(&format!("{NAME} += {bad}")));
        s.fetch(4, NAME);
        s.load(4, &data(&format!("{NAME} = ( 3397 3397 3375 )")));
        s.fetch(3, NAME);
        s.remove(4);
        s.fetch(4, NAME);
        s.remove(2);
        s.fetch(4, NAME);
        s.remove(3);
        s.fetch(3, NAME);
    }
    s.totals();
}

/// Calls in no order, over few labels and names.
fn mixtures(s: &mut Script) {
    let texts = [
        "".to_string(),
        "X = 1".to_string(),
        data("X = 1"),
        data("X += 2"),
        data("X = ( 3 4 )\nY += 5"),
        data("Y = 6\nY += ( 7 8 9 )\nZ = 0.5"),
        data("Z += ( 1 2\n3 4\n5 6 )\n\\begintext\nZ = 9\n\\begindata\nX += 10"),
        data("X = ?"),
        data("X = 1\nY = 1E23"),
        data("Y = ( 1 2"),
        statements(100),
        values(600),
        data("X = 'a'\nY += ( 'the' 'second' '' )"),
        data("C += ( 'it''s' '''' )\nX += '\t'\nC += 'a caption of some length'"),
        data("Z = ( 'a' 1 )"),
        strings(20),
    ];
    let labels = [0, 1, 2, 3, 7, 8, 9, 10, u32::MAX - 1, u32::MAX];
    let names = ["X", "Y", "Z", "A", "C", "NONE"];
    let mut random = Random(6);
    s.empty();
    for _ in 0..MIXTURES {
        match random.below(24) {
            0..=8 => {
                let text = &texts[random.below(texts.len())];
                s.load(random.one(&labels), text);
            }
            9..=12 => s.remove(random.one(&labels)),
            13..=17 => {
                let room = random.one(&[0, 1, 2, 4, 8, 16]);
                s.fetch(room, random.one(&names));
            }
            18..=21 => {
                let room = random.one(&[0, 1, 2, 4, 30, 60]);
                let place = random.one(&[0, 1, 1, 2, 3, 5]);
                s.quoted(room, place, random.one(&names));
            }
            22 => s.totals(),
            _ => match random.below(6) {
                0 => s.clear(),
                1 => s.empty(),
                _ => s.totals(),
            },
        }
    }
    s.totals();
}

/// A text of so many statements.
fn statements(count: usize) -> String {
    data(&"A+=1\n".repeat(count))
}

/// A text of one statement with so many values, of one digit each, in no regular order.
fn values(count: usize) -> String {
    let mut text = data("V = (");
    for i in 0..count {
        text.push_str(if i % 20 == 0 { "\n" } else { " " });
        text.push_str(&(i * i / 7 % 10).to_string());
    }
    text.push_str("\n)");
    text
}

/// A text of so many strings of 60 bytes.
fn strings(count: usize) -> String {
    data(&format!("C += '{}'\n", "sixty ".repeat(10)).repeat(count))
}

fn words(name: &str) -> [u64; NAME_WORDS] {
    pack_name(name.as_bytes()).unwrap_or_default()
}
