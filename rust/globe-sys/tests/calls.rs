//! C through the header and Rust through the declarations get the same answers from the library.

mod common;

use std::fmt::Write;
use std::path::Path;
use std::ptr::{null, null_mut};

use globe_sys::*;

const TEXT: &[u8] = b"note
\\begindata
BODY899_POLE_RA = 299.36
BODY899_POLE_DEC = 43.46
BODY899_PM = ( 253.18 536.3128492 )
BODY899_NUT_PREC_RA = 0.70
BODY899_RADII = ( 24764 24764
24341 )
BODY8_NUT_PREC_ANGLES = ( 357.85 52.316 )
CAPTION = ( 'Neptune' '' 'Le Verrier''s planet' )
";
/// One text for each refusal that tells a line and a column, and the three numbers.
const FAULTY: [(&[u8], [u32; 3]); 7] = [
    (b"\\begindata\nX = 1\nX = 1E23\n", [6, 3, 5]),
    (b"\\begindata\n\tX = \x01", [4, 2, 6]),
    (b"\\begindata\n 'X' = 1", [17, 2, 2]),
    (b"\\begindata\nX\t: 1", [18, 2, 3]),
    (b"\\begindata\nX = 1\nX = \n", [19, 3, 5]),
    (b"\\begindata\nX = ( 1 \r\n", [20, 2, 9]),
    (b"\\begindata\nX = ( 1\n) 2", [21, 3, 3]),
];
const MIXING: &[u8] = b"\\begindata\nBODY899_PM += 'a caption'\n";
/// A text in two parts, cut within a delimiter, and one that is faulty at its end.
const PARTS: [&[u8]; 2] = [b"note\n \\begin", b"data\r\nPART = ( 1\n2 )"];
const OPEN_LIST: &[u8] = b"\\begindata\nX = ( 1 \r\n";
const NAME: &[u8] = b"BODY899_RADII";
const CAPTION: &[u8] = b"CAPTION";

/// The lines that `calls.c` prints.
#[derive(Default)]
struct Lines(String);

impl Lines {
    fn add(&mut self, answer: &str, numbers: &[u32], doubles: &[f64]) {
        self.0.push_str(answer);
        for number in numbers {
            write!(self.0, " {number}").unwrap();
        }
        for double in doubles {
            write!(self.0, " {:016X}", double.to_bits()).unwrap();
        }
        self.0.push('\n');
    }

    fn reply(&mut self, r: globe_reply) {
        self.add("reply", &[r.number, r.line, r.column], &[]);
    }

    fn counts(&mut self, c: globe_counts) {
        let place = [c.number, c.line, c.column];
        let counts = [c.texts, c.statements, c.values];
        self.add("counts", &[place, counts].concat(), &[]);
    }

    fn fetched(&mut self, f: globe_fetched, buffer: &[f64]) {
        let numbers = [f.number, f.line, f.column, f.count];
        self.add("fetched", &numbers, buffer);
    }

    /// Fetches a string and tells the answer and the buffer, all of it.
    unsafe fn string(&mut self, pool: *const u64, name: &[u8], place: usize, room: usize) {
        let words = globe_pool_words();
        let mut bytes = [b'-'; GLOBE_STRING];
        let buffer = bytes.as_mut_ptr();
        // Safety: the pool is one of so many words, and the buffer has at least this room.
        let f = unsafe {
            globe_fetch_string(pool, words, name.as_ptr(), name.len(), place, buffer, room)
        };
        let buffer = String::from_utf8_lossy(&bytes);
        writeln!(
            self.0,
            "string {} {} {} {} {buffer}",
            f.number, f.line, f.column, f.count
        )
        .unwrap();
    }

    fn oriented(&mut self, o: globe_oriented) {
        let doubles = [
            o.ra, o.dec, o.w, o.m11, o.m12, o.m13, o.m21, o.m22, o.m23, o.m31, o.m32, o.m33,
        ];
        self.add("oriented", &[o.number, o.line, o.column], &doubles);
    }

    fn axes(&mut self, x: globe_axes) {
        self.add("axes", &[x.number, x.line, x.column], &[x.a, x.b, x.c]);
    }

    fn position(&mut self, p: globe_position) {
        let numbers = [p.number, p.line, p.column, p.position];
        self.add("position", &numbers, &[]);
    }

    fn motion(&mut self, m: globe_motion) {
        let (target, steps) = (m.target, m.r#move);
        writeln!(
            self.0,
            "motion {} {} {} {target} {steps}",
            m.number, m.line, m.column
        )
        .unwrap();
    }
}

/// The calls of the drive of `calls.c`, in its order.
///
/// # Safety
///
/// The pool is one of as many words as the library wants.
unsafe fn drive_calls(lines: &mut Lines, pool: *const u64) {
    let words = globe_pool_words();
    // Safety: as above.
    unsafe {
        lines.position(globe_drive_position(pool, words, 899, 0.0, 360));
        lines.position(globe_drive_position(pool, words, 899, 0.0, 4097));
        lines.position(globe_drive_position(null(), 0, 899, 0.0, 2));
        lines.position(globe_drive_builtin_position(399, 0.0, 4096));
        lines.position(globe_drive_builtin_position(11, 0.0, 1));
        lines.position(globe_drive_builtin_position(11, 0.0, 2));
        lines.motion(globe_drive_move(pool, words, 899, 0.0, 360, 73));
        lines.motion(globe_drive_move(pool, words, 899, 0.0, 360, 300));
        lines.motion(globe_drive_move(pool, words, 899, 0.0, 360, 360));
        lines.motion(globe_drive_move(null(), 0, 899, 0.0, 360, 359));
    }
    lines.motion(globe_drive_builtin_move(399, 0.0, 4096, 4095));
    lines.motion(globe_drive_builtin_move(399, 0.0, 0, u32::MAX));
    lines.motion(globe_drive_builtin_move(399, 157788000001.0, 2, 2));
    lines.motion(globe_drive_builtin_move(399, 157788000001.0, 2, 1));
}

/// The calls about strings of `calls.c`, in its order.
///
/// # Safety
///
/// The pool is one of as many words as the library wants.
unsafe fn string_calls(lines: &mut Lines, pool: *mut u64) {
    let words = globe_pool_words();
    let (caption, bytes) = (CAPTION.as_ptr(), CAPTION.len());
    let mut buffer = [-1.0; 1];
    // Safety: as above, and no two slices overlap.
    unsafe {
        lines.string(pool, CAPTION, 1, GLOBE_STRING);
        lines.string(pool, CAPTION, 2, 0);
        lines.string(pool, CAPTION, 3, 19);
        lines.string(pool, CAPTION, 3, 18);
        lines.string(pool, CAPTION, 0, GLOBE_STRING);
        lines.string(pool, CAPTION, 4, GLOBE_STRING);
        lines.string(pool, CAPTION, usize::MAX, GLOBE_STRING);
        lines.string(pool, NAME, 3, GLOBE_STRING);
        lines.string(pool, NAME, 4, GLOBE_STRING);
        lines.string(pool, b"", 1, GLOBE_STRING);
        let fetched = globe_fetch(pool, words, caption, bytes, buffer.as_mut_ptr(), 1);
        lines.fetched(fetched, &buffer);
        for fetched in [
            globe_fetch_string(pool, words, caption, bytes, 2, null_mut(), 0),
            globe_fetch_string(pool, words, null(), 0, 1, null_mut(), 0),
            globe_fetch_string(null(), 0, caption, bytes, 1, null_mut(), 0),
        ] {
            lines.fetched(fetched, &buffer);
        }
        lines.reply(globe_load(pool, words, 9, MIXING.as_ptr(), MIXING.len()));
        lines.oriented(globe_orientation(pool, words, 899, 0.0));
        lines.reply(globe_remove(pool, words, 9));
    }
}

/// The calls about parts of `calls.c`, in its order.
///
/// # Safety
///
/// The pool is one of as many words as the library wants.
unsafe fn part_calls(lines: &mut Lines, pool: *mut u64) {
    let words = globe_pool_words();
    // Safety: as above, and no two slices overlap.
    unsafe {
        let feed = |part: &[u8]| globe_feed(pool, words, part.as_ptr(), part.len());
        lines.reply(globe_feed(pool, words, null(), 0));
        lines.reply(globe_close(pool, words));
        lines.reply(globe_drop(pool, words));
        lines.reply(globe_open(pool, words, u32::MAX));
        lines.reply(globe_open(pool, words, 3));
        lines.reply(globe_open(pool, words, 3));
        lines.reply(globe_load(pool, words, 4, null(), 0));
        lines.reply(globe_remove(pool, words, 7));
        lines.reply(globe_clear(pool, words));
        lines.reply(feed(PARTS[0]));
        lines.reply(globe_feed(pool, words, null(), 0));
        lines.reply(feed(PARTS[1]));
        lines.counts(globe_totals(pool, words));
        lines.reply(globe_close(pool, words));
        lines.counts(globe_totals(pool, words));
        lines.reply(globe_open(pool, words, 4));
        lines.reply(feed(OPEN_LIST));
        lines.reply(globe_close(pool, words));
        lines.reply(globe_close(pool, words));
        lines.reply(globe_open(pool, words, 4));
        lines.reply(feed(PARTS[1]));
        lines.reply(globe_drop(pool, words));
        lines.reply(globe_drop(pool, words));
        lines.reply(globe_open(null_mut(), 0, 4));
        lines.reply(globe_feed(null_mut(), 0, null(), 0));
        lines.reply(globe_close(null_mut(), 0));
        lines.reply(globe_drop(null_mut(), 0));
        lines.reply(globe_remove(pool, words, 3));
    }
}

/// The calls of `calls.c`, in its order.
fn calls() -> String {
    let mut lines = Lines::default();
    let words = globe_pool_words();
    let mut memory = vec![0xA5A5_A5A5_A5A5_A5A5_u64; words];
    let pool = memory.as_mut_ptr();
    let mut buffer = [-1.0; 4];
    let room = buffer.as_mut_ptr();
    let (text, name) = (TEXT.as_ptr(), NAME.as_ptr());
    // Safety: each pointer has as many elements behind it as is said, and none overlap.
    unsafe {
        lines.counts(globe_totals(pool, words));
        lines.reply(globe_make_empty(pool, words - 1));
        lines.reply(globe_make_empty(pool, words));
        lines.reply(globe_load(pool, words, u32::MAX, text, TEXT.len()));
        lines.reply(globe_load(pool, words, u32::MAX, text, TEXT.len()));
        for (faulty, _) in FAULTY {
            lines.reply(globe_load(pool, words, 2, faulty.as_ptr(), faulty.len()));
        }
        lines.counts(globe_totals(pool, words));
        let whole = NAME.len();
        lines.fetched(globe_fetch(pool, words, name, whole, room, 2), &buffer);
        lines.fetched(globe_fetch(pool, words, name, whole, room, 4), &buffer);
        lines.fetched(globe_fetch(pool, words, name, whole - 1, room, 4), &buffer);
        lines.oriented(globe_orientation(pool, words, 899, 1234567890.125));
        lines.oriented(globe_orientation(pool, words, 899, 157788000000.0));
        lines.oriented(globe_orientation(pool, words, 899, 157788000001.0));
        lines.oriented(globe_orientation(pool, words, -31_i32 as u32, 0.0));
        lines.oriented(globe_builtin_orientation(599, -1e9));
        lines.oriented(globe_builtin_orientation(11, 0.0));
        lines.axes(globe_radii(pool, words, 899));
        lines.axes(globe_radii(pool, words, 399));
        lines.axes(globe_builtin_radii(399));
        lines.axes(globe_builtin_radii(10));
        drive_calls(&mut lines, pool);

        lines.reply(globe_make_empty(null_mut(), 0));
        lines.counts(globe_totals(null(), 0));
        lines.reply(globe_load(pool, words, 7, null(), 0));
        lines.fetched(globe_fetch(pool, words, null(), 0, room, 4), &buffer);
        lines.fetched(
            globe_fetch(pool, words, name, whole, null_mut(), 0),
            &buffer,
        );
        lines.counts(globe_totals(pool, words));
        string_calls(&mut lines, pool);
        part_calls(&mut lines, pool);

        lines.reply(globe_remove(pool, words, 8));
        lines.reply(globe_remove(pool, words, 7));
        lines.counts(globe_totals(pool, words));
        lines.reply(globe_clear(pool, words));
        lines.counts(globe_totals(pool, words));
    }
    let doubles: Vec<f64> = memory.iter().map(|word| f64::from_bits(*word)).collect();
    lines.add("", &[], &doubles);
    lines.0
}

/// How many answers there are, and which of them is the closing of a faulty text.
const ANSWERS: usize = 96;
const REFUSED_CLOSING: usize = 80;

#[test]
fn both_faces_answer_alike() {
    let program = common::compile(Path::new("tests/calls.c"));
    assert_eq!(common::written(&common::run(&program, &[])), calls());
}

#[test]
fn numbers_of_the_answers() {
    let lines = calls();
    let numbers: Vec<&str> = lines
        .lines()
        .filter_map(|line| line.split(' ').nth(1))
        .take(ANSWERS)
        .collect();
    let expected = [
        "15", "15", "0", "0", "1", // faulty texts
        "6", "4", "17", "18", "19", "20", "21", // queries
        "0", "14", "0", "13", "0", "0", "9", "10", "0", "10", "0", "10", "0",
        "10", // the drive
        "0", "25", "15", "0", "25", "10", "0", "0", "26", "15", "0", "25", "26", "9",
        // empty slices
        "15", "15", "0", "13", "14", "0", // strings
        "0", "0", "0", "14", "13", "13", "13", "16", "13", "13", "16", "0", "13", "15", "0", "16",
        "0", // parts
        "8", "8", "8", "1", "0", "22", "22", "22", "22", "0", "0", "0", "0", "0", "0", "0", "0",
        "20", "8", "0", "0", "0", "8", "15", "15", "15", "15", "0", // removals
        "8", "0", "0", "0", "0",
    ];
    assert_eq!(numbers, expected);
}

#[test]
fn places_of_the_answers() {
    let lines = calls();
    let faulty = 5..5 + FAULTY.len();
    for (answer, line) in lines.lines().take(ANSWERS).enumerate() {
        let told: Vec<&str> = line.split(' ').skip(1).take(3).collect();
        if faulty.contains(&answer) {
            let (_, expected) = FAULTY[answer - faulty.start];
            assert_eq!(told, expected.map(|number| number.to_string()));
        } else if answer == REFUSED_CLOSING {
            assert_eq!(told, ["20", "2", "9"]);
        } else {
            assert_eq!(told[1..], ["0", "0"], "{line}");
        }
    }
}
