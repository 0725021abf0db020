//! What is measured about numbers: the time of one, by its digits and its power of ten. It is one of
//! many in a list of a text that is refused at its end: each is found in its line and read once, and
//! none is written.

use std::hint::black_box;

use globe_sys::GLOBE_OPEN_LIST;
use twin::pool;

use crate::library;
use crate::texts::{numbers, Spelling};
use crate::timing::Restore;
use crate::work::{pool_of, Row, Work, LOAD_GOAL};

/// The numbers of a text.
const COUNT: usize = 2_000;

const SPELLINGS: [(&str, Spelling); 7] = [
    ("read a number of 2 digits, 10^-1", spelling(2, 1, "")),
    ("read a number of 15 digits, 10^-6", spelling(15, 6, "")),
    ("read a number of 19 digits", spelling(19, 0, "")),
    ("read a number of 19 digits, 10^5", spelling(19, 0, "E5")),
    ("read a number of 19 digits, 10^-5", spelling(19, 5, "")),
    ("read a number of 19 digits, 10^22", spelling(19, 0, "E22")),
    (
        "read a number of 19 digits, 10^-22",
        spelling(19, 0, "E-22"),
    ),
];

const fn spelling(digits: usize, after: usize, exponent: &'static str) -> Spelling {
    Spelling {
        digits,
        after,
        exponent,
    }
}

/// All rows, in the order of the table.
pub fn measured() -> Vec<Row> {
    let rows = SPELLINGS.iter();
    rows.map(|(call, spelling)| read(call, spelling)).collect()
}

/// A text of each spelling.
pub fn texts() -> impl Iterator<Item = String> {
    SPELLINGS
        .iter()
        .map(|(_, spelling)| numbers(COUNT, spelling))
}

fn read(call: &'static str, spelling: &Spelling) -> Row {
    let text = numbers(COUNT, spelling) + "X = ( )\n";
    let text = text.as_bytes();
    let row = Work {
        call,
        goal: LOAD_GOAL,
        restore: Restore::Nothing,
        library: &mut |words| assert_eq!(library::load(words, 0, black_box(text)), GLOBE_OPEN_LIST),
        twin: &mut |words| assert!(pool::load(words, 0, black_box(text)).is_err()),
    }
    .on(&pool_of(0), None, None);
    Row {
        library: row.library / COUNT as f64,
        twin: row.twin / COUNT as f64,
        ..row
    }
}
