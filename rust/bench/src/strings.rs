//! What is measured about strings: a text of them loaded, and every call on a pool that is full of
//! them, with a system of bodies in front.

use std::hint::black_box;

use twin::limits::STRING_BYTES;
use twin::{answers, pool};

use crate::library;
use crate::texts::{body, captions, CAPTIONS};
use crate::timing::Restore;
use crate::work::{pool_of, Row, Work, EPOCH, LOAD_GOAL};

/// The most that a call on a pool full of strings may take, in times of the twin.
const GOAL: f64 = 1.5;

/// The texts of captions that are held, a globe each, and the values of a system before them.
const GLOBES: u32 = 15;
const SYSTEM_VALUES: usize = 192;

/// The caption that is asked for: the last one of all.
const NAME: &[u8] = b"GLOBE14_CAPTION";

/// All rows, in the order of the table.
pub fn measured() -> Vec<Row> {
    let full = full_pool();
    vec![
        loaded(),
        removed(&full),
        counted(&full),
        fetched(&full),
        oriented(&full),
        sized(&full),
    ]
}

/// A pool of sixteen texts: a system of bodies, then captions that leave no room for another one.
pub fn full_pool() -> Vec<u64> {
    let mut words = pool_of(1);
    for globe in 0..GLOBES {
        let text = captions(globe..globe + 1);
        pool::load(&mut words, globe + 1, text.as_bytes()).expect("a right text");
    }
    words
}

/// One text with the captions of all globes.
fn loaded() -> Row {
    let text = captions(0..GLOBES);
    let text = text.as_bytes();
    Work {
        call: "load captions",
        goal: LOAD_GOAL,
        restore: Restore::Totals,
        library: &mut |words| assert_eq!(library::load(words, 1, black_box(text)), 0),
        twin: &mut |words| assert_eq!(pool::load(words, 1, black_box(text)), Ok(())),
    }
    .on(&pool_of(0), Some(1), Some(text.len()))
}

/// The captions of the first globe taken out, those of all others moved down.
fn removed(full: &[u64]) -> Row {
    Work {
        call: "remove, strings",
        goal: GOAL,
        restore: Restore::All,
        library: &mut |words| assert_eq!(library::remove(words, black_box(1)), 0),
        twin: &mut |words| assert_eq!(pool::remove(words, black_box(1)), Ok(())),
    }
    .on(full, Some(GLOBES + 1), None)
}

fn counted(full: &[u64]) -> Row {
    let values = SYSTEM_VALUES + CAPTIONS * GLOBES as usize;
    Work {
        call: "totals, strings",
        goal: GOAL,
        restore: Restore::Nothing,
        library: &mut |words| assert_eq!(library::totals(words) as usize, values),
        twin: &mut |words| assert!(pool::totals(words).is_ok()),
    }
    .on(full, Some(GLOBES + 1), None)
}

fn fetched(full: &[u64]) -> Row {
    let (mut ours, mut theirs) = ([0; STRING_BYTES], [0; STRING_BYTES]);
    let place = CAPTIONS - 1;
    Work {
        call: "fetch a string of 57 bytes",
        goal: GOAL,
        restore: Restore::Nothing,
        library: &mut |words| {
            let length = library::fetch_string(words, black_box(NAME), place, &mut ours);
            assert_eq!(length, 57)
        },
        twin: &mut |words| {
            let length = pool::fetch_string(words, black_box(NAME), place, &mut theirs);
            assert_eq!(length, Ok(57))
        },
    }
    .on(full, Some(GLOBES + 1), None)
}

fn oriented(full: &[u64]) -> Row {
    let body = body(0, 0);
    Work {
        call: "orientation, 13 angles, strings",
        goal: GOAL,
        restore: Restore::Nothing,
        library: &mut |words| {
            let answer = library::orientation(words, body, black_box(EPOCH));
            assert_eq!(answer.number, 0)
        },
        twin: &mut |words| assert!(answers::orientation(words, body, black_box(EPOCH)).is_ok()),
    }
    .on(full, Some(GLOBES + 1), None)
}

fn sized(full: &[u64]) -> Row {
    let body = body(0, 0);
    Work {
        call: "radii, strings",
        goal: GOAL,
        restore: Restore::Nothing,
        library: &mut |words| assert_eq!(library::radii(words, black_box(body)).number, 0),
        twin: &mut |words| assert!(answers::radii(words, black_box(body)).is_ok()),
    }
    .on(full, Some(GLOBES + 1), None)
}

#[cfg(test)]
mod tests {
    use twin::layout::STRING_TOTAL;
    use twin::limits::{STRING_BYTES, STRING_ROOM};

    use super::full_pool;

    #[test]
    fn no_caption_finds_room() {
        let bytes = full_pool()[STRING_TOTAL] as usize;
        assert!(bytes <= STRING_ROOM && bytes + STRING_BYTES > STRING_ROOM);
    }
}
