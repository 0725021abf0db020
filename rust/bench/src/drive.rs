//! The drive: a move by a pool and by the table, on the largest ring. Beside an orientation of the
//! same body it shows what the search for a position costs.

use std::hint::black_box;

use twin::drive::{motion, Source};

use crate::library;
use crate::texts::body;
use crate::timing::Restore;
use crate::work::{pool_of, Row, Work, EPOCH, ORIENTATION_GOAL};

const RING: u32 = 4_096;
const PRESENT: u32 = 1_000;

/// The rows of the drive.
pub fn measured() -> Vec<Row> {
    vec![moved(1), moved_by_table()]
}

fn moved(texts: u32) -> Row {
    let body = body(0, 0);
    Work {
        call: "move, 13 angles",
        goal: ORIENTATION_GOAL,
        restore: Restore::Nothing,
        library: &mut |words| {
            let moved = library::motion(words, body, black_box(EPOCH), RING, PRESENT);
            assert_eq!(moved.number, 0)
        },
        twin: &mut |words| {
            let source = Source::Pool(words);
            assert!(motion(source, body, black_box(EPOCH), RING, PRESENT).is_ok())
        },
    }
    .on(&pool_of(texts), Some(texts), None)
}

fn moved_by_table() -> Row {
    Work {
        call: "move, built in",
        goal: ORIENTATION_GOAL,
        restore: Restore::Nothing,
        library: &mut |_| {
            let epoch = black_box(EPOCH);
            black_box(globe_sys::globe_drive_builtin_move(
                899, epoch, RING, PRESENT,
            ));
        },
        twin: &mut |_| {
            let epoch = black_box(EPOCH);
            black_box(motion(Source::Builtin, 899, epoch, RING, PRESENT)).ok();
        },
    }
    .on(&[], None, None)
}
