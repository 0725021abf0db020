//! What is measured: each call, on pools that hold 1, 6 and 16 texts, then on a pool full of strings,
//! then texts in parts and the reading of a number; the drive's moves stand beside the orientations
//! that they ask for. Questions are about the text that was loaded first, and removals take that
//! one out, so that all others stand after it.

use std::hint::black_box;

use globe_sys::GLOBE_OPEN_LIST;
use twin::layout::WORDS;
use twin::{answers, builtin, pool};

use crate::drive;
use crate::library;
use crate::numbers;
use crate::parts;
use crate::strings;
use crate::texts::{body, kernel, system, system_of_degree};
use crate::timing::{medians, Restore, Side};

/// The most that a call may take, in times of the twin.
pub const LOAD_GOAL: f64 = 2.0;
pub const ORIENTATION_GOAL: f64 = 1.5;
const OTHER_GOAL: f64 = 3.0;

/// The texts that are held, one after another.
pub const HELD: [u32; 3] = [1, 6, 16];

/// The texts that are held where the first one's angles are of a higher degree: so many that its
/// further values find room.
const HELD_OF_DEGREE: [u32; 2] = [1, 6];

/// The load that texts in parts are compared with.
pub const KERNEL_LOAD: &str = "load a kernel";

/// What is asked for.
pub const EPOCH: f64 = 123_456_789.125;
const NAME: &[u8] = b"BODY100_NUT_PREC_RA";

/// One call, measured.
pub struct Row {
    pub call: &'static str,
    /// The texts that are held, the one that the call loads included.
    pub texts: Option<u32>,
    /// The bytes of the text that is loaded.
    pub bytes: Option<usize>,
    /// In ns a call.
    pub library: f64,
    pub twin: f64,
    pub goal: f64,
}

/// A call on both sides.
pub struct Work<'a> {
    pub call: &'static str,
    pub goal: f64,
    pub restore: Restore,
    pub library: &'a mut dyn FnMut(&mut [u64]),
    pub twin: &'a mut dyn FnMut(&mut [u64]),
}

impl Work<'_> {
    pub fn on(self, start: &[u64], texts: Option<u32>, bytes: Option<usize>) -> Row {
        let (library, twin) = medians(
            Side::new(start, self.restore, self.library),
            Side::new(start, self.restore, self.twin),
        );
        Row {
            call: self.call,
            texts,
            bytes,
            library,
            twin,
            goal: self.goal,
        }
    }
}

/// All rows, in the order of the table.
pub fn measured() -> Vec<Row> {
    let mut rows = vec![loaded(KERNEL_LOAD, 0, &kernel()), read_once()];
    rows.extend(HELD.map(|texts| loaded("load a system", texts - 1, &system(texts - 1))));
    for measure in [removed, cleared, fetched, counted, oriented, sized] {
        rows.extend(HELD.map(measure));
    }
    rows.extend(HELD_OF_DEGREE.map(oriented_by_squares));
    rows.push(oriented_by_table());
    rows.push(sized_by_table());
    rows.extend(drive::measured());
    rows.extend(strings::measured());
    rows.extend(parts::measured());
    rows.extend(numbers::measured());
    rows
}

/// A pool that holds the first systems, labelled from 0 on.
pub fn pool_of(texts: u32) -> Vec<u64> {
    pool_of_degree(texts, 1)
}

/// The same with angles of a degree in the first of them.
pub fn pool_of_degree(texts: u32, degree: usize) -> Vec<u64> {
    let mut words = vec![0; WORDS];
    pool::make_empty(&mut words).expect("memory of a pool's size");
    for label in 0..texts {
        let text = system_of_degree(label, if label == 0 { degree } else { 1 });
        pool::load(&mut words, label, text.as_bytes()).expect("a right text");
    }
    words
}

fn loaded(call: &'static str, held: u32, text: &str) -> Row {
    let text = text.as_bytes();
    Work {
        call,
        goal: LOAD_GOAL,
        restore: Restore::Totals,
        library: &mut |words| assert_eq!(library::load(words, held, black_box(text)), 0),
        twin: &mut |words| assert_eq!(pool::load(words, held, black_box(text)), Ok(())),
    }
    .on(&pool_of(held), Some(held + 1), Some(text.len()))
}

/// A kernel that is refused at its last line is read to its end, and nothing of it is written: what
/// a load takes for its first pass.
fn read_once() -> Row {
    let text = kernel() + "\\begindata\nX = ( )\n";
    let text = text.as_bytes();
    Work {
        call: "first pass of a kernel",
        goal: LOAD_GOAL,
        restore: Restore::Nothing,
        library: &mut |words| assert_eq!(library::load(words, 0, black_box(text)), GLOBE_OPEN_LIST),
        twin: &mut |words| assert!(pool::load(words, 0, black_box(text)).is_err()),
    }
    .on(&pool_of(0), Some(0), Some(text.len()))
}

fn removed(texts: u32) -> Row {
    Work {
        call: "remove",
        goal: OTHER_GOAL,
        restore: Restore::All,
        library: &mut |words| assert_eq!(library::remove(words, black_box(0)), 0),
        twin: &mut |words| assert_eq!(pool::remove(words, black_box(0)), Ok(())),
    }
    .on(&pool_of(texts), Some(texts), None)
}

fn cleared(texts: u32) -> Row {
    Work {
        call: "clear",
        goal: OTHER_GOAL,
        restore: Restore::Totals,
        library: &mut |words| assert_eq!(library::clear(words), 0),
        twin: &mut |words| assert_eq!(pool::clear(words), Ok(())),
    }
    .on(&pool_of(texts), Some(texts), None)
}

fn fetched(texts: u32) -> Row {
    let (mut ours, mut theirs) = ([0.0; 13], [0.0; 13]);
    Work {
        call: "fetch 13 values",
        goal: OTHER_GOAL,
        restore: Restore::Nothing,
        library: &mut |words| assert_eq!(library::fetch(words, black_box(NAME), &mut ours), 13),
        twin: &mut |words| assert_eq!(pool::fetch(words, black_box(NAME), &mut theirs), Ok(13)),
    }
    .on(&pool_of(texts), Some(texts), None)
}

fn counted(texts: u32) -> Row {
    Work {
        call: "totals",
        goal: OTHER_GOAL,
        restore: Restore::Nothing,
        library: &mut |words| assert_eq!(library::totals(words), 192 * texts),
        twin: &mut |words| assert!(pool::totals(words).is_ok()),
    }
    .on(&pool_of(texts), Some(texts), None)
}

fn oriented(texts: u32) -> Row {
    oriented_on("orientation, 13 angles", texts, 1)
}

fn oriented_by_squares(texts: u32) -> Row {
    oriented_on("orientation, 13 angles of degree 2", texts, 2)
}

fn oriented_on(call: &'static str, texts: u32, degree: usize) -> Row {
    let body = body(0, 0);
    Work {
        call,
        goal: ORIENTATION_GOAL,
        restore: Restore::Nothing,
        library: &mut |words| {
            assert_eq!(
                library::orientation(words, body, black_box(EPOCH)).number,
                0
            )
        },
        twin: &mut |words| assert!(answers::orientation(words, body, black_box(EPOCH)).is_ok()),
    }
    .on(&pool_of_degree(texts, degree), Some(texts), None)
}

fn sized(texts: u32) -> Row {
    let body = body(0, 0);
    Work {
        call: "radii",
        goal: OTHER_GOAL,
        restore: Restore::Nothing,
        library: &mut |words| assert_eq!(library::radii(words, black_box(body)).number, 0),
        twin: &mut |words| assert!(answers::radii(words, black_box(body)).is_ok()),
    }
    .on(&pool_of(texts), Some(texts), None)
}

fn oriented_by_table() -> Row {
    Work {
        call: "orientation, built in",
        goal: ORIENTATION_GOAL,
        restore: Restore::Nothing,
        library: &mut |_| {
            black_box(globe_sys::globe_builtin_orientation(
                black_box(899),
                black_box(EPOCH),
            ));
        },
        twin: &mut |_| {
            black_box(builtin::builtin_orientation(
                black_box(899),
                black_box(EPOCH),
            ))
            .ok();
        },
    }
    .on(&[], None, None)
}

fn sized_by_table() -> Row {
    Work {
        call: "radii, built in",
        goal: OTHER_GOAL,
        restore: Restore::Nothing,
        library: &mut |_| {
            black_box(globe_sys::globe_builtin_radii(black_box(499)));
        },
        twin: &mut |_| {
            black_box(builtin::builtin_radii(black_box(499))).ok();
        },
    }
    .on(&[], None, None)
}
