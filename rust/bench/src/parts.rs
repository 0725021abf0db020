//! What is measured about texts in parts: a kernel and systems opened, fed and closed, beside the
//! loads of the same bytes, and a line of as many bytes as parts may have.

use std::hint::black_box;

use twin::limits::PARTS_BYTES;
use twin::parts;

use crate::library;
use crate::texts::{kernel, system};
use crate::timing::Restore;
use crate::work::{pool_of, Row, Work, HELD, KERNEL_LOAD, LOAD_GOAL};

/// The lengths of parts: a large buffer's, and a card reader's block.
const BUFFER: usize = 65_536;
const BLOCK: usize = 512;

/// The most that feeding in large parts may take, in times of a load of the same bytes.
const FEED_GOAL: f64 = 1.5;

/// The calls that are compared with a load.
const KERNEL_BY_BUFFERS: &str = "feed, 64 KiB at a time, a kernel";
const KERNEL_BY_BLOCKS: &str = "feed, 512 bytes at a time, a kernel";

/// All rows, in the order of the table.
pub fn measured() -> Vec<Row> {
    let kernel = kernel();
    let line = "x".repeat(PARTS_BYTES);
    let mut rows = vec![
        fed(KERNEL_BY_BUFFERS, 0, &kernel, BUFFER),
        fed(KERNEL_BY_BLOCKS, 0, &kernel, BLOCK),
    ];
    rows.extend(HELD.map(|texts| {
        let text = system(texts - 1);
        fed(
            "feed, 512 bytes at a time, a system",
            texts - 1,
            &text,
            BLOCK,
        )
    }));
    rows.push(fed("feed at once a text line", 0, &line, line.len()));
    rows.push(fed("feed, 64 KiB at a time, a text line", 0, &line, BUFFER));
    rows.push(fed(
        "feed, 512 bytes at a time, a text line",
        0,
        &line,
        BLOCK,
    ));
    rows
}

/// A text is opened, fed in parts of a length and closed.
fn fed(call: &'static str, held: u32, text: &str, length: usize) -> Row {
    let text = text.as_bytes();
    Work {
        call,
        goal: LOAD_GOAL,
        restore: Restore::Totals,
        library: &mut |words| {
            assert_eq!(library::open(words, held), 0);
            for part in black_box(text).chunks(length) {
                library::feed(words, part);
            }
            assert_eq!(library::close(words), 0);
        },
        twin: &mut |words| {
            assert_eq!(parts::open(words, held), Ok(()));
            for part in black_box(text).chunks(length) {
                parts::feed(words, part).ok();
            }
            assert_eq!(parts::close(words), Ok(()));
        },
    }
    .on(&pool_of(held), Some(held + 1), Some(text.len()))
}

/// Prints what feeding a kernel takes in times of its load, and what a call adds.
pub fn print_beside_load(rows: &[Row]) {
    let time = |call| rows.iter().find(|row| row.call == call);
    let (Some(load), Some(buffers), Some(blocks)) = (
        time(KERNEL_LOAD),
        time(KERNEL_BY_BUFFERS),
        time(KERNEL_BY_BLOCKS),
    ) else {
        return;
    };
    let calls = kernel().len().div_ceil(BLOCK) as f64;
    println!(
        "Feeding the kernel in parts of 64 KiB takes {:.2} times its load (goal {FEED_GOAL}), in \
         parts of 512 bytes {:.2} times: each call of feed adds {:.0} ns.",
        buffers.library / load.library,
        blocks.library / load.library,
        (blocks.library - buffers.library) / calls,
    );
}
