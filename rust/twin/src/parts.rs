//! A text in parts: the calls of K5 of document 02.
//! Until closing, what is held stays as it is, and no fault is told.

use crate::layout::{is_open, Extent, Held, OPEN};
use crate::opened::Opened;
use crate::refusal::{Refusal, Refused};

/// Opens a text under a label.
pub fn open(pool: &mut [u64], label: u32) -> Result<(), Refused> {
    let held = Held::of(pool)?;
    if is_open(pool) {
        return Err(Refusal::TextOpen.into());
    }
    if held.place(label).is_some() {
        return Err(Refusal::LabelHeld.into());
    }
    let held = held.extent();
    Opened::new(label).write(pool, held);
    Ok(())
}

/// Feeds the open text with a part of any length.
pub fn feed(pool: &mut [u64], part: &[u8]) -> Result<(), Refused> {
    let held = held_beside_open(pool)?;
    let mut opened = Opened::of(pool, held);
    opened.take(part, pool, held);
    opened.write(pool, held);
    Ok(())
}

/// Closes the open text: it is held as if all its parts had been loaded at once. If that is
/// refused, the text is no longer open, and nothing else has changed.
pub fn close(pool: &mut [u64]) -> Result<(), Refused> {
    let held = held_beside_open(pool)?;
    let opened = Opened::of(pool, held);
    pool[OPEN] = 0;
    opened.end(pool, held)
}

/// Drops the open text.
pub fn drop(pool: &mut [u64]) -> Result<(), Refused> {
    held_beside_open(pool)?;
    pool[OPEN] = 0;
    Ok(())
}

/// How far the areas of an undamaged pool are in use by held texts, while one is open.
fn held_beside_open(pool: &[u64]) -> Result<Extent, Refusal> {
    let held = Held::of(pool)?.extent();
    if !is_open(pool) {
        return Err(Refusal::NotHeld);
    }
    Ok(held)
}
