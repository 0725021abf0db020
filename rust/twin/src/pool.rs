//! The calls on a pool: document 01, "What the library holds" and "Refusal numbers", and of document
//! 02 the strings of K2 and the 22 of K5; the calls on an open text are in `parts`.
//! A pool is memory lent by the caller; a refused call leaves every word of it.

use crate::layout::{
    counted, is_open, lower, pair, Extent, Held, HEADS_AT, NAMES_AT, NAME_WORDS, OPEN,
    STATEMENT_TOTAL, STRINGS_AT, STRING_TOTAL, TEXTS_AT, TEXT_TOTAL, VALUES_AT, VALUE_TOTAL, WORDS,
};
use crate::limits::{STRING_ROOM, TEXTS, TEXT_BYTES};
use crate::refusal::{Refusal, Refused};
use crate::storing::Writer;
use crate::text::scan;
use crate::variable::Variable;

/// What a pool holds.
#[derive(Clone, Copy, Debug, Default, PartialEq, Eq)]
pub struct Totals {
    pub texts: usize,
    pub statements: usize,
    pub values: usize,
}

/// Makes any memory of the fixed size an empty pool, in which no text is open.
pub fn make_empty(pool: &mut [u64]) -> Result<(), Refused> {
    if pool.len() != WORDS {
        return Err(Refusal::DamagedPool.into());
    }
    write_totals(pool, Extent::default());
    pool[OPEN] = 0;
    Ok(())
}

/// What is held in an undamaged pool, while none is open.
fn held_alone(pool: &[u64]) -> Result<Held<'_>, Refusal> {
    let held = Held::of(pool)?;
    if is_open(pool) {
        return Err(Refusal::TextOpen);
    }
    Ok(held)
}

/// Loads a text under a label. It is scanned twice: before it is known to be right and to have
/// room, nothing is written.
pub fn load(pool: &mut [u64], label: u32, text: &[u8]) -> Result<(), Refused> {
    let held = held_alone(pool)?;
    if held.place(label).is_some() {
        return Err(Refusal::LabelHeld.into());
    }
    if text.len() > TEXT_BYTES {
        return Err(Refusal::TextTooLong.into());
    }
    let mut new = Extent {
        texts: 1,
        ..Extent::default()
    };
    scan(text, &mut new)?;
    let before = held.extent();
    let after = before.and(new);
    if after.texts > TEXTS || !after.fits() {
        return Err(Refusal::NoRoom.into());
    }
    let mut writer = Writer { pool, end: before };
    scan(text, &mut writer)?;
    pool[TEXTS_AT + before.texts] = pair(label, new.statements as u32);
    write_totals(pool, after);
    Ok(())
}

/// Takes out the text under a label.
pub fn remove(pool: &mut [u64], label: u32) -> Result<(), Refused> {
    let held = held_alone(pool)?;
    let text = held.place(label).ok_or(Refusal::NotHeld)?;
    let statement = counted(&held.texts[..text]) as usize;
    let statements = lower(held.texts[text]) as usize;
    let value = counted(&held.heads[..statement]) as usize;
    let values = counted(&held.heads[statement..][..statements]) as usize;
    let byte = held.string_bytes_before(value);
    let bytes = held.string_bytes_before(value + values) - byte;
    let after = held.extent().without(Extent {
        texts: 1,
        statements,
        values,
        string_bytes: bytes,
    });
    close_gap(pool, TEXTS_AT, text, 1, after.texts);
    close_gap(pool, HEADS_AT, statement, statements, after.statements);
    close_gap(
        pool,
        NAMES_AT,
        NAME_WORDS * statement,
        NAME_WORDS * statements,
        NAME_WORDS * after.statements,
    );
    close_gap(pool, VALUES_AT, value, values, after.values);
    close_string_gap(pool, byte, bytes, after.string_bytes);
    write_totals(pool, after);
    Ok(())
}

/// Takes out all texts.
pub fn clear(pool: &mut [u64]) -> Result<(), Refused> {
    held_alone(pool)?;
    write_totals(pool, Extent::default());
    Ok(())
}

/// Writes a variable's values from the buffer's start and tells their number.
pub fn fetch(pool: &[u64], name: &[u8], buffer: &mut [f64]) -> Result<usize, Refused> {
    let held = Held::of(pool)?;
    let variable = Variable::find(&held, name).ok_or(Refusal::NoVariable)?;
    if variable.has_strings {
        return Err(Refusal::MixedKind.into());
    }
    let room = buffer
        .get_mut(..variable.count)
        .ok_or(Refusal::ShortBuffer)?;
    variable.copy_numbers(&held, room);
    Ok(variable.count)
}

/// Writes the string at a place of a variable, counted from 1, from the buffer's start and tells
/// its length.
pub fn fetch_string(
    pool: &[u64],
    name: &[u8],
    place: usize,
    buffer: &mut [u8],
) -> Result<usize, Refused> {
    let held = Held::of(pool)?;
    let variable = Variable::find(&held, name).ok_or(Refusal::NoVariable)?;
    let value = variable.value(&held, place).ok_or(Refusal::NoVariable)?;
    if variable.has_numbers {
        return Err(Refusal::MixedKind.into());
    }
    let string = held.string(value);
    let length = string.len();
    let room = buffer.get_mut(..length).ok_or(Refusal::ShortBuffer)?;
    for (room, byte) in room.iter_mut().zip(string) {
        *room = byte;
    }
    Ok(length)
}

/// How many texts, statements and values are held.
pub fn totals(pool: &[u64]) -> Result<Totals, Refused> {
    let held = Held::of(pool)?.extent();
    Ok(Totals {
        texts: held.texts,
        statements: held.statements,
        values: held.values,
    })
}

/// Writes how far each area is in use by held texts.
pub fn write_totals(pool: &mut [u64], extent: Extent) {
    pool[TEXT_TOTAL] = extent.texts as u64;
    pool[STATEMENT_TOTAL] = extent.statements as u64;
    pool[VALUE_TOTAL] = extent.values as u64;
    pool[STRING_TOTAL] = extent.string_bytes as u64;
}

/// Moves down what stands after a gap in an area, so that `left` words are in use.
fn close_gap(pool: &mut [u64], area: usize, gap: usize, length: usize, left: usize) {
    pool.copy_within(area + gap + length..area + length + left, area + gap);
}

/// Moves down the bytes after a gap in the strings, so that `left` bytes are in use.
fn close_string_gap(pool: &mut [u64], gap: usize, length: usize, left: usize) {
    if length == 0 {
        return;
    }
    let mut bytes = [0; STRING_ROOM];
    let (chunks, _) = bytes.as_chunks_mut();
    for (chunk, word) in chunks.iter_mut().zip(&pool[STRINGS_AT..]) {
        *chunk = word.to_be_bytes();
    }
    bytes.copy_within(gap + length..length + left, gap);
    let (chunks, _) = bytes.as_chunks();
    for (chunk, word) in chunks.iter().zip(&mut pool[STRINGS_AT..]) {
        *word = u64::from_be_bytes(*chunk);
    }
}
