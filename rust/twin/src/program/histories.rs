//! `twin histories-input` and `twin histories`: a script of calls on a pool, and every answer.
//! A call is a line; the text of a load, or the part of a feed, follows its line as counted bytes
//! and LF.

use std::io::{self, Write};

use twin::layout::WORDS;
use twin::parts;
use twin::pool;
use twin::refusal::{Refusal, Refused};

use super::bits::bits;
use super::history_samples::script;
use super::stream::{broken, number, Stream};

/// The words of the memory; calls get as many of the first ones as `size` says.
const MEMORY: usize = WORDS + 49;

/// What every word holds at the start.
const START: u64 = 0xA5A5_A5A5_A5A5_A5A5;

/// The script of sample calls.
pub fn write_input(out: &mut impl Write) -> io::Result<()> {
    out.write_all(&script())
}

/// The answers to a script's calls.
pub fn write(input: &[u8], out: &mut impl Write) -> io::Result<()> {
    let mut stream = Stream::new(input);
    let mut memory = vec![START; MEMORY];
    let mut size = WORDS;
    while let Some(line) = stream.line() {
        let (call, rest) = first_field(line);
        match call {
            b"size" => size = number(rest)?,
            b"word" => put_word(&mut memory, rest)?,
            _ => {
                let pool = memory
                    .get_mut(..size)
                    .ok_or_else(|| broken("a size beyond the memory"))?;
                if write_answer(call, rest, &mut stream, pool, out)? {
                    writeln!(out, "memory {:016X}", checksum(&memory))?;
                }
            }
        }
    }
    Ok(())
}

/// Puts a word into the memory from outside: its place, then its digits.
fn put_word(memory: &mut [u64], fields: &[u8]) -> io::Result<()> {
    let (index, digits) = first_field(fields);
    let index: usize = number(index)?;
    let place = memory
        .get_mut(index)
        .ok_or_else(|| broken("a word beyond the memory"))?;
    *place = word(digits)?;
    Ok(())
}

/// The answer to one call, and whether the call has changed the pool.
fn write_answer(
    call: &[u8],
    fields: &[u8],
    stream: &mut Stream,
    pool: &mut [u64],
    out: &mut impl Write,
) -> io::Result<bool> {
    match call {
        b"empty" => write_change(out, "empty", pool::make_empty(pool)),
        b"clear" => write_change(out, "clear", pool::clear(pool)),
        b"remove" => {
            let label = number(fields)?;
            write_change(out, &format!("remove {label}"), pool::remove(pool, label))
        }
        b"load" => {
            let (label, length) = first_field(fields);
            let label = number(label)?;
            let text = stream.bytes(number(length)?)?;
            write_load(out, label, pool::load(pool, label, text))
        }
        b"open" => {
            let label = number(fields)?;
            write_change(out, &format!("open {label}"), parts::open(pool, label))
        }
        b"feed" => {
            let part = stream.bytes(number(fields)?)?;
            let call = format!("feed {}", part.len());
            write_change(out, &call, parts::feed(pool, part))
        }
        b"close" => write_close(out, parts::close(pool)),
        b"drop" => write_change(out, "drop", parts::drop(pool)),
        b"fetch" => write_fetch(pool, fields, out).map(|()| false),
        b"quoted" => write_quoted(pool, fields, out).map(|()| false),
        b"totals" => write_totals(pool, out).map(|()| false),
        _ => Err(broken("an unknown call")),
    }
}

/// The answer of a call that may change the pool: what was called, and the number.
fn write_change(out: &mut impl Write, call: &str, answer: Result<(), Refused>) -> io::Result<bool> {
    writeln!(out, "{call} {}", refusal_number(&answer))?;
    Ok(answer.is_ok())
}

/// A load's answer: label, number, line and column.
fn write_load(out: &mut impl Write, label: u32, answer: Result<(), Refused>) -> io::Result<bool> {
    writeln!(out, "load {label} {}", placed(&answer))?;
    Ok(answer.is_ok())
}

/// A closing's answer: number, line and column. It has changed the pool too where the text is
/// refused.
fn write_close(out: &mut impl Write, answer: Result<(), Refused>) -> io::Result<bool> {
    writeln!(out, "close {}", placed(&answer))?;
    let kept = answer.err().map(|refused| refused.refusal);
    Ok(!matches!(
        kept,
        Some(Refusal::NotHeld | Refusal::DamagedPool)
    ))
}

/// The number, line and column of an answer.
fn placed(answer: &Result<(), Refused>) -> String {
    let (line, column) = answer
        .err()
        .map_or((0, 0), |refused| (refused.line, refused.column));
    format!("{} {line} {column}", refusal_number(answer))
}

/// A fetch's answer: name, number, count and the bits of the values. The buffer's length stands
/// before the name.
fn write_fetch(pool: &[u64], fields: &[u8], out: &mut impl Write) -> io::Result<()> {
    let (room, name) = first_field(fields);
    let mut buffer = vec![0.0; number(room)?];
    let answer = pool::fetch(pool, name, &mut buffer);
    let count = answer.unwrap_or(0);
    out.write_all(b"fetch ")?;
    out.write_all(name)?;
    write!(out, " {} {count}", refusal_number(&answer))?;
    for value in &buffer[..count] {
        write!(out, " {}", bits(*value))?;
    }
    writeln!(out)
}

/// A fetched string: name, place, number, length and, unless there are none, its bytes. The
/// buffer's length stands first, then the place, then the name.
fn write_quoted(pool: &[u64], fields: &[u8], out: &mut impl Write) -> io::Result<()> {
    let (room, rest) = first_field(fields);
    let (place, name) = first_field(rest);
    let place = number(place)?;
    let mut buffer = vec![0; number(room)?];
    let answer = pool::fetch_string(pool, name, place, &mut buffer);
    let length = answer.unwrap_or(0);
    out.write_all(b"quoted ")?;
    out.write_all(name)?;
    write!(out, " {place} {} {length}", refusal_number(&answer))?;
    if length > 0 {
        write!(out, " {}", hexadecimal(&buffer[..length]))?;
    }
    writeln!(out)
}

fn write_totals(pool: &[u64], out: &mut impl Write) -> io::Result<()> {
    let answer = pool::totals(pool);
    let totals = answer.unwrap_or_default();
    writeln!(
        out,
        "totals {} {} {} {}",
        refusal_number(&answer),
        totals.texts,
        totals.statements,
        totals.values
    )
}

/// Bytes as two digits each.
fn hexadecimal(bytes: &[u8]) -> String {
    bytes.iter().map(|byte| format!("{byte:02X}")).collect()
}

/// What stands before the first space, and what after it.
fn first_field(line: &[u8]) -> (&[u8], &[u8]) {
    match line.iter().position(|b| *b == b' ') {
        None => (line, &[]),
        Some(space) => (&line[..space], &line[space + 1..]),
    }
}

/// The number of an answer, 0 for success.
fn refusal_number<T>(answer: &Result<T, Refused>) -> u32 {
    match answer {
        Ok(_) => 0,
        Err(refused) => Refusal::number(refused.refusal),
    }
}

fn word(field: &[u8]) -> io::Result<u64> {
    std::str::from_utf8(field)
        .ok()
        .and_then(|digits| u64::from_str_radix(digits, 16).ok())
        .ok_or_else(|| broken("a word is expected"))
}

/// A number that changes with any word of the memory.
fn checksum(memory: &[u64]) -> u64 {
    memory.iter().fold(0, |h: u64, word| {
        h.wrapping_mul(31).wrapping_add(h >> 32).wrapping_add(*word)
    })
}
