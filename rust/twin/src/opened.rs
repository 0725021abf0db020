//! An open text between two parts: what its complete lines came to, and what is kept of the line
//! that goes on. Every content of its words has a meaning, numbers out of range by their remainder.

use crate::kept::Kept;
use crate::layout::{
    kind, lower, packed_byte, pair, put_byte, upper, Extent, BYTE_COUNT, CR_WAITS, FAULT,
    FAULT_LINE, FAULT_PLACE, HEADS_AT, KEPT_AT, KEPT_LENGTH, LAST_LENGTH, LINES, OPEN,
    OPEN_STRING_BYTES, OPEN_VALUES, READER, TEXTS_AT, VALUES_AT, WAY,
};
use crate::limits::{KEPT_BYTES, PARTS_BYTES, TEXTS};
use crate::pool::write_totals;
use crate::refusal::{Refusal, Refused};
use crate::storing::Writer;
use crate::text::{open_at_end, scan_line, without_cr, Kind, State};

/// One more than the largest number of bytes or of lines that is told apart.
const COUNTS: u64 = PARTS_BYTES as u64 + 2;

/// The faults of a line in the order of their numbers in memory.
const FAULTS: [Refusal; 8] = [
    Refusal::LineTooLong,
    Refusal::BadByte,
    Refusal::BadName,
    Refusal::NoOperator,
    Refusal::BadValue,
    Refusal::OpenList,
    Refusal::RestOfLine,
    Refusal::Number,
];

/// The states in which a line may begin, in the order of their numbers in memory.
const READERS: [State; 5] = [
    State::Text,
    State::Data,
    State::List { kind: None },
    State::List {
        kind: Some(Kind::Number),
    },
    State::List {
        kind: Some(Kind::String),
    },
];

/// How the complete lines stand.
#[derive(Clone, Copy, Debug, PartialEq, Eq)]
enum Standing {
    /// All are right, and what they say is stored behind the held texts.
    Storing { reader: State },
    /// All are right, but there is too little room for what they say.
    Overflowed { reader: State },
    /// One is faulty.
    Faulted {
        fault: Refusal,
        line: u64,
        place: u64,
    },
}

/// What the complete lines came to: how they stand, and what is stored of them.
#[derive(Clone, Copy, Debug, PartialEq, Eq)]
struct Progress {
    standing: Standing,
    stored: Extent,
}

impl Progress {
    /// Nothing is stored any more.
    fn without_stored(standing: Standing) -> Progress {
        Progress {
            standing,
            stored: Extent::default(),
        }
    }

    /// The progress after one more line of its number. Nothing is written.
    fn after(self, line: &[u8], number: u64, held: Extent) -> Progress {
        let reader = match self.standing {
            Standing::Storing { reader } | Standing::Overflowed { reader } => reader,
            Standing::Faulted { .. } => return self,
        };
        let mut new = Extent::default();
        let next = match scan_line(reader, line, &mut new) {
            Ok(next) => next,
            Err(fault) => {
                return Progress::without_stored(Standing::Faulted {
                    fault: fault.refusal,
                    line: number,
                    place: fault.place(line),
                })
            }
        };
        if matches!(self.standing, Standing::Overflowed { .. }) {
            let standing = Standing::Overflowed { reader: next };
            return Progress { standing, ..self };
        }
        let before = self.stored.without(placeholder(reader));
        let stored = before.and(new).and(placeholder(next));
        if !held.and(stored).fits() {
            return Progress::without_stored(Standing::Overflowed { reader: next });
        }
        let standing = Standing::Storing { reader: next };
        Progress { standing, stored }
    }

    /// Writes a line behind what is stored, unless it has nothing to store.
    fn write_line(self, after: Progress, line: &[u8], pool: &mut [u64], held: Extent) {
        let still_storing = matches!(after.standing, Standing::Storing { .. });
        if let Standing::Storing { reader } = self.standing {
            if still_storing && self != after {
                let end = held.and(self.stored);
                Writer { pool, end }.line(reader, line);
            }
        }
    }

    /// The progress in memory, behind what is held. While storing, a list is open only as the last
    /// stored statement has it.
    fn of(pool: &[u64], held: Extent) -> Progress {
        let stored = Extent {
            texts: 0,
            statements: lower(pool[TEXTS_AT + held.texts]) as usize,
            values: pool[OPEN_VALUES] as usize,
            string_bytes: pool[OPEN_STRING_BYTES] as usize,
        };
        let reader = READERS[(pool[READER] % 5) as usize];
        let standing = match pool[WAY] % 3 {
            0 => Standing::Storing {
                reader: borne_out(reader, pool, held, stored),
            },
            1 => Standing::Overflowed { reader },
            _ => Standing::Faulted {
                fault: FAULTS[(pool[FAULT] % 8) as usize],
                line: pool[FAULT_LINE] % COUNTS,
                place: pool[FAULT_PLACE] % KEPT_BYTES as u64,
            },
        };
        Progress { standing, stored }
    }

    /// Writes the progress: what it does not have is 0.
    fn write(self, pool: &mut [u64]) {
        pool[WAY..=FAULT_PLACE].fill(0);
        match self.standing {
            Standing::Storing { reader } => pool[READER] = number_in(&READERS, reader),
            Standing::Overflowed { reader } => {
                pool[WAY] = 1;
                pool[READER] = number_in(&READERS, reader);
            }
            Standing::Faulted { fault, line, place } => {
                pool[WAY] = 2;
                pool[FAULT] = number_in(&FAULTS, fault);
                pool[FAULT_LINE] = line;
                pool[FAULT_PLACE] = place;
            }
        }
        pool[OPEN_VALUES] = self.stored.values as u64;
        pool[OPEN_STRING_BYTES] = self.stored.string_bytes as u64;
    }
}

/// What a list without a value takes, so that its statement has one.
fn placeholder(state: State) -> Extent {
    Extent {
        values: usize::from(state.is_empty_list()),
        ..Extent::default()
    }
}

/// A reader as far as what is stored agrees: a list is that of the last statement, and has no value
/// yet only if that one has the number 0 alone.
fn borne_out(reader: State, pool: &[u64], held: Extent, stored: Extent) -> State {
    if !matches!(reader, State::List { .. }) {
        return reader;
    }
    if stored.statements == 0 {
        return State::Data;
    }
    let end = held.and(stored);
    let head = pool[HEADS_AT + end.statements - 1];
    let kind = kind(head);
    let holds_a_place =
        kind == Kind::Number && lower(head) == 1 && pool[VALUES_AT + end.values - 1] == 0;
    if reader.is_empty_list() && holds_a_place {
        return reader;
    }
    State::List { kind: Some(kind) }
}

fn number_in<T: PartialEq>(all: &[T], one: T) -> u64 {
    all.iter().take_while(|other| **other != one).count() as u64
}

/// One more, but never more than one past the limit.
fn one_more(count: u64) -> u64 {
    (count + 1).min(COUNTS - 1)
}

pub struct Opened {
    label: u32,
    progress: Progress,
    /// The number of complete lines, and how long the last one was, as far as that is told apart.
    lines: u64,
    last_length: u64,
    kept: Kept,
    /// Whether a CR came last, which belongs to the line unless an LF follows.
    cr_waits: bool,
    bytes: u64,
}

impl Opened {
    /// A text that is just opened.
    pub fn new(label: u32) -> Opened {
        Opened {
            label,
            progress: Progress::without_stored(Standing::Storing {
                reader: State::Text,
            }),
            lines: 0,
            last_length: 0,
            kept: Kept::new(),
            cr_waits: false,
            bytes: 0,
        }
    }

    /// The open text of an undamaged pool.
    pub fn of(pool: &[u64], held: Extent) -> Opened {
        let mut kept = Kept::new();
        for place in 0..pool[KEPT_LENGTH] as usize {
            kept.push(packed_byte(&pool[KEPT_AT..], place));
        }
        Opened {
            label: upper(pool[TEXTS_AT + held.texts]),
            progress: Progress::of(pool, held),
            lines: pool[LINES] % COUNTS,
            last_length: pool[LAST_LENGTH] % (KEPT_BYTES as u64 + 1),
            kept,
            cr_waits: pool[CR_WAITS] % 2 == 1,
            bytes: pool[BYTE_COUNT],
        }
    }

    /// Writes all words of the open text.
    pub fn write(&self, pool: &mut [u64], held: Extent) {
        self.progress.write(pool);
        pool[OPEN] = 1;
        pool[LINES] = self.lines;
        pool[LAST_LENGTH] = self.last_length;
        pool[CR_WAITS] = u64::from(self.cr_waits);
        pool[BYTE_COUNT] = self.bytes;
        let line = self.kept.line();
        pool[KEPT_LENGTH] = line.len() as u64;
        pool[KEPT_AT..TEXTS_AT].fill(0);
        for (place, byte) in line.iter().enumerate() {
            put_byte(&mut pool[KEPT_AT..], place, *byte);
        }
        let statements = self.progress.stored.statements;
        pool[TEXTS_AT + held.texts] = pair(self.label, statements as u32);
    }

    /// Takes a part: its complete lines are read and stored, the rest of it is kept. What is over
    /// the limit is only counted.
    pub fn take(&mut self, part: &[u8], pool: &mut [u64], held: Extent) {
        let room = (PARTS_BYTES as u64).saturating_sub(self.bytes);
        let read = part.len().min(room as usize);
        self.read(&part[..read], pool, held);
        self.bytes = (self.bytes + part.len() as u64).min(COUNTS - 1);
    }

    /// Reads on, line by line; after a faulty one lines are only counted.
    fn read(&mut self, part: &[u8], pool: &mut [u64], held: Extent) {
        let mut rest = part;
        while let Some(end) = rest.iter().position(|b| *b == b'\n') {
            let (run, after) = (&rest[..end], &rest[end + 1..]);
            if self.kept.is_empty() && !self.cr_waits {
                self.complete(without_cr(run), pool, held);
            } else {
                self.keep(run);
                let kept = self.kept;
                self.kept = Kept::new();
                self.cr_waits = false;
                self.complete(kept.line(), pool, held);
            }
            rest = after;
        }
        self.keep(rest);
    }

    /// Keeps some bytes of the line that goes on.
    fn keep(&mut self, run: &[u8]) {
        for byte in run {
            self.settle_cr();
            if *byte == b'\r' {
                self.cr_waits = true;
            } else {
                self.kept.push(*byte);
            }
        }
    }

    /// A CR that waits and is not followed by an LF is a byte of the line.
    fn settle_cr(&mut self) {
        if self.cr_waits {
            self.kept.push(b'\r');
            self.cr_waits = false;
        }
    }

    /// One more line is complete.
    fn complete(&mut self, line: &[u8], pool: &mut [u64], held: Extent) {
        let before = self.progress;
        self.lines = one_more(self.lines);
        self.last_length = line.len().min(KEPT_BYTES) as u64;
        self.progress = before.after(line, self.lines, held);
        before.write_line(self.progress, line, pool, held);
    }

    /// Ends the text: it is held, unless it is too long, faulty or without room. Only then its last
    /// line is written.
    pub fn end(mut self, pool: &mut [u64], held: Extent) -> Result<(), Refused> {
        if self.bytes > PARTS_BYTES as u64 {
            return Err(Refusal::TextTooLong.into());
        }
        self.settle_cr();
        let (line, before) = (self.kept.line(), self.progress);
        let (mut lines, mut length, mut after) = (self.lines, self.last_length, before);
        if !line.is_empty() {
            lines = one_more(lines);
            length = line.len() as u64;
            after = before.after(line, lines, held);
        }
        match after.standing {
            Standing::Faulted { fault, line, place } => return Err(fault.at(line, place + 1)),
            Standing::Storing { reader } | Standing::Overflowed { reader }
                if matches!(reader, State::List { .. }) =>
            {
                return Err(open_at_end(lines, length));
            }
            Standing::Overflowed { .. } => return Err(Refusal::NoRoom.into()),
            Standing::Storing { .. } if held.texts == TEXTS => return Err(Refusal::NoRoom.into()),
            Standing::Storing { .. } => {}
        }
        let stored = after.stored;
        before.write_line(after, line, pool, held);
        pool[TEXTS_AT + held.texts] = pair(self.label, stored.statements as u32);
        write_totals(pool, held.and(Extent { texts: 1, ..stored }));
        Ok(())
    }
}
