//! A text to its statements: document 01, "Text rules", with the lines of K1, the strings of K2 and
//! the faults of K3 of document 02. One scanner reads a text line by line and tells a sink what it
//! meets; it keeps no more than whether a list is open and of which kind. Reading from left to right,
//! the first fault met is the first there is.

use crate::decimal::{self, Reading};
use crate::limits::{LINE_BYTES, NAME_BYTES};
use crate::refusal::{Refusal, Refused};
use crate::string::{self, Quoted, QUOTE};

const BEGIN_DATA: &[u8] = b"\\begindata";
const BEGIN_TEXT: &[u8] = b"\\begintext";

/// Direct is `=`, append is `+=`.
#[derive(Clone, Copy, Debug, PartialEq, Eq)]
pub enum Operator {
    Direct,
    Append,
}

/// What a value is; those of one statement are all of one kind.
#[derive(Clone, Copy, Debug, PartialEq, Eq)]
pub enum Kind {
    Number,
    String,
}

#[derive(Clone, Debug, PartialEq)]
pub enum Value {
    Number(f64),
    String(Vec<u8>),
}

/// One statement of a text.
#[derive(Clone, Debug, PartialEq)]
pub struct Statement {
    pub name: Vec<u8>,
    pub operator: Operator,
    pub values: Vec<Value>,
}

/// What is told while a text is scanned: a statement's head, then each of its values.
pub trait Sink {
    fn head(&mut self, name: &[u8], operator: Operator);
    fn number(&mut self, number: f64);
    fn string(&mut self, string: Quoted);
}

/// The statements of a text, or its first fault.
pub fn read(text: &[u8]) -> Result<Vec<Statement>, Refused> {
    let mut statements = Vec::new();
    scan(text, &mut statements)?;
    Ok(statements)
}

impl Sink for Vec<Statement> {
    fn head(&mut self, name: &[u8], operator: Operator) {
        self.push(Statement {
            name: name.to_vec(),
            operator,
            values: Vec::new(),
        });
    }

    fn number(&mut self, number: f64) {
        add_value(self, Value::Number(number));
    }

    fn string(&mut self, string: Quoted) {
        add_value(self, Value::String(string.bytes().collect()));
    }
}

/// One more value of the last statement.
fn add_value(statements: &mut [Statement], value: Value) {
    if let Some(statement) = statements.last_mut() {
        statement.values.push(value);
    }
}

/// A fault of a line, with what stands from there to the line's end: nothing, if the fault is that
/// something is missing there.
pub struct Fault<'a> {
    pub refusal: Refusal,
    rest: &'a [u8],
}

impl Fault<'_> {
    /// The fault in a line of its number.
    fn within(self, line: &[u8], number: u64) -> Refused {
        self.refusal.at(number, self.place(line) + 1)
    }

    /// How many bytes of its line stand before it: all of them if something is missing.
    pub fn place(&self, line: &[u8]) -> u64 {
        (line.len() - self.rest.len()) as u64
    }
}

/// Tells a sink the statements of a text, up to the first fault if there is one.
pub fn scan(text: &[u8], sink: &mut impl Sink) -> Result<(), Refused> {
    let mut state = State::Text;
    let mut line = text;
    let mut rest = text;
    let mut number = 0;
    while !rest.is_empty() {
        (line, rest) = first_line(rest);
        number += 1;
        state = scan_line(state, line, sink).map_err(|fault| fault.within(line, number))?;
    }
    match state {
        State::Text | State::Data => Ok(()),
        State::List { .. } => Err(open_at_end(number, line.len() as u64)),
    }
}

/// A list that is open at the end of the text is told one past its last line.
pub fn open_at_end(lines: u64, length: u64) -> Refused {
    Refusal::OpenList.at(lines, length + 1)
}

/// Where a line begins: in a text section, in a data section, or there within an open list, whose
/// kind is that of its first value.
#[derive(Clone, Copy, Debug, PartialEq, Eq)]
pub enum State {
    Text,
    Data,
    List { kind: Option<Kind> },
}

impl State {
    /// Whether a list is open that has no value yet.
    pub fn is_empty_list(self) -> bool {
        self == State::List { kind: None }
    }
}

/// The first line without its end, and what follows it.
fn first_line(text: &[u8]) -> (&[u8], &[u8]) {
    match text.iter().position(|b| *b == b'\n') {
        None => (text, &[]),
        Some(end) => (without_cr(&text[..end]), &text[end + 1..]),
    }
}

/// What stands before an LF without one CR: this belongs to the line's end only when an LF follows
/// it.
pub fn without_cr(line: &[u8]) -> &[u8] {
    line.strip_suffix(b"\r").unwrap_or(line)
}

/// The state after a line, or the line's first fault.
pub fn scan_line<'a>(
    state: State,
    line: &'a [u8],
    sink: &mut impl Sink,
) -> Result<State, Fault<'a>> {
    let section = delimited(line);
    if state == State::Text && section.is_none() {
        return Ok(State::Text);
    }
    // Here a line is a data or delimiter line; all others may have any length.
    if line.len() > LINE_BYTES {
        return fault(Refusal::LineTooLong, &line[LINE_BYTES..]);
    }
    if let Some(section) = section {
        return match state {
            State::Text | State::Data => Ok(section),
            State::List { .. } => fault(Refusal::OpenList, line),
        };
    }
    let bad = skip(line, is_data_byte);
    if !bad.is_empty() {
        return fault(Refusal::BadByte, bad);
    }
    match state {
        State::List { kind } => scan_list(line, kind, sink),
        State::Text | State::Data => scan_statement(line, sink),
    }
}

/// A fault at the first byte of the rest of a line.
fn fault<T>(refusal: Refusal, rest: &[u8]) -> Result<T, Fault<'_>> {
    Err(Fault { refusal, rest })
}

/// The section that a delimiter line opens.
fn delimited(line: &[u8]) -> Option<State> {
    let first = line.iter().position(|b| !is_blank(*b))?;
    let last = line.iter().rposition(|b| !is_blank(*b))?;
    match &line[first..=last] {
        BEGIN_DATA => Some(State::Data),
        BEGIN_TEXT => Some(State::Text),
        _ => None,
    }
}

/// A data line outside of any list: nothing, or a statement.
fn scan_statement<'a>(line: &'a [u8], sink: &mut impl Sink) -> Result<State, Fault<'a>> {
    let line = skip(line, is_blank);
    if line.is_empty() {
        return Ok(State::Data);
    }
    let (name, after) = run(line, is_name_byte);
    if name.is_empty() || name.len() > NAME_BYTES {
        return fault(Refusal::BadName, line);
    }
    let line = skip(after, is_blank);
    let (operator, after) = match line {
        [b'=', after @ ..] => (Operator::Direct, after),
        [b'+', b'=', after @ ..] => (Operator::Append, after),
        _ => return fault(Refusal::NoOperator, line),
    };
    sink.head(name, operator);
    let line = skip(after, is_blank);
    if let [b'(', after @ ..] = line {
        scan_list(after, None, sink)
    } else {
        scan_rest(scan_value(line, kind_of(line), sink)?)
    }
}

/// A line, or the rest of one, within a list. A value of the second kind is a fault before anything
/// that may be wrong with it.
fn scan_list<'a>(
    line: &'a [u8],
    kind: Option<Kind>,
    sink: &mut impl Sink,
) -> Result<State, Fault<'a>> {
    let mut kind = kind;
    let mut line = skip(line, is_separator);
    loop {
        line = match (line, kind) {
            ([], _) => return Ok(State::List { kind }),
            ([b')', ..], None) => return fault(Refusal::OpenList, line),
            ([b')', after @ ..], Some(_)) => return scan_rest(after),
            _ => {
                let next = kind_of(line);
                if *kind.get_or_insert(next) != next {
                    return fault(Refusal::BadValue, line);
                }
                skip(scan_value(line, next, sink)?, is_separator)
            }
        };
    }
}

/// The kind of the value at the start of a line: a string's first byte is a quote.
fn kind_of(line: &[u8]) -> Kind {
    match line {
        [QUOTE, ..] => Kind::String,
        _ => Kind::Number,
    }
}

/// What follows the value at the start of a line. Whatever is wrong with a value is a fault at its
/// first byte.
fn scan_value<'a>(line: &'a [u8], kind: Kind, sink: &mut impl Sink) -> Result<&'a [u8], Fault<'a>> {
    let scanned = match kind {
        Kind::Number => scan_number(line, sink),
        Kind::String => scan_string(&line[1..], sink),
    };
    scanned.or_else(|refusal| fault(refusal, line))
}

/// What follows the number at the start of a line. A bracket or a comma there, or nothing, is an
/// empty run and so no value.
fn scan_number<'a>(line: &'a [u8], sink: &mut impl Sink) -> Result<&'a [u8], Refusal> {
    let (value, after) = run(line, is_value_byte);
    match decimal::read(value) {
        Reading::Number(number) => {
            sink.number(number);
            Ok(after)
        }
        Reading::Form => Err(Refusal::BadValue),
        Reading::Class => Err(Refusal::Number),
    }
}

/// What follows the string whose opening quote stands just before: a blank, comma, bracket or the
/// line's end.
fn scan_string<'a>(line: &'a [u8], sink: &mut impl Sink) -> Result<&'a [u8], Refusal> {
    let (string, after) = string::read(line).ok_or(Refusal::BadValue)?;
    if after.first().is_some_and(|b| is_value_byte(*b)) {
        return Err(Refusal::BadValue);
    }
    sink.string(string);
    Ok(after)
}

/// After a statement only blanks follow on its line.
fn scan_rest(line: &[u8]) -> Result<State, Fault<'_>> {
    let stray = skip(line, is_blank);
    if stray.is_empty() {
        Ok(State::Data)
    } else {
        fault(Refusal::RestOfLine, stray)
    }
}

/// The longest run of a class that opens a line, and what follows it.
fn run(line: &[u8], class: impl Fn(u8) -> bool) -> (&[u8], &[u8]) {
    let end = line.iter().position(|b| !class(*b)).unwrap_or(line.len());
    line.split_at(end)
}

/// What follows the longest run of a class.
fn skip(line: &[u8], class: impl Fn(u8) -> bool) -> &[u8] {
    run(line, class).1
}

/// The bytes of data lines, and so of strings.
pub fn is_data_byte(b: u8) -> bool {
    matches!(b, b' '..=b'~' | b'\t')
}

pub fn is_blank(b: u8) -> bool {
    matches!(b, b' ' | b'\t')
}

fn is_separator(b: u8) -> bool {
    is_blank(b) || b == b','
}

fn is_value_byte(b: u8) -> bool {
    !is_separator(b) && !matches!(b, b'(' | b')')
}

/// The bytes of names: letters, digits and underscores.
pub fn is_name_byte(b: u8) -> bool {
    b.is_ascii_alphanumeric() || b == b'_'
}
