//! What a text's statements come to in a pool: first counted, then written behind what is there.

use crate::layout::{
    head, pack_name, put_byte, with_value, without_value, Extent, HEADS_AT, NAMES_AT, NAME_WORDS,
    STRINGS_AT, VALUES_AT,
};
use crate::string::Quoted;
use crate::text::{scan_line, Kind, Operator, Sink, State};

/// The first scan of a text only counts.
impl Sink for Extent {
    fn head(&mut self, _: &[u8], _: Operator) {
        self.statements += 1;
    }

    fn number(&mut self, _: f64) {
        self.values += 1;
    }

    fn string(&mut self, string: Quoted) {
        self.values += 1;
        self.string_bytes += string.length();
    }
}

/// The second scan writes to the free end of each area.
pub struct Writer<'a> {
    pub pool: &'a mut [u64],
    pub end: Extent,
}

impl Writer<'_> {
    /// Writes a line that is right and has room, from the state that it begins in. A list that has
    /// no value yet holds a place with the number 0, which its first value takes: every statement
    /// has a value so, also between two lines.
    pub fn line(&mut self, state: State, line: &[u8]) {
        if state.is_empty_list() {
            let place = HEADS_AT + self.end.statements - 1;
            self.pool[place] = without_value(self.pool[place]);
            self.end.values -= 1;
        }
        let next = scan_line(state, line, self);
        if next.is_ok_and(State::is_empty_list) {
            self.number(0.0);
        }
    }

    /// A value's word, and one value more in its statement's head.
    fn value(&mut self, kind: Kind, word: u64) {
        let place = HEADS_AT + self.end.statements - 1;
        self.pool[place] = with_value(self.pool[place], kind);
        self.pool[VALUES_AT + self.end.values] = word;
        self.end.values += 1;
    }
}

impl Sink for Writer<'_> {
    fn head(&mut self, name: &[u8], operator: Operator) {
        let statement = self.end.statements;
        self.pool[HEADS_AT + statement] = head(operator);
        if let Some(words) = pack_name(name) {
            let at = NAMES_AT + NAME_WORDS * statement;
            self.pool[at..at + NAME_WORDS].copy_from_slice(&words);
        }
        self.end.statements += 1;
    }

    fn number(&mut self, number: f64) {
        self.value(Kind::Number, number.to_bits());
    }

    fn string(&mut self, string: Quoted) {
        self.value(Kind::String, string.length() as u64);
        for byte in string.bytes() {
            put_byte(&mut self.pool[STRINGS_AT..], self.end.string_bytes, byte);
            self.end.string_bytes += 1;
        }
    }
}
