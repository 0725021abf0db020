//! Variables: the values of the last direct assignment of a name, and of what is appended later.

use std::ops::Range;

use crate::layout::{kind, lower, operator, pack_name, Held, PackedName};
use crate::text::{Kind, Operator, Value};

/// Where a variable is.
pub struct Variable {
    name: PackedName,
    /// The first statement that counts, and the place of its first value.
    statement: usize,
    value: usize,
    /// The number of its values.
    pub count: usize,
    /// Whether any of them is a number, and whether any is a string.
    pub has_numbers: bool,
    pub has_strings: bool,
}

impl Variable {
    /// Finds a variable.
    pub fn find(held: &Held, name: &[u8]) -> Option<Variable> {
        let name = pack_name(name)?;
        let mut found: Option<Variable> = None;
        let mut value = 0;
        for (statement, head) in held.heads.iter().enumerate() {
            if held.names[statement] == name {
                let before = found.filter(|_| operator(*head) == Operator::Append);
                let variable = before.unwrap_or_else(|| Variable::begun(name, statement, value));
                found = Some(variable.with(*head));
            }
            value += lower(*head) as usize;
        }
        found
    }

    /// A variable before its first statement.
    fn begun(name: PackedName, statement: usize, value: usize) -> Variable {
        Variable {
            name,
            statement,
            value,
            count: 0,
            has_numbers: false,
            has_strings: false,
        }
    }

    /// The variable with the values of one more statement.
    fn with(mut self, head: u64) -> Variable {
        self.count += lower(head) as usize;
        match kind(head) {
            Kind::Number => self.has_numbers = true,
            Kind::String => self.has_strings = true,
        }
        self
    }

    /// The kinds of its statements, and the places of their values among all values.
    fn statements<'a>(&self, held: &'a Held) -> impl Iterator<Item = (Kind, Range<usize>)> + 'a {
        let name = self.name;
        let mut end = self.value;
        (self.statement..held.heads.len()).filter_map(move |statement| {
            let head = held.heads[statement];
            let start = end;
            end += lower(head) as usize;
            (held.names[statement] == name).then_some((kind(head), start..end))
        })
    }

    /// Writes the values of a variable of numbers to a buffer of exactly their number.
    pub fn copy_numbers(&self, held: &Held, buffer: &mut [f64]) {
        let mut room = buffer.iter_mut();
        for (_, values) in self.statements(held) {
            for (bits, place) in held.values[values].iter().zip(&mut room) {
                *place = f64::from_bits(*bits);
            }
        }
    }

    /// Where among all values the one at a place is, which is counted from 1.
    pub fn value(&self, held: &Held, place: usize) -> Option<usize> {
        let before = place.checked_sub(1)?;
        let mut values = self.statements(held).flat_map(|(_, values)| values);
        values.nth(before)
    }

    /// All values, numbers and strings as they come.
    pub fn values(&self, held: &Held) -> Vec<Value> {
        self.statements(held)
            .flat_map(|(kind, values)| values.map(move |value| (kind, value)))
            .map(|(kind, value)| match kind {
                Kind::Number => Value::Number(f64::from_bits(held.values[value])),
                Kind::String => Value::String(held.string(value).collect()),
            })
            .collect()
    }
}
