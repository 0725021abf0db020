//! The listing of one text: document 01, "The listing", and K2 and K3 of document 02: strings as
//! written, a refusal with its column.

use std::io::{self, Write};

use crate::layout::{unpack_name, Held, PackedName, WORDS};
use crate::pool::{load, make_empty};
use crate::refusal::Refused;
use crate::string;
use crate::text::Value;
use crate::variable::Variable;

/// Any label: the listing's pool holds one text.
const LABEL: u32 = 0;

/// Writes the variables of a text in byte order of names and their values, bits of numbers and
/// strings as written, or why it is refused.
pub fn list(text: &[u8], out: &mut impl Write) -> io::Result<()> {
    match listed(text) {
        Ok(lines) => out.write_all(&lines),
        Err(refused) => writeln!(
            out,
            "refused {} line {} column {}",
            refused.refusal.number(),
            refused.line,
            refused.column
        ),
    }
}

fn listed(text: &[u8]) -> Result<Vec<u8>, Refused> {
    let mut pool = [0; WORDS];
    make_empty(&mut pool)?;
    load(&mut pool, LABEL, text)?;
    let held = Held::of(&pool)?;

    // Packed names are ordered as their bytes are: zeros come before every byte of a name.
    let mut names: Vec<&PackedName> = held.names.iter().collect();
    names.sort();
    names.dedup();

    let mut lines = format!("variables {}\n", names.len()).into_bytes();
    let mut values = Vec::new();
    for packed in names {
        let name = unpack_name(packed);
        if let Some(variable) = Variable::find(&held, &name) {
            values.extend(variable.values(&held));
            lines.extend_from_slice(&name);
            lines.extend_from_slice(format!(" {}\n", variable.count).as_bytes());
        }
    }
    lines.extend_from_slice(format!("values {}\n", values.len()).as_bytes());
    for value in values {
        lines.extend(shown(&value));
        lines.push(b'\n');
    }
    Ok(lines)
}

fn shown(value: &Value) -> Vec<u8> {
    match value {
        Value::Number(number) => format!("{:016X}", number.to_bits()).into_bytes(),
        Value::String(bytes) => string::written(bytes),
    }
}
