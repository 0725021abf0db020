//! `twin texts-input` and `twin texts`: a stream of texts, and what each of them is.
//! A text in the stream is its length in decimal, LF, its bytes, LF.

use std::io::{self, Write};

use twin::text;

use super::stream::{number, Stream};
use super::text_samples::samples;

/// The stream of sample texts.
pub fn write_input(out: &mut impl Write) -> io::Result<()> {
    for text in samples() {
        writeln!(out, "{}", text.len())?;
        out.write_all(&text)?;
        writeln!(out)?;
    }
    Ok(())
}

/// For each text its place in the stream, the refusal's number, line and column, and the counts.
pub fn write(input: &[u8], out: &mut impl Write) -> io::Result<()> {
    let mut stream = Stream::new(input);
    let mut place = 0;
    while let Some(length) = stream.line() {
        place += 1;
        let text = stream.bytes(number(length)?)?;
        match text::read(text) {
            Ok(statements) => {
                let values: usize = statements.iter().map(|s| s.values.len()).sum();
                writeln!(out, "{place} 0 0 0 {} {values}", statements.len())?;
            }
            Err(refused) => {
                let number = refused.refusal.number();
                let (line, column) = (refused.line, refused.column);
                writeln!(out, "{place} {number} {line} {column} 0 0")?;
            }
        }
    }
    Ok(())
}
