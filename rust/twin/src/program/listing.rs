//! `twin listing`: the listing of the text on standard input.

use std::io::{self, Read, Write};

use twin::limits::TEXT_BYTES;
use twin::listing::list;

/// Reads one byte more than a text may have, so that a longer input is refused, never cut.
pub fn write(out: &mut impl Write) -> io::Result<()> {
    let mut text = Vec::new();
    io::stdin()
        .lock()
        .take(TEXT_BYTES as u64 + 1)
        .read_to_end(&mut text)?;
    list(&text, out)
}
