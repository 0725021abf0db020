//! A string in single quotes, a quote inside written twice: K2 of document 02.

use crate::limits::STRING_BYTES;

/// What a string begins and ends with.
pub const QUOTE: u8 = b'\'';

/// A string of a text.
#[derive(Clone, Copy, Debug)]
pub struct Quoted<'a> {
    /// What stands between the quotes, each quote inside doubled.
    written: &'a [u8],
    /// The bytes that this stands for.
    length: usize,
}

impl<'a> Quoted<'a> {
    /// How many bytes the string has.
    pub fn length(self) -> usize {
        self.length
    }

    /// The bytes of the string: of a doubled quote the second one is passed over.
    pub fn bytes(self) -> impl Iterator<Item = u8> + 'a {
        let mut written = self.written.iter();
        std::iter::from_fn(move || {
            let byte = *written.next()?;
            if byte == QUOTE {
                written.next();
            }
            Some(byte)
        })
    }
}

/// The string whose opening quote stands just before, and what follows its closing quote; none if
/// it is not closed or has too many bytes.
pub fn read(line: &[u8]) -> Option<(Quoted<'_>, &[u8])> {
    let (mut end, mut length) = (0, 0);
    loop {
        match line[end..] {
            [] => return None,
            [QUOTE, QUOTE, ..] => end += 2,
            [QUOTE, ..] => break,
            _ => end += 1,
        }
        length += 1;
    }
    let written = &line[..end];
    (length <= STRING_BYTES).then_some((Quoted { written, length }, &line[end + 1..]))
}

/// A string as it is written in a text.
pub fn written(bytes: &[u8]) -> Vec<u8> {
    let mut written = vec![QUOTE];
    for byte in bytes {
        written.push(*byte);
        if *byte == QUOTE {
            written.push(QUOTE);
        }
    }
    written.push(QUOTE);
    written
}
