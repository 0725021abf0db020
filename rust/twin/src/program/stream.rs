//! Lines and counted bytes of an input.

use std::io;
use std::str::FromStr;

pub struct Stream<'a> {
    rest: &'a [u8],
}

impl<'a> Stream<'a> {
    pub fn new(input: &'a [u8]) -> Stream<'a> {
        Stream { rest: input }
    }

    /// The next line without its LF, if there is one.
    pub fn line(&mut self) -> Option<&'a [u8]> {
        let end = self.rest.iter().position(|b| *b == b'\n')?;
        let line = &self.rest[..end];
        self.rest = &self.rest[end + 1..];
        Some(line)
    }

    /// The next bytes, which an LF follows.
    pub fn bytes(&mut self, length: usize) -> io::Result<&'a [u8]> {
        match self.rest.get(length) {
            Some(b'\n') => {
                let bytes = &self.rest[..length];
                self.rest = &self.rest[length + 1..];
                Ok(bytes)
            }
            _ => Err(broken("counted bytes end without LF")),
        }
    }
}

/// A number in an input.
pub fn number<T: FromStr>(field: &[u8]) -> io::Result<T> {
    std::str::from_utf8(field)
        .ok()
        .and_then(|digits| digits.parse().ok())
        .ok_or_else(|| broken("a number is expected"))
}

/// An input that is not what the subcommand reads.
pub fn broken(why: &str) -> io::Error {
    io::Error::new(io::ErrorKind::InvalidData, why)
}
