//! Loading from a reader of the standard library, a block at a time.

use std::error::Error;
use std::fmt;
use std::io::{self, ErrorKind, Read};

use globe_sys::GLOBE_PARTS_BYTES;

use crate::pool::Pool;
use crate::refusal::Refused;

/// What is read at once: a card reader's block.
const BLOCK: usize = 512;

/// Why a text is not loaded from a reader.
#[derive(Debug)]
pub enum NotLoaded {
    /// The text or the label is refused.
    Refused(Refused),
    /// The reader failed before the end of the text.
    Unread(io::Error),
}

impl Pool {
    /// Loads a text under a label, read to its end in blocks of 512 bytes. No more than a block is
    /// held beside the pool, and the text may have 4,194,304 bytes. If the reader fails, or the
    /// text is refused, the pool is as it was.
    ///
    /// Refused: as [`Pool::open`], then as [`OpenText::close`](crate::OpenText::close).
    ///
    /// ```
    /// let kernel = format!("{}\\begindata\nX = 1", "A comment.\n".repeat(10_000));
    /// let mut pool = globe::Pool::new();
    /// assert!(pool.load(1, &kernel).is_err());
    /// pool.load_from(1, kernel.as_bytes())?;
    /// assert_eq!(pool.totals()?.statements, 1);
    /// # Ok::<(), Box<dyn std::error::Error>>(())
    /// ```
    pub fn load_from(&mut self, label: u32, mut reader: impl Read) -> Result<(), NotLoaded> {
        let mut text = self.open(label)?;
        let mut block = [0; BLOCK];
        let mut fed = 0;
        // What is over the limit is refused already, and a reader may have no end.
        while fed <= GLOBE_PARTS_BYTES {
            match reader.read(&mut block) {
                Ok(0) => break,
                Ok(bytes) => {
                    text.feed(&block[..bytes]);
                    fed += bytes;
                }
                Err(error) if error.kind() == ErrorKind::Interrupted => {}
                Err(error) => return Err(NotLoaded::Unread(error)),
            }
        }
        Ok(text.close()?)
    }
}

impl From<Refused> for NotLoaded {
    fn from(refused: Refused) -> NotLoaded {
        NotLoaded::Refused(refused)
    }
}

impl fmt::Display for NotLoaded {
    fn fmt(&self, f: &mut fmt::Formatter<'_>) -> fmt::Result {
        match self {
            NotLoaded::Refused(refused) => refused.fmt(f),
            NotLoaded::Unread(error) => write!(f, "the text cannot be read: {error}"),
        }
    }
}

impl Error for NotLoaded {
    fn source(&self) -> Option<&(dyn Error + 'static)> {
        match self {
            NotLoaded::Refused(refused) => Some(refused),
            NotLoaded::Unread(error) => Some(error),
        }
    }
}
