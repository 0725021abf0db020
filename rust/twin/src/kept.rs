//! What is kept of a line that is not complete: K5 of document 02, "whose kept line is over 133
//! bytes".
//! A line that fills it is too long for a data section, whatever else it has. Of a line of a text
//! section it must still be told whether without outer blanks it is a delimiter.

use crate::limits::KEPT_BYTES;
use crate::text::is_blank;

#[derive(Clone, Copy, Debug)]
pub struct Kept {
    bytes: [u8; KEPT_BYTES],
    length: usize,
}

impl Kept {
    /// Nothing of a line yet.
    pub fn new() -> Kept {
        Kept {
            bytes: [0; KEPT_BYTES],
            length: 0,
        }
    }

    pub fn line(&self) -> &[u8] {
        &self.bytes[..self.length]
    }

    pub fn is_empty(&self) -> bool {
        self.length == 0
    }

    /// One byte more of the line. Where all room is taken, a blank at the start makes room: outer
    /// blanks are no part of a delimiter. Once the line begins with another byte, a blank changes
    /// nothing, and any other byte, put in the last place, is behind a delimiter or not in one.
    pub fn push(&mut self, byte: u8) {
        if self.length < KEPT_BYTES {
            self.bytes[self.length] = byte;
            self.length += 1;
        } else if is_blank(self.bytes[0]) {
            self.bytes.copy_within(1.., 0);
            self.bytes[KEPT_BYTES - 1] = byte;
        } else if !is_blank(byte) {
            self.bytes[KEPT_BYTES - 1] = byte;
        }
    }
}
