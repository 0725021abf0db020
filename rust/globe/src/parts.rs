//! A text that is fed in parts.

use core::mem;

use crate::face;
use crate::pool::Pool;
use crate::refusal::Refused;

/// A text that is open in a pool, fed with parts of any length and closed. Where it is cut does not
/// matter: closed, it is what [`Pool::load`] of all its bytes would be, up to 4,194,304 of them.
/// One that goes out of scope is dropped, as if it had never been opened.
///
/// ```
/// let mut pool = globe::Pool::new();
/// let mut text = pool.open(7)?;
/// for block in ["\\begindata\r", "\nX = ( 1", "\n2 )"] {
///     text.feed(block);
/// }
/// assert_eq!(text.pool().totals()?.texts, 0);
/// text.close()?;
/// assert_eq!(pool.totals()?.values, 2);
///
/// pool.open(8)?.feed("\\begindata\nX = 3");
/// assert_eq!(pool.totals()?.texts, 1);
/// # Ok::<(), globe::Refused>(())
/// ```
#[derive(Debug)]
pub struct OpenText<'a> {
    pool: &'a mut Pool,
}

impl<'a> OpenText<'a> {
    /// The text that is open in a pool that is not damaged.
    pub(crate) fn of(pool: &'a mut Pool) -> OpenText<'a> {
        OpenText { pool }
    }

    /// One more part, which may have no bytes. Nothing is told of it before the text is closed: not
    /// a fault, not that there is no room, not that there are too many bytes.
    pub fn feed(&mut self, part: impl AsRef<[u8]>) {
        face::feed(&mut self.pool.words, part.as_ref())
            .expect("feeding an open text of an undamaged pool is never refused");
    }

    /// The pool as it was when the text was opened, for queries between two parts.
    pub fn pool(&self) -> &Pool {
        self.pool
    }

    /// Closes the text: it is held under its label, after all texts held. If it is refused, the
    /// text is dropped, and nothing else has changed.
    ///
    /// Refused, in this order: [`TextTooLong`](crate::Refusal::TextTooLong), over 4,194,304 bytes;
    /// the first faulty line, as for [`Pool::load`]; [`NoRoom`](crate::Refusal::NoRoom).
    ///
    /// ```
    /// let mut pool = globe::Pool::new();
    /// let mut text = pool.open(7)?;
    /// text.feed("\\begindata\nX = 1 ?\n");
    /// text.feed("X = 2\n");
    /// let refused = text.close().unwrap_err();
    /// assert_eq!(refused.refusal, globe::Refusal::RestOfLine);
    /// assert_eq!((refused.line, refused.column), (2, 7));
    /// pool.load(7, "\\begindata\nX = 1")?;
    /// # Ok::<(), globe::Refused>(())
    /// ```
    pub fn close(self) -> Result<(), Refused> {
        let closed = face::close(&mut self.pool.words);
        // Either way nothing is open any more that would have to be dropped.
        mem::forget(self);
        closed
    }
}

impl Drop for OpenText<'_> {
    fn drop(&mut self) {
        face::drop(&mut self.pool.words)
            .expect("dropping an open text of an undamaged pool is never refused");
    }
}
