//! The pool and its calls.

use alloc::boxed::Box;
use alloc::vec;

use crate::answer::{Orientation, Totals};
use crate::face;
use crate::parts::OpenText;
use crate::refusal::Refused;

/// Texts, each under a label, and what they say together. A pool holds up to 16 texts with 512
/// statements and 3,072 values, numbers or strings, whose strings have up to 8,192 bytes. A refused
/// call changes nothing, but that a refused [`OpenText::close`] ends the open text.
///
/// Every call asks first whether the pool is damaged ([`Refusal::DamagedPool`]); that happens only
/// to memory that comes in by [`Pool::from_words`].
///
/// [`Refusal::DamagedPool`]: crate::Refusal::DamagedPool
#[derive(Clone, Debug)]
pub struct Pool {
    pub(crate) words: Box<[u64]>,
}

impl Pool {
    /// An empty pool.
    ///
    /// ```
    /// let pool = globe::Pool::new();
    /// assert_eq!(pool.totals()?, globe::Totals::default());
    /// # Ok::<(), globe::Refused>(())
    /// ```
    pub fn new() -> Pool {
        let mut pool = Pool::from_words(vec![0; face::pool_words()].into_boxed_slice());
        pool.make_empty()
            .expect("memory of the library's own size is never refused");
        pool
    }

    /// Memory that was kept elsewhere, as it is. What is no pool, or no longer one, is refused at
    /// the first call. All zeros, of a pool's size, are an empty pool.
    ///
    /// ```
    /// use globe::{Pool, Refusal};
    /// let mut pool = Pool::new();
    /// pool.load(7, "\\begindata\nX = 1")?;
    /// let kept: Box<[u64]> = pool.words().into();
    /// assert_eq!(Pool::from_words(kept).totals(), pool.totals());
    ///
    /// let zeros = Pool::from_words(vec![0; pool.words().len()].into());
    /// assert_eq!(zeros.totals()?.texts, 0);
    ///
    /// let short = Pool::from_words(Box::new([0; 3]));
    /// assert_eq!(short.totals().unwrap_err().refusal, Refusal::DamagedPool);
    /// # Ok::<(), globe::Refused>(())
    /// ```
    pub fn from_words(words: Box<[u64]>) -> Pool {
        Pool { words }
    }

    /// The memory, for keeping it elsewhere.
    ///
    /// ```
    /// assert_eq!(size_of_val(globe::Pool::new().words()), 53_656);
    /// ```
    pub fn words(&self) -> &[u64] {
        &self.words
    }

    /// Makes the memory an empty pool, whatever it holds; a text that is open is dropped.
    ///
    /// Refused: [`DamagedPool`](crate::Refusal::DamagedPool), for memory of another size alone.
    ///
    /// ```
    /// use globe::Pool;
    /// let size = Pool::new().words().len();
    /// let mut pool = Pool::from_words(vec![u64::MAX; size].into());
    /// assert!(pool.clear().is_err());
    /// pool.make_empty()?;
    /// assert_eq!(pool.totals()?.texts, 0);
    /// # Ok::<(), globe::Refused>(())
    /// ```
    pub fn make_empty(&mut self) -> Result<(), Refused> {
        face::make_empty(&mut self.words)
    }

    /// Loads a text under a label. Its statements come after those of all texts held.
    ///
    /// Refused, in this order: [`DamagedPool`](crate::Refusal::DamagedPool),
    /// [`TextOpen`](crate::Refusal::TextOpen), [`LabelHeld`](crate::Refusal::LabelHeld),
    /// [`TextTooLong`](crate::Refusal::TextTooLong); at the first faulty line
    /// [`LineTooLong`](crate::Refusal::LineTooLong), [`BadByte`](crate::Refusal::BadByte), then
    /// whichever of
    /// [`BadName`](crate::Refusal::BadName), [`NoOperator`](crate::Refusal::NoOperator),
    /// [`BadValue`](crate::Refusal::BadValue), [`OpenList`](crate::Refusal::OpenList),
    /// [`RestOfLine`](crate::Refusal::RestOfLine) and [`Number`](crate::Refusal::Number) starts
    /// earliest; [`NoRoom`](crate::Refusal::NoRoom).
    ///
    /// ```
    /// use globe::{Pool, Refusal};
    /// let mut pool = Pool::new();
    /// pool.load(1, "\\begindata\nX = 1")?;
    /// let refused = pool.load(1, "\\begindata\nX = 2").unwrap_err();
    /// assert_eq!(refused.refusal, Refusal::LabelHeld);
    /// let refused = pool.load(2, "\\begindata\nX : 2").unwrap_err();
    /// assert_eq!(refused.refusal, Refusal::NoOperator);
    /// assert_eq!((refused.line, refused.column), (2, 3));
    /// # Ok::<(), globe::Refused>(())
    /// ```
    pub fn load(&mut self, label: u32, text: impl AsRef<[u8]>) -> Result<(), Refused> {
        face::load(&mut self.words, label, text.as_ref())
    }

    /// Opens a text under a label, to be fed in parts: a text that comes block by block, or that
    /// is too long for [`Pool::load`]. As long as it is open, what is held stays as it is.
    ///
    /// Refused, in this order: [`DamagedPool`](crate::Refusal::DamagedPool),
    /// [`TextOpen`](crate::Refusal::TextOpen), [`LabelHeld`](crate::Refusal::LabelHeld).
    ///
    /// ```
    /// let mut pool = globe::Pool::new();
    /// let mut text = pool.open(1)?;
    /// text.feed("\\begin");
    /// text.feed("data\nX = 1");
    /// text.close()?;
    /// assert_eq!(pool.fetch("X", &mut [0.0])?, [1.0]);
    /// assert!(pool.open(1).is_err());
    /// # Ok::<(), globe::Refused>(())
    /// ```
    pub fn open(&mut self, label: u32) -> Result<OpenText<'_>, Refused> {
        face::open(&mut self.words, label)?;
        Ok(OpenText::of(self))
    }

    /// The text that is open in memory that was kept elsewhere while it was fed.
    ///
    /// Refused, in this order: [`DamagedPool`](crate::Refusal::DamagedPool),
    /// [`NotHeld`](crate::Refusal::NotHeld), if no text is open.
    ///
    /// ```
    /// let mut pool = globe::Pool::new();
    /// let mut text = pool.open(1)?;
    /// text.feed("\\begindata\nX");
    /// let kept: Box<[u64]> = text.pool().words().into();
    ///
    /// let mut again = globe::Pool::from_words(kept);
    /// let mut text = again.resume()?;
    /// text.feed(" = 1");
    /// text.close()?;
    /// assert_eq!(again.totals()?.statements, 1);
    /// assert!(again.resume().is_err());
    /// # Ok::<(), globe::Refused>(())
    /// ```
    pub fn resume(&mut self) -> Result<OpenText<'_>, Refused> {
        // A part of no bytes tells whether a text is open.
        face::feed(&mut self.words, &[])?;
        Ok(OpenText::of(self))
    }

    /// Takes out the text under a label. What it had replaced is there again.
    ///
    /// Refused, in this order: [`DamagedPool`](crate::Refusal::DamagedPool),
    /// [`TextOpen`](crate::Refusal::TextOpen), [`NotHeld`](crate::Refusal::NotHeld).
    ///
    /// ```
    /// let mut pool = globe::Pool::new();
    /// pool.load(7, "\\begindata\nX = 1")?;
    /// pool.load(8, "\\begindata\nX = 2")?;
    /// pool.remove(8)?;
    /// assert_eq!(pool.fetch("X", &mut [0.0])?, [1.0]);
    /// assert!(pool.remove(8).is_err());
    /// # Ok::<(), globe::Refused>(())
    /// ```
    pub fn remove(&mut self, label: u32) -> Result<(), Refused> {
        face::remove(&mut self.words, label)
    }

    /// Takes out all texts.
    ///
    /// Refused, in this order: [`DamagedPool`](crate::Refusal::DamagedPool),
    /// [`TextOpen`](crate::Refusal::TextOpen).
    ///
    /// ```
    /// let mut pool = globe::Pool::new();
    /// pool.load(1, "\\begindata\nX = 1")?;
    /// pool.clear()?;
    /// assert_eq!(pool.totals()?.texts, 0);
    /// # Ok::<(), globe::Refused>(())
    /// ```
    pub fn clear(&mut self) -> Result<(), Refused> {
        face::clear(&mut self.words)
    }

    /// Writes the values of a variable from the buffer's start and gives the part that was
    /// written: the values of its last direct assignment, if there is one, and of all that is
    /// appended after it.
    ///
    /// Refused, in this order: [`DamagedPool`](crate::Refusal::DamagedPool),
    /// [`NoVariable`](crate::Refusal::NoVariable), [`MixedKind`](crate::Refusal::MixedKind) if any
    /// of the values is a string, [`ShortBuffer`](crate::Refusal::ShortBuffer).
    ///
    /// ```
    /// use globe::{Pool, Refusal};
    /// let mut pool = Pool::new();
    /// pool.load(1, "\\begindata\nX = ( 1 2 )\nX += 3")?;
    /// let mut buffer = [0.0; 10];
    /// assert_eq!(pool.fetch("X", &mut buffer)?, [1.0, 2.0, 3.0]);
    /// let refused = pool.fetch("x", &mut buffer).unwrap_err();
    /// assert_eq!(refused.refusal, Refusal::NoVariable);
    /// let refused = pool.fetch("X", &mut buffer[..2]).unwrap_err();
    /// assert_eq!(refused.refusal, Refusal::ShortBuffer);
    /// # Ok::<(), globe::Refused>(())
    /// ```
    pub fn fetch<'b>(
        &self,
        name: impl AsRef<[u8]>,
        buffer: &'b mut [f64],
    ) -> Result<&'b [f64], Refused> {
        let count = face::fetch(&self.words, name.as_ref(), buffer)?;
        Ok(&buffer[..count])
    }

    /// Writes the string at a place of a variable, counted from 1, from the buffer's start and
    /// gives the part that was written. A buffer of 60 bytes is always long enough. The bytes are
    /// those between the string's quotes, each doubled quote as one: 32 to 126 and tabs.
    ///
    /// Refused, in this order: [`DamagedPool`](crate::Refusal::DamagedPool),
    /// [`NoVariable`](crate::Refusal::NoVariable), also for place 0 and past the variable's end,
    /// [`MixedKind`](crate::Refusal::MixedKind) if any of the values is a number,
    /// [`ShortBuffer`](crate::Refusal::ShortBuffer).
    ///
    /// ```
    /// use globe::{Pool, Refusal};
    /// let mut pool = Pool::new();
    /// pool.load(1, "\\begindata\nCAPTION = ( 'Mars' 'Herschel''s map' )\nX = 1")?;
    /// let mut buffer = [0; 60];
    /// assert_eq!(pool.fetch_string("CAPTION", 2, &mut buffer)?, b"Herschel's map");
    /// let refused = pool.fetch_string("CAPTION", 3, &mut buffer).unwrap_err();
    /// assert_eq!(refused.refusal, Refusal::NoVariable);
    /// let refused = pool.fetch_string("X", 1, &mut buffer).unwrap_err();
    /// assert_eq!(refused.refusal, Refusal::MixedKind);
    /// let refused = pool.fetch_string("CAPTION", 1, &mut buffer[..3]).unwrap_err();
    /// assert_eq!(refused.refusal, Refusal::ShortBuffer);
    /// # Ok::<(), globe::Refused>(())
    /// ```
    pub fn fetch_string<'b>(
        &self,
        name: impl AsRef<[u8]>,
        place: usize,
        buffer: &'b mut [u8],
    ) -> Result<&'b [u8], Refused> {
        let count = face::fetch_string(&self.words, name.as_ref(), place, buffer)?;
        Ok(&buffer[..count])
    }

    /// How many texts, statements and values are held, strings among the values.
    ///
    /// Refused: [`DamagedPool`](crate::Refusal::DamagedPool).
    ///
    /// ```
    /// let mut pool = globe::Pool::new();
    /// pool.load(1, "\\begindata\nX = ( 1 2 )\nY = 3")?;
    /// let totals = pool.totals()?;
    /// assert_eq!((totals.texts, totals.statements, totals.values), (1, 2, 3));
    /// # Ok::<(), globe::Refused>(())
    /// ```
    pub fn totals(&self) -> Result<Totals, Refused> {
        face::totals(&self.words)
    }

    /// The orientation of a body by the held texts and nothing else, at an epoch in TDB seconds
    /// past J2000.
    ///
    /// Refused, in this order: [`DamagedPool`](crate::Refusal::DamagedPool),
    /// [`Epoch`](crate::Refusal::Epoch), [`UnknownBody`](crate::Refusal::UnknownBody),
    /// [`Incomplete`](crate::Refusal::Incomplete), [`BadDegree`](crate::Refusal::BadDegree),
    /// [`MixedKind`](crate::Refusal::MixedKind), [`WrongCount`](crate::Refusal::WrongCount).
    ///
    /// ```
    /// use globe::{Pool, Refusal};
    /// let mut pool = Pool::new();
    /// pool.load(1, "\\begindata\nBODY10_POLE_RA = 286.13\nBODY10_POLE_DEC = 63.87")?;
    /// let refused = pool.orientation(10, 0.0).unwrap_err();
    /// assert_eq!(refused.refusal, Refusal::Incomplete);
    /// pool.load(2, "\\begindata\nBODY10_PM = ( 84.10 14.1844 )")?;
    /// assert_eq!(pool.orientation(10, 86_400.0)?.w, 84.10 + 14.1844);
    /// # Ok::<(), globe::Refused>(())
    /// ```
    pub fn orientation(&self, body: u32, epoch: f64) -> Result<Orientation, Refused> {
        face::orientation(&self.words, body, epoch)
    }

    /// The radii of a body by the held texts and nothing else, in the order of its variable.
    ///
    /// Refused, in this order: [`DamagedPool`](crate::Refusal::DamagedPool),
    /// [`UnknownBody`](crate::Refusal::UnknownBody), [`MixedKind`](crate::Refusal::MixedKind),
    /// [`WrongCount`](crate::Refusal::WrongCount), [`BadRadius`](crate::Refusal::BadRadius).
    ///
    /// ```
    /// let mut pool = globe::Pool::new();
    /// pool.load(1, "\\begindata\nBODY301_RADII = ( 1737.4, 1737.4, 1737.4 )")?;
    /// assert_eq!(pool.radii(301)?, [1737.4; 3]);
    /// assert!(pool.radii(499).is_err());
    /// # Ok::<(), globe::Refused>(())
    /// ```
    pub fn radii(&self, body: u32) -> Result<[f64; 3], Refused> {
        face::radii(&self.words, body)
    }
}

impl Default for Pool {
    fn default() -> Pool {
        Pool::new()
    }
}
