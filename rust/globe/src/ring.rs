//! The globe drive: a motor's ring, its positions and the moves round it.

use crate::answer::Motion;
use crate::face;
use crate::pool::Pool;
use crate::refusal::{Refusal, Refused};

/// Where an orientation comes from.
#[derive(Clone, Copy, Debug)]
pub enum Source<'a> {
    /// The held texts of a pool and nothing else.
    Pool(&'a Pool),
    /// The built-in table.
    Builtin,
}

impl<'a> From<&'a Pool> for Source<'a> {
    fn from(pool: &'a Pool) -> Source<'a> {
        Source::Pool(pool)
    }
}

/// A motor with so many positions in a whole turn, counted from 0, of which position n stands at n
/// times 360 / N degrees.
///
/// ```
/// use globe::{Ring, Source};
/// let ring = Ring::new(4_096)?;
/// let mut shell = 0;
/// for hour in 0..48 {
///     let motion = ring.step_from(shell, Source::Builtin, 399, f64::from(hour) * 3_600.0)?;
///     // The Earth turns by 15 degrees in an hour, and the shell does so over 0 too.
///     assert!(hour == 0 || (170..=172).contains(&motion.steps));
///     shell = motion.target;
/// }
/// # Ok::<(), globe::Refused>(())
/// ```
#[derive(Clone, Copy, Debug, PartialEq, Eq, Hash)]
pub struct Ring {
    positions: u32,
}

impl Ring {
    /// The fewest positions of a ring.
    pub const FEWEST: u32 = 2;

    /// The most positions of a ring.
    pub const MOST: u32 = 4_096;

    /// A ring of so many positions.
    ///
    /// Refused: [`BadRing`](Refusal::BadRing).
    ///
    /// ```
    /// use globe::{Refusal, Ring};
    /// assert_eq!(Ring::new(360)?.positions(), 360);
    /// assert_eq!(Ring::new(4_097).unwrap_err().refusal, Refusal::BadRing);
    /// # Ok::<(), globe::Refused>(())
    /// ```
    pub fn new(positions: u32) -> Result<Ring, Refused> {
        if (Ring::FEWEST..=Ring::MOST).contains(&positions) {
            Ok(Ring { positions })
        } else {
            Err(Refused {
                refusal: Refusal::BadRing,
                line: 0,
                column: 0,
            })
        }
    }

    /// How many positions it has.
    pub fn positions(self) -> u32 {
        self.positions
    }

    /// The position that a body asks for at an epoch, in TDB seconds past J2000: the largest one
    /// whose angle is not above the meridian.
    ///
    /// Refused: as the orientation, [`Pool::orientation`] or
    /// [`builtin_orientation`](crate::builtin_orientation).
    ///
    /// ```
    /// use globe::{Pool, Ring};
    /// let mut pool = Pool::new();
    /// pool.load(1, "\\begindata\nBODY1_POLE_RA = 0\nBODY1_POLE_DEC = 90\nBODY1_PM = 216")?;
    /// assert_eq!(Ring::new(360)?.position(&pool, 1, 0.0)?, 216);
    /// // As doubles 21 times 360 / 35 is above 216.
    /// assert_eq!(Ring::new(35)?.position(&pool, 1, 0.0)?, 20);
    /// # Ok::<(), globe::Refused>(())
    /// ```
    pub fn position<'a>(
        self,
        source: impl Into<Source<'a>>,
        body: u32,
        epoch: f64,
    ) -> Result<u32, Refused> {
        match source.into() {
            Source::Pool(pool) => face::position(pool.words(), body, epoch, self.positions),
            Source::Builtin => face::builtin_position(body, epoch, self.positions),
        }
    }

    /// That position, and the move to it from the present one.
    ///
    /// Refused, in this order: [`BadPosition`](Refusal::BadPosition), then as the orientation.
    ///
    /// ```
    /// use globe::{Refusal, Ring, Source};
    /// let ring = Ring::new(360)?;
    /// let motion = ring.step_from(359, Source::Builtin, 10, 0.0)?;
    /// assert_eq!((motion.target, motion.steps), (84, 85));
    /// let refused = ring.step_from(360, Source::Builtin, 10, 0.0).unwrap_err();
    /// assert_eq!(refused.refusal, Refusal::BadPosition);
    /// # Ok::<(), globe::Refused>(())
    /// ```
    pub fn step_from<'a>(
        self,
        present: u32,
        source: impl Into<Source<'a>>,
        body: u32,
        epoch: f64,
    ) -> Result<Motion, Refused> {
        let ring = self.positions;
        match source.into() {
            Source::Pool(pool) => face::motion(pool.words(), body, epoch, ring, present),
            Source::Builtin => face::builtin_motion(body, epoch, ring, present),
        }
    }
}
