//! Where the Sun, the planets and their satellites point, from SPICE text PCK kernels or from a
//! built-in table. The answers are those of the proved library, to the last bit, as long as the
//! program rounds to nearest and does not flush small numbers to zero, as Rust has it.
//!
//! ```
//! let kernel = "
//! The pole and the prime meridian of Mars.
//! \\begindata
//! BODY499_POLE_RA  = ( 317.68143  -0.1061 )
//! BODY499_POLE_DEC = (  52.88650  -0.0609 )
//! BODY499_PM       = ( 176.630   350.89198226 )
//! ";
//! let mut pool = globe::Pool::new();
//! pool.load(1, kernel)?;
//! let noon = pool.orientation(499, 0.0)?;
//! assert_eq!(noon.w, 176.630);
//! assert_eq!(noon, globe::builtin_orientation(499, 0.0)?);
//! # Ok::<(), globe::Refused>(())
//! ```
//!
//! Captions are strings, fetched by their place:
//!
//! ```
//! let mut pool = globe::Pool::new();
//! pool.load(1, "\\begindata\nBODY499_CAPTION = ( 'Mars', 'Herschel''s map' )")?;
//! let mut buffer = [0; 60];
//! assert_eq!(pool.fetch_string("BODY499_CAPTION", 2, &mut buffer)?, b"Herschel's map");
//! # Ok::<(), globe::Refused>(())
//! ```
//!
//! A text may come in parts, cut anywhere; a file is loaded a block at a time by
//! [`Pool::load_from`]:
//!
//! ```
//! let mut pool = globe::Pool::new();
//! let mut text = pool.open(1)?;
//! text.feed("\\begindata\nBODY499_RADII = ( 3397, 33");
//! text.feed("97, 3375 )\n");
//! text.close()?;
//! assert_eq!(pool.radii(499)?, [3397.0, 3397.0, 3375.0]);
//! # Ok::<(), globe::Refused>(())
//! ```
//!
//! A text that is refused says what is faulty, at which line and column, and what to do:
//!
//! ```
//! let mut pool = globe::Pool::new();
//! let refused = pool.load(1, "\\begindata\nX = (1, 2\nY = 3").unwrap_err();
//! assert_eq!(refused.refusal, globe::Refusal::BadValue);
//! assert_eq!((refused.line, refused.column), (3, 1));
//! println!("{refused}");
//! ```
//!
//! A [`Ring`] turns a meridian into the position of a motor, and tells the shortest way there:
//!
//! ```
//! let ring = globe::Ring::new(200)?;
//! let noon = ring.position(globe::Source::Builtin, 399, 0.0)?;
//! assert_eq!(noon, 105);
//! let motion = ring.step_from(noon, globe::Source::Builtin, 399, 3_600.0)?;
//! assert_eq!((motion.target, motion.steps), (113, 8));
//! # Ok::<(), globe::Refused>(())
//! ```
#![no_std]
#![deny(missing_docs)]
#![deny(unsafe_code)]

extern crate alloc;
#[cfg(feature = "std")]
extern crate std;

mod answer;
mod face;
mod parts;
mod pool;
#[cfg(feature = "std")]
mod reader;
mod refusal;
mod ring;

pub use answer::{Motion, Orientation, Totals};
pub use parts::OpenText;
pub use pool::Pool;
#[cfg(feature = "std")]
pub use reader::NotLoaded;
pub use refusal::{Refusal, Refused};
pub use ring::{Ring, Source};

/// The Rust programs of the guide, run as tests.
#[cfg(doctest)]
#[doc = include_str!("../../../docs/GUIDE.md")]
pub struct Guide;

/// The orientation of a body by the built-in table, at an epoch in TDB seconds past J2000. The
/// table has the Sun, 10, and the planets, 199, 299 and so on to 999.
///
/// Refused: [`Refusal::Epoch`], [`Refusal::UnknownBody`].
///
/// ```
/// let earth = globe::builtin_orientation(399, 0.0)?;
/// assert_eq!((earth.ra, earth.dec, earth.w), (0.0, 90.0, 190.147));
/// assert_eq!(earth.matrix[2], [0.0, 0.0, 1.0]);
/// # Ok::<(), globe::Refused>(())
/// ```
pub fn builtin_orientation(body: u32, epoch: f64) -> Result<Orientation, Refused> {
    face::builtin_orientation(body, epoch)
}

/// The radii of a planet in km by the built-in table, 199, 299 and so on to 999: two equatorial
/// ones, then the polar one.
///
/// Refused: [`Refusal::UnknownBody`], also for the Sun.
///
/// ```
/// assert_eq!(globe::builtin_radii(499)?, [3397.0, 3397.0, 3375.0]);
/// assert!(globe::builtin_radii(10).is_err());
/// # Ok::<(), globe::Refused>(())
/// ```
pub fn builtin_radii(body: u32) -> Result<[f64; 3], Refused> {
    face::builtin_radii(body)
}
