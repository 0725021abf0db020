//! The limits of document 01, each under its name; document 02 has the one of lines in K1,
//! those of strings in K2, that of whole numbers in K4, those of parts in K5, those of angles in K8
//! and those of rings in K13.

/// The bytes of a text that can be loaded, and of one that is fed in parts.
pub const TEXT_BYTES: usize = 65_536;
pub const PARTS_BYTES: usize = 4_194_304;

/// The bytes of a data or delimiter line, its end not counted.
pub const LINE_BYTES: usize = 132;

/// The bytes that are kept of a line between two parts: enough to know one that is too long.
pub const KEPT_BYTES: usize = LINE_BYTES + 1;

/// The bytes of a name.
pub const NAME_BYTES: usize = 32;

/// The bytes of a string, its quotes taken away and those inside undoubled.
pub const STRING_BYTES: usize = 60;

/// The largest whole number that a value's digits may give: 19 digits.
pub const LARGEST_WHOLE: u64 = 9_999_999_999_999_999_999;

/// The largest power of ten that a value's whole number may be multiplied with or divided by.
pub const LARGEST_POWER: u64 = 22;

/// The texts, statements and values of a pool.
pub const TEXTS: usize = 16;
pub const STATEMENTS: usize = 512;
pub const VALUES: usize = 3_072;

/// The bytes of a pool's strings together.
pub const STRING_ROOM: usize = 8_192;

/// Held values are below 2 to this power in size.
pub const VALUE_EXPONENT: u64 = 200;

/// The values of a pole or meridian variable.
pub const POLYNOMIAL_VALUES: usize = 3;

/// The angles of a system, which are as many as the coefficients of one list may be.
pub const ANGLES: usize = 32;

/// The highest degree of a system's angles, and the values that the angles have then.
pub const HIGHEST_DEGREE: usize = 3;
pub const ANGLE_VALUES: usize = ANGLES * (HIGHEST_DEGREE + 1);

/// The positions of a motor's ring.
pub const FEWEST_POSITIONS: u32 = 2;
pub const MOST_POSITIONS: u32 = 4_096;
