//! The refusals, and what each means to whoever wrote the text or made the call.

use core::error::Error;
use core::fmt;

use globe_sys as sys;

/// Why a call is refused. Displayed, it says what is wrong and what to do.
///
/// ```
/// use globe::Refusal;
/// assert_eq!(Refusal::BadName.number(), 17);
/// assert_eq!(Refusal::BadName.name(), "BAD NAME");
/// assert!(Refusal::Epoch.to_string().starts_with("the epoch is not"));
/// ```
#[derive(Clone, Copy, Debug, PartialEq, Eq, Hash)]
pub enum Refusal {
    /// 1: the label is held already.
    LabelHeld,
    /// 2: the text is too long.
    TextTooLong,
    /// 3: a data or delimiter line is too long.
    LineTooLong,
    /// 4: a data line has a byte that may not stand there.
    BadByte,
    /// 6: a number is well formed but outside the class that is read.
    Number,
    /// 7: the pool has no room for the text.
    NoRoom,
    /// 8: no text is held under the label, or none is open.
    NotHeld,
    /// 9: the epoch is not finite, or too far from J2000.
    Epoch,
    /// 10: the source has nothing of what is asked about this body.
    UnknownBody,
    /// 11: some of the variables that an orientation wants are missing.
    Incomplete,
    /// 12: a variable has too few or too many values.
    WrongCount,
    /// 13: no held statement has the name, or its variable has no such place.
    NoVariable,
    /// 14: the buffer is shorter than the variable, or than the string.
    ShortBuffer,
    /// 15: the memory is no pool, or no longer one.
    DamagedPool,
    /// 16: a variable has a string where numbers are asked for, or a number where a string is.
    MixedKind,
    /// 17: a statement begins with no name, or with one that is too long.
    BadName,
    /// 18: neither `=` nor `+=` follows the name.
    NoOperator,
    /// 19: what should be a number or a string is none, or is of another kind than its list.
    BadValue,
    /// 20: a list is empty, or is not closed.
    OpenList,
    /// 21: something follows the statement on its line.
    RestOfLine,
    /// 22: a text is open.
    TextOpen,
    /// 23: the degree of a system's angles is not 1, 2 or 3.
    BadDegree,
    /// 24: a radius from a pool is not greater than 0.
    BadRadius,
    /// 25: a motor's ring has fewer than 2 positions, or more than 4,096.
    BadRing,
    /// 26: the present position is none of the ring's.
    BadPosition,
}

impl Refusal {
    /// All refusals, in the order of their numbers. None has the number 5.
    pub const ALL: [Refusal; 25] = [
        Refusal::LabelHeld,
        Refusal::TextTooLong,
        Refusal::LineTooLong,
        Refusal::BadByte,
        Refusal::Number,
        Refusal::NoRoom,
        Refusal::NotHeld,
        Refusal::Epoch,
        Refusal::UnknownBody,
        Refusal::Incomplete,
        Refusal::WrongCount,
        Refusal::NoVariable,
        Refusal::ShortBuffer,
        Refusal::DamagedPool,
        Refusal::MixedKind,
        Refusal::BadName,
        Refusal::NoOperator,
        Refusal::BadValue,
        Refusal::OpenList,
        Refusal::RestOfLine,
        Refusal::TextOpen,
        Refusal::BadDegree,
        Refusal::BadRadius,
        Refusal::BadRing,
        Refusal::BadPosition,
    ];

    /// The number that the library gives for it.
    pub fn number(self) -> u32 {
        match self {
            Refusal::LabelHeld => sys::GLOBE_LABEL_HELD,
            Refusal::TextTooLong => sys::GLOBE_TEXT_TOO_LONG,
            Refusal::LineTooLong => sys::GLOBE_LINE_TOO_LONG,
            Refusal::BadByte => sys::GLOBE_BAD_BYTE,
            Refusal::Number => sys::GLOBE_NUMBER,
            Refusal::NoRoom => sys::GLOBE_NO_ROOM,
            Refusal::NotHeld => sys::GLOBE_NOT_HELD,
            Refusal::Epoch => sys::GLOBE_EPOCH,
            Refusal::UnknownBody => sys::GLOBE_UNKNOWN_BODY,
            Refusal::Incomplete => sys::GLOBE_INCOMPLETE,
            Refusal::WrongCount => sys::GLOBE_WRONG_COUNT,
            Refusal::NoVariable => sys::GLOBE_NO_VARIABLE,
            Refusal::ShortBuffer => sys::GLOBE_SHORT_BUFFER,
            Refusal::DamagedPool => sys::GLOBE_DAMAGED_POOL,
            Refusal::MixedKind => sys::GLOBE_MIXED_KIND,
            Refusal::BadName => sys::GLOBE_BAD_NAME,
            Refusal::NoOperator => sys::GLOBE_NO_OPERATOR,
            Refusal::BadValue => sys::GLOBE_BAD_VALUE,
            Refusal::OpenList => sys::GLOBE_OPEN_LIST,
            Refusal::RestOfLine => sys::GLOBE_REST_OF_LINE,
            Refusal::TextOpen => sys::GLOBE_TEXT_OPEN,
            Refusal::BadDegree => sys::GLOBE_BAD_DEGREE,
            Refusal::BadRadius => sys::GLOBE_BAD_RADIUS,
            Refusal::BadRing => sys::GLOBE_BAD_RING,
            Refusal::BadPosition => sys::GLOBE_BAD_POSITION,
        }
    }

    /// Its name in the documents.
    pub fn name(self) -> &'static str {
        match self {
            Refusal::LabelHeld => "LABEL HELD",
            Refusal::TextTooLong => "TEXT TOO LONG",
            Refusal::LineTooLong => "LINE TOO LONG",
            Refusal::BadByte => "BAD BYTE",
            Refusal::Number => "NUMBER",
            Refusal::NoRoom => "NO ROOM",
            Refusal::NotHeld => "NOT HELD",
            Refusal::Epoch => "EPOCH",
            Refusal::UnknownBody => "UNKNOWN BODY",
            Refusal::Incomplete => "INCOMPLETE",
            Refusal::WrongCount => "WRONG COUNT",
            Refusal::NoVariable => "NO VARIABLE",
            Refusal::ShortBuffer => "SHORT BUFFER",
            Refusal::DamagedPool => "DAMAGED POOL",
            Refusal::MixedKind => "MIXED KIND",
            Refusal::BadName => "BAD NAME",
            Refusal::NoOperator => "NO OPERATOR",
            Refusal::BadValue => "BAD VALUE",
            Refusal::OpenList => "OPEN LIST",
            Refusal::RestOfLine => "REST OF LINE",
            Refusal::TextOpen => "TEXT OPEN",
            Refusal::BadDegree => "BAD DEGREE",
            Refusal::BadRadius => "BAD RADIUS",
            Refusal::BadRing => "BAD RING",
            Refusal::BadPosition => "BAD POSITION",
        }
    }

    fn explanation(self) -> &'static str {
        match self {
            Refusal::LabelHeld => {
                "a text is held under this label already; remove that text first, or load this \
                 one under another label"
            }
            Refusal::TextTooLong => {
                "the text is longer than 65,536 bytes, or than 4,194,304 where it is fed in parts; \
                 feed it in parts, split it into several texts, or shorten its comments"
            }
            Refusal::LineTooLong => {
                "the line is in a data section, or opens a section, and is longer than 132 bytes; \
                 break it, a list between two of its numbers, or take out blanks"
            }
            Refusal::BadByte => {
                "the line is in a data section and has a character here that is neither a plain \
                 letter, digit or sign nor a blank; retype it (dashes, quotes and blanks that \
                 were pasted are the usual cause), or put a comment behind \\begintext"
            }
            Refusal::Number => {
                "the number here has too many digits, or too large or too small a power of ten; it \
                 may have 19 digits after leading zeros, and its exponent less the digits after \
                 the point is from -22 to 22, for a zero too: take digits away at its end, or, for \
                 too large a power, add zeros there, as in 1.0E23 for 1E23"
            }
            Refusal::NoRoom => {
                "the pool has no room for the text: it holds 16 texts, 512 statements, 3,072 \
                 values and 8,192 bytes of strings in all; remove a text that is not needed, or \
                 shorten this one"
            }
            Refusal::NotHeld => {
                "no text is held under this label, or none is open; it was never loaded or opened, \
                 its load was refused, or it is removed, closed or dropped already"
            }
            Refusal::Epoch => {
                "the epoch is not a finite number of seconds up to 157,788,000,000 before or \
                 after J2000; give TDB seconds past J2000, not a Julian date or a calendar year"
            }
            Refusal::UnknownBody => {
                "the source has nothing of this about the body; its NAIF code is 1 to 10 or 100 \
                 to 999, an orientation by a pool wants BODYn_POLE_RA, BODYn_POLE_DEC and \
                 BODYn_PM of a held text, radii want BODYn_RADII, and the built-in table has the \
                 Sun (no radii) and the planets"
            }
            Refusal::Incomplete => {
                "some variables of the body's orientation are missing; BODYn_POLE_RA, \
                 BODYn_POLE_DEC and BODYn_PM go together, and with any BODYn_NUT_PREC_RA, _DEC \
                 or _PM goes BODYs_NUT_PREC_ANGLES, s being the hundreds of n or n itself up to 10"
            }
            Refusal::WrongCount => {
                "a variable has too few or too many values; a pole or meridian has 1 to 3, radii \
                 are 3, and the angles are pairs, or groups of one value more than \
                 BODYs_MAX_PHASE_DEGREE says, at most 32, and at least as many as the longest \
                 BODYn_NUT_PREC variable has values"
            }
            Refusal::NoVariable => {
                "no held text has a variable of this name, or the variable has no string at this \
                 place; capitals count, a text that was refused or removed counts no more, and \
                 places are counted from 1"
            }
            Refusal::ShortBuffer => {
                "the buffer is shorter than the variable, or than the string; lend one of 3,072 \
                 values, or of 60 bytes for a string, which is always enough"
            }
            Refusal::DamagedPool => {
                "the memory is not that of a pool: it has another size, or its words were \
                 overwritten; make it empty and load its texts again"
            }
            Refusal::MixedKind => {
                "a variable has a string in it where numbers are asked for, or a number where a \
                 string is; take the quotes off a number, give a caption a name of its own, or \
                 write = in place of += where it should replace what stood before"
            }
            Refusal::BadName => {
                "the line is in a data section, and no name begins here, or one of more than 32 \
                 letters, digits and underscores; begin the line with a name, as in NAME = \
                 NUMBER, take away a ) before it if it should continue a list, or put a comment \
                 behind \\begintext"
            }
            Refusal::NoOperator => {
                "a name stands before this, and neither = nor += follows it; write NAME = NUMBER \
                 or NAME += NUMBER on one line, with nothing but letters, digits and underscores \
                 in the name"
            }
            Refusal::BadValue => {
                "a number or a string should stand here; write a number as -12.5 or 1.5E3, a \
                 string in single quotes, a quote inside it twice, with at most 60 bytes and \
                 closed on its line before a blank, comma or bracket, no list within a list, and \
                 a list all of numbers or all of strings"
            }
            Refusal::OpenList => {
                "a list is empty, or is still open at the end of its section or of the text; \
                 write at least one value between its ( and its ), and close it"
            }
            Refusal::RestOfLine => {
                "the statement is complete before this; begin a new line for the next statement, \
                 put several values between ( and ), or put a comment behind \\begintext"
            }
            Refusal::TextOpen => {
                "a text is open; close it or drop it first, since what is held cannot change while \
                 it is fed"
            }
            Refusal::BadDegree => {
                "BODYs_MAX_PHASE_DEGREE is not one number that is 1, 2 or 3, s being the hundreds \
                 of the body's code or the code itself up to 10; write the degree of the system's \
                 angles without quotes and with =, not +=, or leave it out where it is 1"
            }
            Refusal::BadRadius => {
                "a radius of the body is 0 or negative; look it up and mend the text, or load a \
                 later one that gives BODYn_RADII anew with ="
            }
            Refusal::BadRing => {
                "a motor's ring has 2 to 4,096 positions in a whole turn; give their number, not \
                 that of the last one, and gear a finer motor down to 4,096"
            }
            Refusal::BadPosition => {
                "the present position is none of the ring's, which are counted from 0; take a \
                 counter that runs on modulo the ring's number, and mind that a negative one, \
                 passed as unsigned, is too large"
            }
        }
    }
}

impl fmt::Display for Refusal {
    fn fmt(&self, f: &mut fmt::Formatter<'_>) -> fmt::Result {
        f.write_str(self.explanation())
    }
}

/// A refused call: why, and where.
///
/// ```
/// let mut pool = globe::Pool::new();
/// let refused = pool.load(1, "\\begindata\nX = 1E99").unwrap_err();
/// assert_eq!((refused.line, refused.column), (2, 5));
/// assert!(refused.to_string().starts_with("refused 6 (NUMBER) at line 2, column 5: "));
/// ```
#[derive(Clone, Copy, Debug, PartialEq, Eq, Hash)]
pub struct Refused {
    /// Why the call is refused.
    pub refusal: Refusal,
    /// The faulty line of the text, counted from 1, for the refusals 3, 4, 6 and 17 to 21; 0 for
    /// all others.
    pub line: u32,
    /// The column of the faulty byte in its line, counted from 1, or one past the line where
    /// something is missing at its end; 0 where the line is.
    pub column: u32,
}

impl fmt::Display for Refused {
    fn fmt(&self, f: &mut fmt::Formatter<'_>) -> fmt::Result {
        let (number, name) = (self.refusal.number(), self.refusal.name());
        write!(f, "refused {number} ({name})")?;
        if self.line != 0 {
            write!(f, " at line {}, column {}", self.line, self.column)?;
        }
        write!(f, ": {}", self.refusal)
    }
}

impl Error for Refused {}
