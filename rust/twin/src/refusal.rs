//! The refusals and their numbers: document 01, "Refusal numbers", and K2, K3, K5, K8, K10 and K13
//! of document 02.

/// Why a call is refused.
#[derive(Clone, Copy, Debug, PartialEq, Eq)]
pub enum Refusal {
    LabelHeld,
    TextTooLong,
    LineTooLong,
    BadByte,
    Number,
    NoRoom,
    NotHeld,
    Epoch,
    UnknownBody,
    Incomplete,
    WrongCount,
    NoVariable,
    ShortBuffer,
    DamagedPool,
    MixedKind,
    BadName,
    NoOperator,
    BadValue,
    OpenList,
    RestOfLine,
    TextOpen,
    BadDegree,
    BadRadius,
    BadRing,
    BadPosition,
}

impl Refusal {
    /// The number in the documents. 5 was given before K3 and stays reserved.
    pub fn number(self) -> u32 {
        match self {
            Refusal::LabelHeld => 1,
            Refusal::TextTooLong => 2,
            Refusal::LineTooLong => 3,
            Refusal::BadByte => 4,
            Refusal::Number => 6,
            Refusal::NoRoom => 7,
            Refusal::NotHeld => 8,
            Refusal::Epoch => 9,
            Refusal::UnknownBody => 10,
            Refusal::Incomplete => 11,
            Refusal::WrongCount => 12,
            Refusal::NoVariable => 13,
            Refusal::ShortBuffer => 14,
            Refusal::DamagedPool => 15,
            Refusal::MixedKind => 16,
            Refusal::BadName => 17,
            Refusal::NoOperator => 18,
            Refusal::BadValue => 19,
            Refusal::OpenList => 20,
            Refusal::RestOfLine => 21,
            Refusal::TextOpen => 22,
            Refusal::BadDegree => 23,
            Refusal::BadRadius => 24,
            Refusal::BadRing => 25,
            Refusal::BadPosition => 26,
        }
    }

    /// This refusal at a byte of a text.
    pub fn at(self, line: u64, column: u64) -> Refused {
        Refused {
            refusal: self,
            line,
            column,
        }
    }
}

/// A refusal with its place, line and column counted from 1: refusals 3, 4, 6 and 17 to 21 have one,
/// for all others both are 0.
#[derive(Clone, Copy, Debug, PartialEq, Eq)]
pub struct Refused {
    pub refusal: Refusal,
    pub line: u64,
    pub column: u64,
}

impl From<Refusal> for Refused {
    fn from(refusal: Refusal) -> Refused {
        refusal.at(0, 0)
    }
}
