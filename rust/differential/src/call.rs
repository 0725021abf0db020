//! One call and its answer, in a shape that both sides share.

use std::fmt;

/// A call on a pool, or on the built-in source.
pub enum Call<'a> {
    MakeEmpty,
    Load {
        label: u32,
        text: &'a [u8],
    },
    Open {
        label: u32,
    },
    Feed {
        part: &'a [u8],
    },
    Close,
    Drop,
    Remove {
        label: u32,
    },
    Clear,
    Fetch {
        name: &'a [u8],
        room: usize,
    },
    FetchString {
        name: &'a [u8],
        place: usize,
        room: usize,
    },
    Totals,
    Orientation {
        body: u32,
        epoch: f64,
    },
    BuiltinOrientation {
        body: u32,
        epoch: f64,
    },
    Radii {
        body: u32,
    },
    BuiltinRadii {
        body: u32,
    },
    Position {
        body: u32,
        epoch: f64,
        ring: u32,
    },
    BuiltinPosition {
        body: u32,
        epoch: f64,
        ring: u32,
    },
    Move {
        body: u32,
        epoch: f64,
        ring: u32,
        present: u32,
    },
    BuiltinMove {
        body: u32,
        epoch: f64,
        ring: u32,
        present: u32,
    },
}

impl Call<'_> {
    /// Whether it may change a pool.
    pub fn writes(&self) -> bool {
        matches!(
            self,
            Call::MakeEmpty
                | Call::Load { .. }
                | Call::Open { .. }
                | Call::Feed { .. }
                | Call::Close
                | Call::Drop
                | Call::Remove { .. }
                | Call::Clear
        )
    }

    /// Whether it ends the open text though it is refused: a closing by any number but 8 and 15.
    pub fn ends_open_text(&self, number: u32) -> bool {
        matches!(self, Call::Close) && ![8, 15].contains(&number)
    }
}

/// Every field of an answer; what it does not have is 0.
#[derive(Clone, Copy, Debug, Default, PartialEq, Eq)]
pub struct Answer {
    pub number: u32,
    pub line: u32,
    pub column: u32,
    /// What a fetch or totals count, or where a motor should stand.
    pub counts: [u32; 3],
    /// The move of a motor.
    pub steps: i32,
    /// The bits of an orientation or of radii.
    pub bits: [u64; 12],
}

impl Answer {
    /// An answer of number and place alone.
    pub fn of(number: u32, line: u32, column: u32) -> Answer {
        Answer {
            number,
            line,
            column,
            ..Answer::default()
        }
    }

    /// The same with counts.
    pub fn with_counts(self, counts: [u32; 3]) -> Answer {
        Answer { counts, ..self }
    }

    /// The same with a motor's target and move.
    pub fn with_motion(self, target: u32, steps: i32) -> Answer {
        Answer {
            counts: [target, 0, 0],
            steps,
            ..self
        }
    }

    /// The same with the bits of doubles.
    pub fn with_doubles(mut self, doubles: &[f64]) -> Answer {
        for (bits, double) in self.bits.iter_mut().zip(doubles) {
            *bits = double.to_bits();
        }
        self
    }
}

/// The call as it would be written, bytes as ASCII with escapes and epochs to the last bit.
impl fmt::Display for Call<'_> {
    fn fmt(&self, f: &mut fmt::Formatter<'_>) -> fmt::Result {
        match self {
            Call::MakeEmpty => write!(f, "make empty"),
            Call::Load { label, text } => {
                write!(f, "load under {label} the text \"{}\"", text.escape_ascii())
            }
            Call::Open { label } => write!(f, "open {label}"),
            Call::Feed { part } => write!(f, "feed \"{}\"", part.escape_ascii()),
            Call::Close => write!(f, "close"),
            Call::Drop => write!(f, "drop"),
            Call::Remove { label } => write!(f, "remove {label}"),
            Call::Clear => write!(f, "clear"),
            Call::Fetch { name, room } => {
                write!(f, "fetch \"{}\" with room for {room}", name.escape_ascii())
            }
            Call::FetchString { name, place, room } => {
                let name = name.escape_ascii();
                write!(f, "fetch string {place} of \"{name}\" with room for {room}")
            }
            Call::Totals => write!(f, "totals"),
            Call::Orientation { body, epoch } => {
                write!(
                    f,
                    "orientation of {body} at {epoch:?} ({:#X})",
                    epoch.to_bits()
                )
            }
            Call::BuiltinOrientation { body, epoch } => {
                let bits = epoch.to_bits();
                write!(f, "built-in orientation of {body} at {epoch:?} ({bits:#X})")
            }
            Call::Radii { body } => write!(f, "radii of {body}"),
            Call::BuiltinRadii { body } => write!(f, "built-in radii of {body}"),
            Call::Position { body, epoch, ring } => {
                write!(f, "position of {body} at {epoch:?} on {ring}")
            }
            Call::BuiltinPosition { body, epoch, ring } => {
                write!(f, "built-in position of {body} at {epoch:?} on {ring}")
            }
            Call::Move {
                body,
                epoch,
                ring,
                present,
            } => write!(f, "move of {body} at {epoch:?} on {ring} from {present}"),
            Call::BuiltinMove {
                body,
                epoch,
                ring,
                present,
            } => write!(
                f,
                "built-in move of {body} at {epoch:?} on {ring} from {present}"
            ),
        }
    }
}
