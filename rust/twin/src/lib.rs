//! The twin: document 01, with what document 02 changes, implemented a second time, without looking
//! at the proved library.
//! What it answers is what the library is compared with, bit for bit.

pub mod angle;
pub mod answers;
pub mod builtin;
pub mod decimal;
pub mod drive;
mod kept;
pub mod layout;
pub mod limits;
pub mod listing;
pub mod nearest;
mod opened;
pub mod parts;
pub mod pool;
pub mod reads;
pub mod refusal;
pub mod rotation;
mod storing;
pub mod string;
pub mod text;
pub mod variable;
