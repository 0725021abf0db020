//! The library and the twin, asked the same and compared bit for bit: answers, the memory of the
//! pool, the buffer, and what lies beside them. Everything is made from a seed, so that a
//! difference can be met again.

mod bodies;
mod buffers;
mod call;
pub mod damage;
pub mod decimals;
pub mod degrees;
pub mod drive;
mod epochs;
pub mod histories;
pub mod kernels;
mod library;
pub mod long_numbers;
pub mod orientations;
mod pair;
pub mod parts;
pub mod radii;
mod random;
pub mod strings;
mod tally;
mod text_parts;
pub mod texts;
mod twin_side;
pub mod unread;

pub use random::Random;
pub use tally::Tally;
