//! The subcommands, one a file, and what they share.

pub mod bits;
pub mod hard_numbers;
pub mod histories;
pub mod history_degrees;
pub mod history_numbers;
pub mod history_parts;
pub mod history_samples;
pub mod history_strings;
pub mod listing;
pub mod orientations;
pub mod random;
pub mod reads;
pub mod script;
pub mod stream;
pub mod text_places;
pub mod text_samples;
pub mod text_strings;
pub mod texts;
pub mod turns;
