//! What prints answers in words.

pub mod events;
pub mod line;
pub mod listing;
pub mod run_words;
