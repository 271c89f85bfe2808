//! Reference implementation of document 01, written apart from the verified code.

pub mod cases;
pub mod model;
pub mod printing;

pub use cases::large::{full_book, mixed_book};
pub use model::typing::{check, Verdict};
