//! The test books for checking: they reach "Typing a block" and pass or fail each of its rules at
//! its boundary. They are the same at every call.

pub(crate) mod change;
#[cfg(test)]
pub(crate) mod choices;
mod choose;
mod declared;
mod likeness;
mod lowering;
mod making;
mod places;
mod reading;
mod results;
mod running;
pub(crate) mod scene;
mod stuck;
#[cfg(test)]
mod tests;
mod unreadable;
pub(crate) mod walk;
mod writing;

use crate::cases::generate::{samples, Bytes};
use crate::cases::large::{full_book, mixed_book};
use std::collections::HashSet;

/// All test books, in the order in which they stand in the file, none twice.
pub fn books() -> Vec<Bytes> {
    let parts = [
        samples::books(),
        declared::books(),
        likeness::books(),
        lowering::books(),
        making::books(),
        reading::books(),
        writing::books(),
        running::books(),
        stuck::books(),
        results::books(),
        places::books(),
        walk::books(),
        change::books(),
        unreadable::books(),
        vec![full_book(), mixed_book()],
        choose::books(),
    ];
    let mut seen = HashSet::new();
    let all = parts.into_iter().flatten();
    all.filter(|book| seen.insert(book.clone())).collect()
}
