//! The tables of the test books for reading and checking that can be read.

use super::Write;
use crate::cases::{check_books, generate};
use crate::model::writer::{tables_of, Packed};

/// Those of each book, with a buffer of its length, one byte shorter, and longer.
pub fn of_books() -> impl Iterator<Item = Write> {
    let all = generate::books().into_iter().chain(check_books::books());
    all.flat_map(|book| match tables_of(&book) {
        Ok(tables) => with_buffers(tables, book.len()),
        Err(_) => vec![],
    })
}

fn with_buffers(tables: Packed, output: usize) -> Vec<Write> {
    let with = |length| Write {
        tables: tables.clone(),
        length,
    };
    [output, output - 1, output + 7].map(with).to_vec()
}
