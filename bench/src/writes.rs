//! Times of books that are written from their tables.

use crate::runs::OPTION_BOOK;
use crate::sides::WRITERS;
use crate::timing::{self, Times, COLUMNS};
use crate::BOOK_A;
use reference::cases::writes::{outcome, Write};
use reference::full_book;
use reference::model::writer::{tables_of, Packed, Writer};
use std::hint::black_box;

/// The rows: a name, and the book.
pub const ROWS: [(&str, fn() -> Vec<u8>); 3] = [
    ("A1", || BOOK_A.to_vec()),
    ("one option", || OPTION_BOOK.to_vec()),
    ("full_book", full_book),
];

/// Prints the table. The worst ratio of the rows.
pub fn time() -> f64 {
    println!("written        bytes{COLUMNS}");
    let ratios = ROWS.map(|(name, book)| time_book(name, &book()));
    ratios.into_iter().fold(0.0, f64::max)
}

fn time_book(name: &str, book: &[u8]) -> f64 {
    let times = compare(book);
    println!("{name:<12}{:>8}{times}", book.len());
    times.ratio
}

/// All sides must write the same book, into a buffer of its length.
fn compare(book: &[u8]) -> Times {
    let (tables, length) = (tables(book), book.len());
    let write = Write { tables, length };
    for writer in WRITERS {
        assert_eq!(outcome(writer, &write), (Ok(length), book.to_vec()));
    }
    timing::compare(WRITERS.map(|writer| call(writer, &write.tables, length)))
}

pub fn tables(book: &[u8]) -> Packed {
    tables_of(book).expect("the book is readable")
}

/// A call of a side, on a buffer of its own.
pub fn call(writer: Writer, tables: &Packed, length: usize) -> impl FnMut() + '_ {
    let mut out = vec![0; length];
    move || {
        let tables = black_box(tables.lent());
        let written = writer(&tables, black_box(&mut out));
        black_box(&written).as_ref().expect("it is written");
    }
}
