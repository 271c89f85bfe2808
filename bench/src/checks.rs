//! Times of checks.

use crate::sides::{Checker, CHECKERS};
use crate::timing::{self, Times, COLUMNS, COLUMNS_PER};
use crate::BOOK_A;
use reference::model::book;
use reference::{full_book, mixed_book, Verdict};
use std::hint::black_box;

/// The rows: a name, and the book.
pub const ROWS: [(&str, fn() -> Vec<u8>); 3] = [
    ("A1", || BOOK_A.to_vec()),
    ("mixed_book", mixed_book),
    ("full_book", full_book),
];

/// How many blocks of `full_book` are kept. Its first cell names block 11, so 12 are the fewest.
const KEPT_BLOCKS: [usize; 4] = [16, 32, 48, 64];

/// Prints the tables. The worst ratio of the rows.
pub fn time() -> f64 {
    println!("book           bytes{COLUMNS}");
    let ratios = ROWS.map(|(name, book)| time_book(name, &book()));

    println!();
    println!("full_book cut behind a number of blocks, nanoseconds for each byte");
    println!("blocks         bytes{COLUMNS_PER}");
    let full = full_book();
    for blocks in KEPT_BLOCKS {
        time_cut(blocks, cut(&full, blocks));
    }
    ratios.into_iter().fold(0.0, f64::max)
}

fn time_book(name: &str, book: &[u8]) -> f64 {
    let times = compare(book);
    println!("{name:<12}{:>8}{times}", book.len());
    times.ratio
}

fn time_cut(blocks: usize, book: &[u8]) {
    let times = compare(book);
    println!("{blocks:<12}{:>8}{}", book.len(), times.per(book.len()));
}

/// All sides must accept the book, with the same counts.
fn compare(book: &[u8]) -> Times {
    let expected = reference::check(book);
    assert!(matches!(expected, Verdict::Accepted { .. }), "{expected}");
    for checker in CHECKERS {
        assert_eq!(checker(book), expected);
    }
    timing::compare(CHECKERS.map(|checker| call(checker, book)))
}

/// A call of a side.
pub fn call(checker: Checker, book: &[u8]) -> impl FnMut() + '_ {
    move || {
        black_box(checker(black_box(book)));
    }
}

/// The book up to the end of so many blocks.
fn cut(bytes: &[u8], blocks: usize) -> &[u8] {
    let book = book::read(bytes).expect("full_book is readable");
    let last = &book.blocks[blocks - 1];
    &bytes[..last.start + last.length]
}
