//! Book A of document 01, and the launch of its runs.

use xemdulba::{bound, Settings};

pub const BOOK_A: [u8; 28] = [
    0x01, 0x03, 0x10, 0x12, 0x00, 0x09, 0x20, 0x01, 0x09, 0x00, 0x05, 0x00, 0x00, 0x00, 0x30, 0x0C,
    0x41, 0x00, 0x00, 0x40, 0x01, 0x07, 0x00, 0x00, 0x00, 0x46, 0x00, 0x01,
];

/// "Running A on 50 00 four times".
#[allow(dead_code)] // Not every test runs it.
pub const FOUR_STEPS: [u8; 8] = [0x50, 0x00, 0x50, 0x00, 0x50, 0x00, 0x50, 0x00];

/// "Job 0 runs block 0 at its bound": 01's runs relied on it, so they pass it. A book that cannot
/// be read has none.
#[allow(dead_code)] // Not every test runs a book.
pub fn at_bound(book: &[u8]) -> Settings {
    let low = Settings::default();
    bound(book).map_or(low, |bound| low.launch(bound))
}
