//! The test tables for writing, and the lengths of the lent buffers. They are the same at every
//! call.

mod books;
mod buffers;
mod choose;
mod counts;
mod fields;
mod kinds;
mod lengths;
mod limits;
mod names;
mod rest;
pub(crate) mod rows;
mod spare;
mod stages;
#[cfg(test)]
mod tests;

pub use books::of_books;

use crate::model::book::Refusal;
use crate::model::writer::{Packed, Writer, CELL_ROW};
use std::collections::HashSet;

/// Tables, and the length of the buffer that is lent for the book.
#[derive(Clone, Debug, PartialEq, Eq, Hash)]
pub struct Write {
    pub tables: Packed,
    pub length: usize,
}

/// No buffer that `roomy` gives is longer.
const LONGEST: usize = 32_800;

impl Write {
    /// The tables with a buffer that is long enough.
    pub fn roomy(tables: Packed) -> Write {
        let rows = tables.shapes.len() + tables.blocks.len() + tables.steps.len();
        let cells = tables.cells.len() / CELL_ROW * 8;
        let length = (2 + rows + cells).min(LONGEST);
        Write { tables, length }
    }
}

/// What a writer gives, and the buffer behind it.
pub type Written = (Result<usize, Refusal>, Vec<u8>);

/// Asks a writer. What the buffer holds before is another byte at each place of a few.
pub fn outcome(writer: Writer, write: &Write) -> Written {
    let mut out: Vec<u8> = (0..write.length).map(before).collect();
    let written = writer(&write.tables.lent(), &mut out);
    (written, out)
}

/// No kind and no small number, so that a byte which was written is seen.
fn before(place: usize) -> u8 {
    0xA5 + (place % 11) as u8
}

/// The chosen tables, none twice.
pub fn chosen() -> Vec<Write> {
    let roomy = [
        limits::tables(),
        spare::tables(),
        kinds::tables(),
        names::tables(),
        counts::tables(),
        lengths::tables(),
        rest::tables(),
    ];
    let roomy = roomy.into_iter().flatten().map(Write::roomy);
    let all = roomy.chain(buffers::writes()).chain(stages::writes());
    let all = all.chain(choose::writes());
    let mut seen = HashSet::new();
    all.filter(|write| seen.insert(write.clone())).collect()
}
