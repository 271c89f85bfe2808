//! "A writer for job books" of document 02: refusals 1 to 6 and 13, and the bytes of a book. It goes
//! through the rows and does not read what it writes, so that the reader can be compared with it.

mod apart;
mod records;
#[cfg(test)]
mod tests;
mod walk;

pub use apart::tables_of;

use super::book::{refuse, Refusal};

/// The bytes of a row. A number has 4, little-endian.
pub const SHAPE_ROW: usize = 3;
pub const CELL_ROW: usize = 7;
pub const BLOCK_ROW: usize = 5;
pub const STEP_ROW: usize = 8;

/// "C and lent tables of shapes, cells, blocks and steps", their rows packed:
/// shapes (kind, x, y), cells (shape, label, value kind, number), blocks (bound, step count as a
/// number), steps (kind, x, y, z, number). x, y and z are the fields of one byte, in the order of the
/// record. What is left behind the last whole row is no row. A C above 255 counts as 255.
#[derive(Clone, Copy, Debug)]
pub struct Tables<'t> {
    pub c: u32,
    pub shapes: &'t [u8],
    pub cells: &'t [u8],
    pub blocks: &'t [u8],
    pub steps: &'t [u8],
}

/// The same, owned.
#[derive(Clone, Debug, Default, PartialEq, Eq, Hash)]
pub struct Packed {
    pub c: u32,
    pub shapes: Vec<u8>,
    pub cells: Vec<u8>,
    pub blocks: Vec<u8>,
    pub steps: Vec<u8>,
}

impl Packed {
    pub fn lent(&self) -> Tables<'_> {
        Tables {
            c: self.c,
            shapes: &self.shapes,
            cells: &self.cells,
            blocks: &self.blocks,
            steps: &self.steps,
        }
    }
}

impl Tables<'_> {
    /// The same without what stands behind the last whole rows.
    fn whole(&self) -> Self {
        Tables {
            c: self.c,
            shapes: whole(self.shapes, SHAPE_ROW),
            cells: whole(self.cells, CELL_ROW),
            blocks: whole(self.blocks, BLOCK_ROW),
            steps: whole(self.steps, STEP_ROW),
        }
    }
}

fn whole(table: &[u8], row: usize) -> &[u8] {
    &table[..table.len() / row * row]
}

/// Writes a book, and gives its length.
pub type Writer = fn(&Tables, &mut [u8]) -> Result<usize, Refusal>;

/// Writes the book of these tables. A refusal leaves the buffer as it was; else "beyond the output
/// the buffer is kept".
pub fn write(tables: &Tables, out: &mut [u8]) -> Result<usize, Refusal> {
    let tables = tables.whole();
    let length = walk::length(&tables)?;
    match out.get_mut(..length) {
        Some(out) => records::write(&tables, out),
        None => return refuse(13, 0),
    }
    Ok(length)
}

/// The number in the last 4 bytes of a row.
fn number(row: &[u8]) -> u32 {
    let bytes = row.last_chunk().expect("the row has a number");
    u32::from_le_bytes(*bytes)
}
