//! The bytes of a book, written from rows that are not refused.

use super::{number, Tables, BLOCK_ROW, CELL_ROW, SHAPE_ROW, STEP_ROW};

/// "fills a lent buffer with the records in group order". The buffer has the length of the book.
pub fn write(tables: &Tables, out: &mut [u8]) {
    let mut output = Output { out, length: 0 };
    output.push([1, tables.c as u8]);
    for row in tables.shapes.chunks_exact(SHAPE_ROW) {
        output.shape(row);
    }
    for row in tables.cells.chunks_exact(CELL_ROW) {
        output.cell(row);
    }
    let mut steps = tables.steps.chunks_exact(STEP_ROW);
    for row in tables.blocks.chunks_exact(BLOCK_ROW) {
        output.push([48, row[0]]);
        for step in steps.by_ref().take(number(row) as usize) {
            output.step(step);
        }
    }
}

/// A buffer, and how much of it is written.
struct Output<'o> {
    out: &'o mut [u8],
    length: usize,
}

impl Output<'_> {
    fn push<const SIZE: usize>(&mut self, record: [u8; SIZE]) {
        let end = self.length + SIZE;
        self.out[self.length..end].copy_from_slice(&record);
        self.length = end;
    }

    fn shape(&mut self, row: &[u8]) {
        match row[0] {
            16 => self.push([16]),
            17 => self.push([17, row[1]]),
            _ => self.push([18, row[1], row[2]]),
        }
    }

    fn cell(&mut self, row: &[u8]) {
        let [n0, n1, n2, n3] = number(row).to_le_bytes();
        self.push([32, row[0], row[1], row[2], n0, n1, n2, n3]);
    }

    fn step(&mut self, row: &[u8]) {
        let (kind, x, y, z) = (row[0], row[1], row[2], row[3]);
        match kind {
            64 => {
                let [n0, n1, n2, n3] = number(row).to_le_bytes();
                self.push([64, x, n0, n1, n2, n3]);
            }
            67 | 68 | 75 => self.push([kind, x, y, z]),
            72..=74 => self.push([kind, x]),
            _ => self.push([kind, x, y]),
        }
    }
}
