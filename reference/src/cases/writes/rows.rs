//! Rows of tables, and tables with one of them changed.

use crate::cases::generate::records;
use crate::model::writer::{tables_of, Packed, BLOCK_ROW, CELL_ROW, SHAPE_ROW, STEP_ROW};

#[derive(Clone, Copy, Debug, PartialEq, Eq, PartialOrd, Ord)]
pub enum Table {
    Shapes,
    Cells,
    Blocks,
    Steps,
}

pub const TABLES: [Table; 4] = [Table::Shapes, Table::Cells, Table::Blocks, Table::Steps];

impl Table {
    /// The bytes of a row.
    pub fn row(self) -> usize {
        match self {
            Table::Shapes => SHAPE_ROW,
            Table::Cells => CELL_ROW,
            Table::Blocks => BLOCK_ROW,
            Table::Steps => STEP_ROW,
        }
    }

    pub fn of(self, tables: &Packed) -> &Vec<u8> {
        match self {
            Table::Shapes => &tables.shapes,
            Table::Cells => &tables.cells,
            Table::Blocks => &tables.blocks,
            Table::Steps => &tables.steps,
        }
    }

    pub fn of_mut(self, tables: &mut Packed) -> &mut Vec<u8> {
        match self {
            Table::Shapes => &mut tables.shapes,
            Table::Cells => &mut tables.cells,
            Table::Blocks => &mut tables.blocks,
            Table::Steps => &mut tables.steps,
        }
    }

    /// How many rows of it the tables have.
    pub fn count(self, tables: &Packed) -> usize {
        self.of(tables).len() / self.row()
    }

    /// The kind of the record of a row.
    pub fn kind(self, tables: &Packed, row: usize) -> u8 {
        match self {
            Table::Cells => 32,
            Table::Blocks => 48,
            Table::Shapes | Table::Steps => self.of(tables)[row * self.row()],
        }
    }

    /// The rows of a kind.
    pub fn rows(self, tables: &Packed, kind: u8) -> Vec<usize> {
        let all = 0..self.count(tables);
        all.filter(|&row| self.kind(tables, row) == kind).collect()
    }
}

/// The length of a record, 1 where the kind is unknown.
pub fn record_size(kind: u8) -> usize {
    match kind {
        17 | 48 | 72..=74 => 2,
        18 | 65 | 66 | 69..=71 => 3,
        67 | 68 | 75 => 4,
        64 => 6,
        32 => 8,
        _ => 1,
    }
}

/// Two shapes, a cell, and a block of two steps.
pub fn small() -> Packed {
    tables(&records::small())
}

/// Three rows of every kind but block; of the 4 blocks, block 1 is empty.
pub fn broad() -> Packed {
    tables(&records::broad())
}

/// As many shapes, cells and blocks as there may be.
pub fn wide() -> Packed {
    tables(&records::wide())
}

fn tables(draft: &records::Draft) -> Packed {
    tables_of(&draft.concat()).expect("the base books are readable")
}

/// The row of a step: x, y, z, number.
pub fn step(kind: u8, [x, y, z]: [u8; 3], number: u32) -> [u8; STEP_ROW] {
    let [n0, n1, n2, n3] = number.to_le_bytes();
    [kind, x, y, z, n0, n1, n2, n3]
}

pub fn lower(label: u8) -> [u8; STEP_ROW] {
    step(72, [label, 0, 0], 0)
}

pub fn block(bound: u8, steps: u32) -> [u8; BLOCK_ROW] {
    let [n0, n1, n2, n3] = steps.to_le_bytes();
    [bound, n0, n1, n2, n3]
}

pub fn cell(shape: u8, label: u8, kind: u8, number: u32) -> [u8; CELL_ROW] {
    let [n0, n1, n2, n3] = number.to_le_bytes();
    [shape, label, kind, n0, n1, n2, n3]
}

pub const PLAIN_SHAPE: [u8; SHAPE_ROW] = [16, 0, 0];

/// The tables with one byte of one row changed.
pub fn with_byte(tables: &Packed, table: Table, row: usize, byte: usize, value: u8) -> Packed {
    let mut changed = tables.clone();
    table.of_mut(&mut changed)[row * table.row() + byte] = value;
    changed
}

/// The tables with the number of one row changed, which its last 4 bytes are.
pub fn with_number(tables: &Packed, table: Table, row: usize, number: u32) -> Packed {
    let mut changed = tables.clone();
    let end = (row + 1) * table.row();
    table.of_mut(&mut changed)[end - 4..end].copy_from_slice(&number.to_le_bytes());
    changed
}

/// How many steps a block counts.
pub fn count(tables: &Packed, row: usize) -> u32 {
    let end = (row + 1) * BLOCK_ROW;
    let bytes = tables.blocks[..end].last_chunk().expect("a row has 5");
    u32::from_le_bytes(*bytes)
}

/// Adds steps at the end of the last block, which counts them. There is a block.
pub fn append_steps(tables: &mut Packed, row: [u8; STEP_ROW], times: usize) {
    let last = Table::Blocks.count(tables) - 1;
    let counted = count(tables, last).wrapping_add(times as u32);
    tables.steps.extend(row.repeat(times));
    *tables = with_number(tables, Table::Blocks, last, counted);
}
