//! Bytes behind the last whole row: they are no row and play no part.

use super::rows::{block, broad, small, with_number, Table, TABLES};
use crate::model::writer::Packed;

pub fn tables() -> Vec<Packed> {
    let mut all = Vec::new();
    for base in [small(), broad(), Packed::default()] {
        for table in TABLES {
            all.extend(behind(&base, table));
        }
    }
    all.extend(in_all());
    all.extend(missing());
    all
}

/// From one byte to one fewer than a row has, of several sorts.
fn behind(base: &Packed, table: Table) -> Vec<Packed> {
    let mut all = Vec::new();
    for count in 1..table.row() {
        for byte in [0, 1, 18, 64, 75, 76, 255] {
            let mut tables = base.clone();
            table.of_mut(&mut tables).extend(vec![byte; count]);
            all.push(tables);
        }
    }
    all
}

/// Behind all tables at once.
fn in_all() -> Vec<Packed> {
    let mut all = Vec::new();
    for byte in [0, 18, 72, 255] {
        for count in [1, 2] {
            let mut tables = broad();
            for table in TABLES {
                table.of_mut(&mut tables).extend(vec![byte; count]);
            }
            all.push(tables);
        }
    }
    all
}

/// What would be sound if the bytes were a row: a shape, a cell, a block or a step that is named or
/// counted. And tables that hold nothing else.
fn missing() -> Vec<Packed> {
    let mut shape = small();
    shape.shapes.extend([18, 0]);
    shape.cells[0] = 2;
    let mut named_cell = small();
    named_cell.cells.extend([1, 9, 0, 0, 0, 0]);
    named_cell.steps[2] = 1;
    let mut named_block = small();
    named_block.blocks.extend([5, 0, 0, 0]);
    named_block.steps[..8].copy_from_slice(&[73, 1, 0, 0, 0, 0, 0, 0]);
    let mut counted = with_number(&small(), Table::Blocks, 0, 3);
    counted.steps.extend([72, 0, 0, 0, 0, 0, 0]);
    let mut all = vec![shape, named_cell, named_block, counted];
    for table in TABLES {
        let mut cut = small();
        let bytes = table.of_mut(&mut cut);
        bytes.truncate(table.row() - 1);
        all.push(cut.clone());
        cut.blocks = block(12, 0).to_vec();
        all.push(cut);
    }
    all
}
