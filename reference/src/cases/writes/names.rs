//! Refusal 6: shapes, cells and blocks that are named, at their last number and beyond.

use super::fields::spots;
use super::rows::{broad, cell, wide, with_byte, with_number, Table};
use crate::model::writer::Packed;

pub fn tables() -> Vec<Packed> {
    let parts = [named(), values(), in_wide(), bare()];
    parts.concat()
}

/// Every field that names, with numbers that are there or not.
fn named() -> Vec<Packed> {
    let broad = broad();
    let mut all = Vec::new();
    for spot in spots(&broad) {
        if spot.field.limit().is_none() {
            let numbers = (0..=10).chain([31, 32, 33, 63, 64, 65, 128, 255]);
            all.extend(numbers.map(|number| spot.with(&broad, number)));
        }
    }
    all
}

/// Values of every kind in the cells of `broad`, which has 3 cells and 4 blocks.
fn values() -> Vec<Packed> {
    let broad = broad();
    let numbers = [
        0,
        2,
        3,
        4,
        5,
        32,
        64,
        255,
        256,
        65_536,
        1 << 24,
        1 << 31,
        u32::MAX,
    ];
    let mut all = Vec::new();
    for row in 0..3 {
        for kind in 0..=3 {
            let with_kind = with_byte(&broad, Table::Cells, row, 2, kind);
            let changed = numbers.map(|number| with_number(&with_kind, Table::Cells, row, number));
            all.extend(changed);
        }
    }
    all
}

/// The last of 32 shapes, 32 cells and 64 blocks, and one more.
fn in_wide() -> Vec<Packed> {
    let wide = wide();
    let mut all = Vec::new();
    for spot in spots(&wide) {
        let often = spot.row % 10 == 1;
        if spot.field.limit().is_none() && often {
            all.extend([31, 32, 63, 64].map(|number| spot.with(&wide, number)));
        }
    }
    for (kind, number) in [(1, 31), (1, 32), (2, 63), (2, 64)] {
        let with_kind = with_byte(&wide, Table::Cells, 31, 2, kind);
        all.push(with_number(&with_kind, Table::Cells, 31, number));
    }
    all
}

/// Names where nothing of the sort is declared.
fn bare() -> Vec<Packed> {
    let mut all = Vec::new();
    let broad = broad();
    for table in [Table::Shapes, Table::Cells] {
        let mut tables = broad.clone();
        table.of_mut(&mut tables).clear();
        all.push(tables);
    }
    let cells = cell(0, 0, 0, 0).to_vec();
    let shapes = vec![18, 0, 0];
    all.push(Packed {
        cells,
        ..broad.clone()
    });
    all.push(Packed { shapes, ..broad });
    all
}
