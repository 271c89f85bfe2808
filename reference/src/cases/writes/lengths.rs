//! Refusal 1: tables whose book would have about 32,768 bytes, or far more. Few, for they are long.

use super::rows::{append_steps, block, broad, cell, lower, small, step, PLAIN_SHAPE};
use crate::model::writer::{Packed, STEP_ROW};

/// The length of the book of `small`.
const SMALL: usize = 22;

pub fn tables() -> Vec<Packed> {
    let mut all = Vec::new();
    for length in 32_767..=32_770 {
        all.extend(of_shapes(length));
        all.extend(of_declarations(length));
        all.extend(of_steps(length));
        all.push(wrong_together(length));
    }
    all.extend(overlong());
    all
}

/// Plain shapes, of 1 byte, and rows that are no shape and count as one.
fn of_shapes(length: usize) -> Vec<Packed> {
    let mut all = Vec::new();
    for row in [PLAIN_SHAPE, [64, 7, 7], [0; 3], [255; 3]] {
        let mut tables = small();
        tables.shapes.extend(row.repeat(length - SMALL));
        all.push(tables.clone());
        let (blocks, steps) = (vec![], vec![]);
        all.push(Packed {
            blocks,
            steps,
            ..tables
        });
    }
    all
}

/// Cells, of 8 bytes, or blocks, of 2; plain shapes are the rest.
fn of_declarations(length: usize) -> Vec<Packed> {
    let mut cells = small();
    cells
        .shapes
        .extend(PLAIN_SHAPE.repeat((length - SMALL) % 8));
    cells
        .cells
        .extend(cell(1, 9, 0, 5).repeat((length - SMALL) / 8));
    let mut blocks = small();
    blocks
        .shapes
        .extend(PLAIN_SHAPE.repeat((length - SMALL) % 2));
    blocks
        .blocks
        .extend(block(3, 0).repeat((length - SMALL) / 2));
    vec![cells, blocks]
}

/// Steps of each size; the last block counts them all or, in the second tables, not the last.
fn of_steps(length: usize) -> Vec<Packed> {
    let mut all = Vec::new();
    let sizes = [
        (72, 2),
        (65, 3),
        (67, 4),
        (64, 6),
        (75, 4),
        (76, 1),
        (48, 1),
    ];
    for (kind, size) in sizes {
        let mut tables = small();
        let rest = (length - SMALL) % size;
        tables.shapes.extend(PLAIN_SHAPE.repeat(rest));
        append_steps(&mut tables, step(kind, [0; 3], 0), (length - SMALL) / size);
        all.push(tables.clone());
        let last = tables.blocks.len() - 5;
        tables.blocks[last..].copy_from_slice(&block(12, 1));
        all.push(tables);
    }
    all
}

/// Wrong kinds in both tables, and wrong counts: every row is counted, the kinds with one byte.
fn wrong_together(length: usize) -> Packed {
    let mut tables = broad();
    let bytes = 2 + 15 + 24 + 8 + 3 * 39;
    let half = (length - bytes) / 2;
    tables.shapes.extend([48, 1, 2].repeat(half));
    let rest = length - bytes - half;
    tables.steps.extend(step(16, [9, 9, 9], 9).repeat(rest));
    tables
}

/// So long that the length is that of a sound book in 16 bits, and longer still.
fn overlong() -> Vec<Packed> {
    let mut all = Vec::new();
    for rows in [65_536, 65_536 + 30, 131_072] {
        let mut shapes = small();
        shapes.shapes.extend(PLAIN_SHAPE.repeat(rows));
        let mut steps = small();
        steps.steps.extend(lower(2).repeat(rows / 2));
        all.extend([shapes, steps]);
    }
    all.push(Packed {
        steps: vec![0; 40_000 * STEP_ROW],
        ..Packed::default()
    });
    all
}
