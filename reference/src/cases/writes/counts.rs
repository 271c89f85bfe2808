//! Refusal 2 at 0, counts that do not add up to the step rows; refusal 3, no block; and refusal 4,
//! every count at its limit and beyond.

use super::rows::{
    append_steps, block, broad, cell, count, lower, small, step, with_number, Table, PLAIN_SHAPE,
};
use crate::model::writer::Packed;

pub fn tables() -> Vec<Packed> {
    let parts = [
        wrong(),
        moved(),
        wrapped(),
        no_block(),
        shapes_and_cells(),
        blocks(),
        steps(),
        pairs(),
    ];
    parts.concat()
}

/// The count of each block changed.
fn wrong() -> Vec<Packed> {
    let broad = broad();
    let mut all = Vec::new();
    for row in 0..4 {
        let right = count(&broad, row);
        for more in [1, 2, 54, 256, 65_536, 1 << 24, 1 << 31, u32::MAX] {
            let wrong = right.wrapping_add(more);
            all.push(with_number(&broad, Table::Blocks, row, wrong));
        }
        all.push(with_number(&broad, Table::Blocks, row, 0));
    }
    all
}

/// Steps that go over from one block to another: the counts add up.
fn moved() -> Vec<Packed> {
    let broad = broad();
    let mut all = Vec::new();
    for (from, to) in [(0, 1), (0, 2), (2, 1), (3, 0), (3, 1), (2, 3)] {
        for steps in [1, 5, 11] {
            let fewer = count(&broad, from) - steps;
            let changed = with_number(&broad, Table::Blocks, from, fewer);
            let more = count(&changed, to) + steps;
            all.push(with_number(&changed, Table::Blocks, to, more));
        }
    }
    all
}

/// Sums that are right in 32 bits, or in 8 or 16, and not exactly.
fn wrapped() -> Vec<Packed> {
    let wrapping = [
        vec![u32::MAX, 1],
        vec![1, u32::MAX],
        vec![1 << 31; 2],
        vec![1 << 30; 4],
        vec![1 << 26; 64],
        vec![256],
        vec![65_536],
        vec![u32::MAX],
    ];
    let mut all = Vec::new();
    for counts in wrapping {
        for steps in [0, 1, 3] {
            let mut tables = small();
            tables.blocks = counts.iter().flat_map(|&count| block(5, count)).collect();
            tables.steps = lower(2).repeat(steps);
            all.push(tables.clone());
            tables.blocks.extend(block(5, steps as u32));
            all.push(tables);
        }
    }
    all
}

/// With and without steps, shapes and cells.
fn no_block() -> Vec<Packed> {
    let mut all = vec![Packed::default()];
    for steps in [0, 1, 2, 65] {
        for row in [lower(2), lower(16), step(16, [0; 3], 0), [0; 8]] {
            let (blocks, steps) = (vec![], row.repeat(steps));
            let tables = Packed {
                blocks,
                steps,
                ..small()
            };
            all.push(Packed {
                cells: vec![],
                ..tables.clone()
            });
            all.push(Packed {
                shapes: vec![],
                ..tables.clone()
            });
            all.push(Packed {
                c: 15,
                ..tables.clone()
            });
            all.push(tables);
        }
    }
    all
}

/// 30 to 35 shapes or cells, with a fault of a later stage in the first, in the one beyond, or none.
fn shapes_and_cells() -> Vec<Packed> {
    let mut all = Vec::new();
    for count in [30, 31, 32, 33, 34, 256, 257] {
        let shapes = [[16, 0, 0], [17, 16, 0], [16, 0, 1], [18, 0, 0]];
        for first in shapes {
            for last in shapes {
                let between = PLAIN_SHAPE.repeat(count - 2);
                let shapes = [&first, &between[..], &last].concat();
                let cells = vec![];
                all.push(Packed {
                    shapes,
                    cells,
                    ..small()
                });
            }
        }
        for row in [
            cell(1, 9, 0, 5),
            cell(1, 16, 0, 5),
            cell(0, 0, 0, 0),
            cell(1, 0, 1, 32),
        ] {
            let cells = [row.to_vec(), cell(1, 9, 0, 7).repeat(count - 1)].concat();
            all.push(Packed { cells, ..small() });
        }
    }
    all
}

/// 63 to 66 blocks and more, with no step or one each.
fn blocks() -> Vec<Packed> {
    let mut all = Vec::new();
    for count in [1, 2, 63, 64, 65, 66, 257] {
        for steps in [0, 1] {
            for (bound, label) in [(3, 2), (16, 2), (3, 16)] {
                let blocks = block(bound, steps as u32).repeat(count);
                let steps = lower(label).repeat(count * steps);
                all.push(Packed {
                    blocks,
                    steps,
                    ..small()
                });
            }
        }
    }
    all
}

/// Blocks with so many steps, lowers that are sound or not.
fn of_counts(counts: &[u32], label: u8) -> Packed {
    let sum: u32 = counts.iter().sum();
    Packed {
        blocks: counts.iter().flat_map(|&count| block(9, count)).collect(),
        steps: lower(label).repeat(sum as usize),
        ..small()
    }
}

/// 63 to 66 steps in the first, a middle or the last block, also beside full blocks.
fn steps() -> Vec<Packed> {
    let mut all = Vec::new();
    for label in [2, 16] {
        for count in [63, 64, 65, 66] {
            all.push(of_counts(&[count], label));
            for others in [0, 2, 64] {
                all.push(of_counts(&[count, others, others], label));
                all.push(of_counts(&[others, count, others], label));
                all.push(of_counts(&[others, others, count], label));
            }
        }
        all.push(of_counts(&[64; 64], label));
        all.push(of_counts(&[64; 65], label));
        all.push(of_counts(&[65, 65], label));
        all.push(of_counts(&[257], label));
    }
    all
}

/// Two limits passed in one book; a block that counts 65 and has fewer.
fn pairs() -> Vec<Packed> {
    let shapes = PLAIN_SHAPE.repeat(33);
    let cells = cell(1, 9, 0, 5).repeat(33);
    let mut many_steps = small();
    append_steps(&mut many_steps, lower(2), 65);
    let mut few = many_steps.clone();
    few.steps.truncate(66 * 8);
    let many = [
        Packed {
            shapes: shapes.clone(),
            ..many_steps.clone()
        },
        Packed {
            cells: cells.clone(),
            ..many_steps.clone()
        },
        Packed {
            blocks: block(3, 0).repeat(65),
            steps: vec![],
            cells: cells.clone(),
            ..small()
        },
        Packed {
            shapes,
            cells,
            ..small()
        },
    ];
    [many.to_vec(), vec![many_steps, few]].concat()
}
