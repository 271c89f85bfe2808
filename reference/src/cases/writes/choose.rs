//! Rows of choose: each field at its limit and beyond, alone and together.

use super::rows::{append_steps, block, lower, small, step, with_byte, Table};
use super::Write;
use crate::model::writer::{Packed, STEP_ROW};

pub fn writes() -> Vec<Write> {
    let parts = [fields(), last_blocks(), counts(), in_shapes(), beside()];
    let roomy = parts.concat().into_iter().map(Write::roomy);
    roomy.chain(buffers()).collect()
}

fn choose(r: u8, first: u8, second: u8) -> [u8; STEP_ROW] {
    step(75, [r, first, second], 0)
}

/// Blocks of so many, the last with these rows.
fn blocks(count: usize, rows: &[[u8; STEP_ROW]]) -> Packed {
    let mut tables = Packed {
        blocks: block(9, 0).repeat(count),
        steps: vec![],
        ..small()
    };
    for &row in rows {
        append_steps(&mut tables, row, 1);
    }
    tables
}

/// Every choice of a register, of two blocks and of the number, which is not used.
pub fn fields() -> Vec<Packed> {
    let mut all = Vec::new();
    for r in [0, 7, 8, 255] {
        for first in [0, 1, 2, 255] {
            for second in [0, 1, 2, 255] {
                for number in [0, 1, 256, 65_536, 1 << 24, u32::MAX] {
                    all.push(blocks(2, &[step(75, [r, first, second], number)]));
                }
            }
        }
    }
    all
}

/// The last of 1, 63, 64 and 65 blocks, and one more.
fn last_blocks() -> Vec<Packed> {
    let mut all = Vec::new();
    for count in [1, 63, 64, 65] {
        let (last, beyond) = (count as u8 - 1, count as u8);
        for (first, second) in [
            (last, last),
            (last, beyond),
            (beyond, last),
            (beyond, beyond),
        ] {
            all.push(blocks(count, &[choose(7, first, second)]));
        }
    }
    all
}

/// In the 64th and the 65th place of a block, with no fault or one of a later stage.
fn counts() -> Vec<Packed> {
    let mut all = Vec::new();
    for last in [
        choose(7, 0, 1),
        choose(8, 0, 1),
        choose(7, 2, 1),
        choose(7, 1, 2),
    ] {
        for before in [62, 63, 64, 65] {
            for other in [lower(2), choose(1, 0, 0)] {
                let rows = [vec![other; before], vec![last]].concat();
                all.push(blocks(2, &rows));
                all.push(blocks(2, &[vec![last], vec![other; before]].concat()));
            }
        }
    }
    all
}

/// No shape has this kind, nor the one above, whatever the fields.
fn in_shapes() -> Vec<Packed> {
    let mut all = Vec::new();
    for kind in [74, 75, 76] {
        for row in 0..2 {
            for fields in [[0, 0], [0, 9], [1, 1]] {
                let mut tables = with_byte(&small(), Table::Shapes, row, 0, kind);
                tables.shapes[row * 3 + 1..][..2].copy_from_slice(&fields);
                all.push(tables);
            }
        }
        let mut behind = small();
        append_steps(&mut behind, step(kind, [0; 3], 0), 1);
        all.push(behind);
    }
    all
}

/// Beside a row with a fault of its own, before it and behind it.
fn beside() -> Vec<Packed> {
    let faulty = [
        choose(8, 0, 0),
        choose(0, 2, 0),
        choose(0, 0, 2),
        step(75, [0, 0, 0], 1),
        step(76, [0, 0, 0], 0),
    ];
    let others = [
        lower(16),
        step(73, [2, 0, 0], 0),
        step(73, [0, 1, 0], 0),
        choose(7, 1, 1),
    ];
    let mut all = Vec::new();
    for one in faulty {
        for other in faulty.into_iter().chain(others) {
            all.push(blocks(2, &[one, other]));
            all.push(blocks(2, &[other, one]));
        }
    }
    all
}

/// Two chooses in a buffer of every length up to some more than the book's.
fn buffers() -> Vec<Write> {
    let tables = blocks(2, &[choose(7, 1, 0), choose(0, 0, 1)]);
    let with = |length| Write {
        tables: tables.clone(),
        length,
    };
    (0..32).map(with).collect()
}
