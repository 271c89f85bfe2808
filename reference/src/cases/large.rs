//! Accepted books with as many records as there may be, for measuring.

#[cfg(test)]
mod tests;

use crate::cases::generate::records::{
    add, block, c, cell, cell_shape, code, code_shape, exec, lower, name, new, plain_shape, put,
    read, relabel, start, write, Draft,
};

const SHAPES: u8 = 32;
const CELLS: u8 = 32;
const BLOCKS: u8 = 64;
const STEPS: u8 = 64;

/// The largest readable book, 25,057 bytes: the longest records of each group, code as shape 0
/// since no cell shape can stand there. All P are above C.
pub fn full_book() -> Vec<u8> {
    let mut draft = vec![c(3), code_shape(15)];
    draft.extend((1..SHAPES).map(|own| cell_shape(own - 1, 9)));
    draft.push(cell(1, 15, 2, 11));
    draft.extend((1..CELLS).map(deep_cell));
    for number in 0..BLOCKS {
        draft.push(block(4 + number % 12));
        draft.extend((0..STEPS).map(|step| put(step % 8, number_of(number, step))));
    }
    draft.concat()
}

/// A cell of the next shape that names the cell before; the last shape serves twice.
fn deep_cell(number: u8) -> Vec<u8> {
    let shape = (number + 1).min(SHAPES - 1);
    cell(shape, 15, 1, u32::from(shape) - 2)
}

/// Another number for every step, in all four bytes.
fn number_of(block: u8, step: u8) -> u32 {
    (u32::from(block) * 64 + u32::from(step)) * 1_048_583
}

/// The labels of `mixed_book`: C, and P in all blocks.
const C: u8 = 3;
const P: u8 = 12;

/// Shapes from 4 on are cells of the shape four before: four chains of seven cells each, two
/// over plain and two over code. The two of a pair are alike, though one of their trusts is low
/// and not the same number.
const CHAINS: u8 = 4;
const DEPTHS: u8 = 7;

/// A book with steps of all kinds that document 01 has, none of them stuck, all with P above C.
pub fn mixed_book() -> Vec<u8> {
    let mut draft = vec![c(C), plain_shape(), plain_shape()];
    draft.extend([code_shape(P), code_shape(P)]);
    draft.extend((CHAINS..SHAPES).map(chained_shape));
    draft.extend((CHAINS..SHAPES).map(chained_cell));
    draft.extend((SHAPES - CHAINS..SHAPES).map(chained_cell));
    for number in 0..BLOCKS {
        draft.push(block(P + number % 4));
        draft.extend(mixed_steps(number));
    }
    draft.concat()
}

fn chained_shape(own: u8) -> Vec<u8> {
    let trust = match own / CHAINS {
        3 => 10,
        4 => C - own % 2,
        5 => 11,
        _ => P,
    };
    cell_shape(own - CHAINS, trust)
}

/// The number of the cell with this shape.
fn cell_with(shape: u8) -> u8 {
    shape - CHAINS
}

/// A cell that holds plain, code, or a cell of the other chain of its pair.
fn chained_cell(shape: u8) -> Vec<u8> {
    match (shape / CHAINS, shape % CHAINS) {
        (1, 0 | 1) => cell(shape, 15, 0, 5),
        (1, _) => cell(shape, 15, 2, shape.into()),
        _ => cell(shape, 15, 1, cell_with((shape - CHAINS) ^ 1).into()),
    }
}

/// A lower, then three times the 21 steps below.
fn mixed_steps(number: u8) -> Draft {
    let mut steps = vec![lower(P)];
    for turn in 0..3 {
        let chain = (number + turn) % CHAINS;
        let depth = 1 + (number / CHAINS + 2 * turn) % (DEPTHS - 1);
        steps.extend(plain_steps(number, turn));
        steps.extend(cell_steps(depth * CHAINS + chain));
        steps.extend(code_steps(number, turn));
    }
    steps
}

/// Seven steps with plain values and the plain cells.
fn plain_steps(number: u8, turn: u8) -> Draft {
    let shape = CHAINS + number % 2;
    vec![
        put(0, number_of(number, turn)),
        put(1, number_of(turn, number)),
        add(2, 0, 1),
        name(3, cell_with(shape)),
        write(3, 2),
        read(4, 3),
        add(5, 4, 2),
    ]
}

/// Seven steps that store a cell in cells of the other chain of its pair.
fn cell_steps(shape: u8) -> Draft {
    let holder = (shape + CHAINS) ^ 1;
    vec![
        name(6, cell_with(shape)),
        name(7, cell_with(holder)),
        write(7, 6),
        relabel(7, P),
        new(4, holder, 6),
        read(5, 4),
        lower(P),
    ]
}

/// Seven steps with code, the code cells and new jobs.
fn code_steps(number: u8, turn: u8) -> Draft {
    let other = (number + 5 * turn) % BLOCKS;
    let shape = CHAINS + 2 + turn % 2;
    vec![
        code(0, other),
        name(1, cell_with(shape)),
        write(1, 0),
        exec(1),
        start(other),
        new(2, shape, 0),
        exec(2),
    ]
}
