//! Readable books, made by chance toward soundness.

use super::dice::Dice;
use super::records::{
    add, block, broad, c, cell, cell_shape, choose, code, code_shape, every_step, exec, lower,
    name, new, plain_shape, put, read, relabel, small, specimen, start, wide, with_last, write,
    Draft, KINDS,
};
use super::Bytes;

/// The most records of each group, and whether a step may be a choose: in the test books that were
/// drawn before 02, Four none is.
#[derive(Clone, Copy)]
pub struct Size {
    pub shapes: usize,
    pub cells: usize,
    pub blocks: usize,
    pub steps: usize,
    pub chooses: bool,
}

impl Size {
    pub const fn with_choose(self) -> Size {
        Size {
            chooses: true,
            ..self
        }
    }
}

/// How many books of each size.
const SIZES: [(usize, Size); 6] = [
    (160, size(4, 3, 3, 6)),
    (60, size(6, 5, 12, 3)),
    (60, size(4, 3, 64, 1)),
    (30, size(8, 6, 64, 4)),
    (20, size(32, 32, 4, 4)),
    (15, size(5, 4, 3, 64)),
];

pub const fn size(shapes: usize, cells: usize, blocks: usize, steps: usize) -> Size {
    Size {
        shapes,
        cells,
        blocks,
        steps,
        chooses: false,
    }
}

pub fn books() -> Vec<Bytes> {
    let mut dice = Dice::new(0x5EED_0001);
    [fixed(), of_sizes(&mut dice, &SIZES, draft)].concat()
}

/// So many books of each size.
pub fn of_sizes(
    dice: &mut Dice,
    sizes: &[(usize, Size)],
    draft: fn(&mut Dice, Size) -> Draft,
) -> Vec<Bytes> {
    let mut books = Vec::new();
    for &(count, size) in sizes {
        books.extend((0..count).map(|_| draft(dice, size).concat()));
    }
    books
}

/// Every kind alone, empty blocks, and the base books.
fn fixed() -> Vec<Bytes> {
    let mut books = vec![
        [c(0), block(0)].concat(),
        [c(14), block(15)].concat(),
        small().concat(),
        broad().concat(),
        wide().concat(),
        [small(), every_step()].concat().concat(),
    ];
    for kind in KINDS.into_iter().filter(|&kind| kind >= 48) {
        let step = specimen(kind);
        books.push(with_last(&small(), step.clone()));
        books.push(
            [small(), vec![step.clone(), block(2), step, block(3)]]
                .concat()
                .concat(),
        );
    }
    for count in [1, 2, 3, 31, 32, 62, 63, 64] {
        books.push([vec![c(7)], vec![block(7); count]].concat().concat());
    }
    books
}

/// A book by chance of at most this size.
pub fn draft(dice: &mut Dice, size: Size) -> Draft {
    let shapes = shapes(dice, size.shapes);
    let cell_shapes = numbers_of_cell_shapes(&shapes);
    let blocks = 1 + dice.below(size.blocks);
    let cells = if cell_shapes.is_empty() {
        0
    } else {
        dice.below(size.cells + 1)
    };
    let mut draft = vec![c(dice.byte_below(15))];
    draft.extend(shapes);
    draft.extend((0..cells).map(|_| declared(dice, &cell_shapes, cells, blocks)));
    for _ in 0..blocks {
        draft.push(block(dice.byte_below(16)));
        let steps = dice.below(size.steps + 1);
        let sorts = if size.chooses { 12 } else { 11 };
        draft.extend((0..steps).map(|_| step(dice, sorts, &cell_shapes, cells, blocks)));
    }
    draft
}

fn shapes(dice: &mut Dice, most: usize) -> Draft {
    let mut shapes = Vec::new();
    for own_number in 0..dice.below(most + 1) {
        let choices = if own_number == 0 { 2 } else { 4 };
        shapes.push(match dice.below(choices) {
            0 => plain_shape(),
            1 => code_shape(dice.byte_below(16)),
            _ => cell_shape(dice.byte_below(own_number), dice.byte_below(16)),
        });
    }
    shapes
}

fn numbers_of_cell_shapes(shapes: &Draft) -> Vec<u8> {
    let numbered = (0..).zip(shapes);
    let of_cells = numbered.filter(|(_, shape)| shape[0] == 18);
    of_cells.map(|(number, _)| number).collect()
}

fn declared(dice: &mut Dice, cell_shapes: &[u8], cells: usize, blocks: usize) -> Bytes {
    let (shape, label) = (dice.pick(cell_shapes), dice.byte_below(16));
    match dice.below(3) {
        0 => cell(shape, label, 0, dice.number()),
        1 => cell(shape, label, 1, dice.below(cells) as u32),
        _ => cell(shape, label, 2, dice.below(blocks) as u32),
    }
}

/// A step of the first so many sorts.
fn step(dice: &mut Dice, sorts: usize, cell_shapes: &[u8], cells: usize, blocks: usize) -> Bytes {
    let (r, a, b) = (dice.byte_below(8), dice.byte_below(8), dice.byte_below(8));
    match dice.below(sorts) {
        0 if cells > 0 => name(r, dice.byte_below(cells)),
        1 if !cell_shapes.is_empty() => new(r, dice.pick(cell_shapes), a),
        2 => code(r, dice.byte_below(blocks)),
        3 => add(r, a, b),
        4 => read(r, a),
        5 => write(r, a),
        6 => relabel(r, dice.byte_below(16)),
        7 => lower(dice.byte_below(16)),
        8 => start(dice.byte_below(blocks)),
        9 => exec(r),
        11 => choose(r, dice.byte_below(blocks), dice.byte_below(blocks)),
        _ => put(r, dice.number()),
    }
}
