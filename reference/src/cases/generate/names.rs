//! Refusal 6: shapes, cells and blocks that are named, at their last number and beyond.

use super::records::{
    block, broad, c, cell, cell_shape, code, code_shape, name, new, places, plain_shape, start,
    wide, with_byte, with_last, with_record, Draft,
};
use super::Bytes;

/// What `broad` declares.
const SHAPES: u8 = 9;
const CELLS: u8 = 3;
const BLOCKS: u8 = 4;

pub fn books() -> Vec<Bytes> {
    let parts = [
        contents(),
        content_chains(),
        shapes_named(),
        numbers_named(),
        values(),
        wide_books(),
        bare_books(),
    ];
    parts.concat()
}

/// The content of every cell shape: lower, its own number, higher.
fn contents() -> Vec<Bytes> {
    let broad = broad();
    let mut books = Vec::new();
    for record in places(&broad, 18) {
        let own = record as u8 - 1;
        for content in [0, own - 1, own, own + 1, SHAPES - 1, SHAPES, 128, 255] {
            books.push(with_byte(&broad, record, 1, content));
        }
    }
    books
}

/// Cell shapes of the shape before, with one content at fault; a cell shape as shape 0.
fn content_chains() -> Vec<Bytes> {
    let mut books = vec![
        [c(3), cell_shape(0, 0), block(0)].concat(),
        [c(3), cell_shape(255, 15), block(0)].concat(),
    ];
    let chain: Draft = (0..31).map(|content| cell_shape(content, 5)).collect();
    let whole = [vec![c(3), plain_shape()], chain, vec![block(0)]].concat();
    for own in [1, 2, 15, 16, 30, 31] {
        for content in [own - 1, own, own + 1] {
            books.push(with_byte(&whole, usize::from(own) + 1, 1, content));
        }
    }
    books
}

/// A cell or new that names every shape there is, and some that are not.
fn shapes_named() -> Vec<Bytes> {
    let broad = broad();
    let mut books = Vec::new();
    for (kind, byte) in [(32, 1), (68, 2)] {
        for record in places(&broad, kind) {
            for shape in (0..=SHAPES).chain([32, 128, 255]) {
                books.push(with_byte(&broad, record, byte, shape));
            }
        }
    }
    books
}

/// The numbers that steps name: kind, the field's byte in the record, how many there are.
const NUMBERS: [(u8, usize, u8); 5] = [
    (65, 2, CELLS),
    (66, 2, BLOCKS),
    (73, 1, BLOCKS),
    (75, 2, BLOCKS),
    (75, 3, BLOCKS),
];

/// name, code, start and choose at the last number and beyond.
fn numbers_named() -> Vec<Bytes> {
    let broad = broad();
    let mut books = Vec::new();
    for (kind, byte, count) in NUMBERS {
        for record in places(&broad, kind) {
            for number in [count - 1, count, count + 1, 32, 64, 128, 255] {
                books.push(with_byte(&broad, record, byte, number));
            }
        }
    }
    books
}

/// Every value kind with numbers that exist, do not, or would if bytes of them were lost.
fn values() -> Vec<Bytes> {
    let broad = broad();
    let numbers = [0, 2, 3, 4, 255, 256, 65_536, 1 << 24, 1 << 31, u32::MAX];
    let mut books = Vec::new();
    for record in places(&broad, 32) {
        for value_kind in 0..=2 {
            for number in numbers {
                let changed = cell(1, 9, value_kind, number);
                books.push(with_record(&broad, record, changed));
            }
        }
    }
    books
}

/// The largest numbers that can exist and those just beyond.
fn wide_books() -> Vec<Bytes> {
    let wide = wide();
    let ends = [
        name(0, 31),
        name(0, 32),
        code(0, 63),
        code(0, 64),
        start(63),
        start(64),
        new(0, 31, 0),
        new(0, 32, 0),
    ];
    let mut books: Vec<Bytes> = ends.map(|end| with_last(&wide, end)).to_vec();
    for (value_kind, number) in [(1, 31), (1, 32), (2, 31), (2, 63), (2, 64)] {
        for record in places(&wide, 32) {
            books.push(with_record(&wide, record, cell(31, 0, value_kind, number)));
        }
    }
    books
}

/// Names where nothing is declared, and more cells than blocks.
fn bare_books() -> Vec<Bytes> {
    let two_shapes = [c(3), plain_shape(), cell_shape(0, 1)];
    let drafts: [Draft; 10] = [
        vec![c(3), block(3), name(0, 0)],
        vec![c(3), block(3), new(0, 0, 0)],
        vec![c(3), block(3), code(0, 0), start(0)],
        vec![c(3), block(3), code(0, 1)],
        vec![c(3), block(3), start(1), block(3)],
        vec![c(3), cell(0, 3, 0, 0), block(3)],
        [vec![c(3)], five_cells(0), vec![block(3)]].concat(),
        [vec![c(3), code_shape(2)], five_cells(0), vec![block(3)]].concat(),
        [&two_shapes[..], &five_cells(1), &[block(3), name(0, 4)]].concat(),
        [&two_shapes[..], &five_cells(1), &[block(3), start(4)]].concat(),
    ];
    drafts.iter().map(|draft| draft.concat()).collect()
}

/// Five cells, each naming itself or another.
fn five_cells(shape: u8) -> Draft {
    (0..5).map(|number| cell(shape, 3, 1, 4 - number)).collect()
}
