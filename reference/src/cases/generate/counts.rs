//! Refusal 4: every count at its limit and beyond.

use super::records::{
    block, c, cell, cell_shape, code_shape, exec, lower, plain_shape, put, start, wide, with_last,
    Draft,
};
use super::Bytes;

pub fn books() -> Vec<Bytes> {
    let parts = [shapes(), cells(), blocks(), steps(), pairs_of_faults()];
    parts.concat()
}

fn with_block(parts: &[Draft]) -> Bytes {
    [parts.concat(), vec![block(7)]].concat().concat()
}

fn shapes() -> Vec<Bytes> {
    let mut books = Vec::new();
    for count in [31, 32, 33, 34, 256, 257] {
        for shape in [plain_shape(), code_shape(15)] {
            books.push(with_block(&[vec![c(3)], vec![shape; count]]));
        }
    }
    for count in [30, 31, 32, 33] {
        let head = vec![c(3), plain_shape()];
        books.push(with_block(&[head, vec![cell_shape(0, 9); count]]));
    }
    books
}

fn cells() -> Vec<Bytes> {
    let head = vec![c(3), plain_shape(), cell_shape(0, 9)];
    let mut books = Vec::new();
    for count in [31, 32, 33, 34] {
        for record in [cell(1, 9, 0, 5), cell(1, 0, 1, 31), cell(1, 0, 1, 32)] {
            books.push(with_block(&[head.clone(), vec![record; count]]));
        }
    }
    books
}

fn blocks() -> Vec<Bytes> {
    let mut books = Vec::new();
    for count in [63, 64, 65, 66, 257] {
        let blocks = vec![block(3); count];
        let with_steps = vec![[block(3), start(63)].concat(); count];
        books.push([vec![c(3)], blocks].concat().concat());
        books.push([vec![c(3)], with_steps].concat().concat());
    }
    books
}

/// 63 to 66 steps in the first, a middle or the last block, also behind full blocks.
fn steps() -> Vec<Bytes> {
    let mut books = Vec::new();
    for count in [63, 64, 65, 66] {
        books.push(book_of_blocks(&[count]));
        for others in [0, 2, 64] {
            books.push(book_of_blocks(&[count, others, others]));
            books.push(book_of_blocks(&[others, count, others]));
            books.push(book_of_blocks(&[others, others, count]));
        }
    }
    books.push(book_of_blocks(&[64; 8]));
    books.push(book_of_blocks(&[257]));
    books
}

/// Blocks with so many steps.
fn book_of_blocks(counts: &[usize]) -> Bytes {
    let mut draft = vec![c(3)];
    for &count in counts {
        draft.push(block(9));
        draft.extend((0..count).map(|step| if step % 2 == 0 { lower(2) } else { exec(7) }));
    }
    draft.concat()
}

/// Two counts passed in one book; the 65th step or 65th block with a fault of a later stage.
fn pairs_of_faults() -> Vec<Bytes> {
    let full = [vec![c(3), block(1)], vec![lower(1); 64]].concat();
    let many_shapes = vec![plain_shape(); 33];
    let many_cells = vec![cell(1, 9, 0, 5); 33];
    let many_steps = vec![lower(2); 65];
    vec![
        with_block(&[vec![c(3)], many_shapes.clone(), many_cells.clone()]),
        with_block(&[vec![c(3)], many_cells, vec![block(3); 65]]),
        [vec![c(3)], many_shapes, vec![block(3)], many_steps]
            .concat()
            .concat(),
        with_last(&full, lower(16)),
        with_last(&full, start(1)),
        with_last(&full, put(8, 0)),
        with_last(&full, block(16)),
        with_last(&wide(), block(3)),
        with_last(&wide(), block(16)),
        with_last(&wide(), start(64)),
    ]
}
