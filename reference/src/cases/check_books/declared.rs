//! Refusal 7: "A declared cell of trust above C needs label at least trust and a fitting value.
//! Others need nothing."

use super::scene::{all_pairs, levels, pairs, Scene, Value, COMPROMISED};
use crate::cases::generate::Bytes;

pub fn books() -> Vec<Bytes> {
    let parts = [
        trusts_and_labels(),
        values(),
        code_bounds(),
        references(),
        positions(),
        many_cells(),
    ];
    parts.concat()
}

/// A plain cell of this trust and label.
fn plain_cell(c: u8, trust: u8, label: u8) -> Bytes {
    let mut scene = Scene::new(c);
    let shape = scene.plain_cell(trust);
    scene.declare(shape, label, Value::Plain);
    scene.with_block(c, &[]).book()
}

/// Every trust with every label for one C, the labels around C for others.
fn trusts_and_labels() -> Vec<Bytes> {
    let mut books = Vec::new();
    for trust in 0..16 {
        books.extend((0..16).map(|label| plain_cell(3, trust, label)));
    }
    for c in [0, 7, 13, 14] {
        let around = pairs(c).into_iter();
        books.extend(around.map(|[trust, label]| plain_cell(c, trust, label)));
    }
    books
}

/// Plain, code and cell contents, each with values that fit and that do not.
fn values() -> Vec<Bytes> {
    let mut books = Vec::new();
    for c in COMPROMISED {
        for trust in levels(c) {
            for content in 0..3 {
                books.extend(VALUES.map(|value| valued(c, content, trust, value)));
            }
        }
    }
    books
}

/// The blocks' bounds are 8, 15 and 9; cell 0 is of shape 2, cell 1 of another, and cell 2 is the
/// one with the value.
const VALUES: [Value; 7] = [
    Value::Plain,
    Value::Code(0),
    Value::Code(1),
    Value::Code(2),
    Value::Cell(0),
    Value::Cell(1),
    Value::Cell(2),
];

/// Shapes 0, 1 and 2 are plain, code of bound 9 and a cell.
fn valued(c: u8, content: u8, trust: u8, value: Value) -> Bytes {
    let mut scene = Scene::new(c);
    let plain = scene.plain();
    let code = scene.code(9);
    let inner = scene.cell_of(plain, 15);
    let other = scene.cell_of(code, 15);
    let outer = scene.cell_of(content, trust);
    scene.top(inner, Value::Plain);
    scene.top(other, Value::Code(1));
    scene.top(outer, value);
    for bound in [8, 15, 9] {
        scene.block(bound, &[]);
    }
    scene.book()
}

/// "A code register of bound B fits a code content of bound at most B", for a declared value.
fn code_bounds() -> Vec<Bytes> {
    let mut books = Vec::new();
    for content in 0..16 {
        books.extend((0..16).map(|bound| holding_code(3, 9, content, bound)));
    }
    for c in [0, 14] {
        for [content, bound] in pairs(c) {
            books.push(holding_code(c, c + 1, content, bound));
            books.push(holding_code(c, c, content, bound));
        }
    }
    books
}

fn holding_code(c: u8, trust: u8, content: u8, bound: u8) -> Bytes {
    let mut scene = Scene::new(c);
    let content = scene.code(content);
    let shape = scene.cell_of(content, trust);
    scene.top(shape, Value::Code(0));
    scene.with_block(bound, &[]).book()
}

/// Which cell the first and the last of three cells name.
const NAMED: [(u8, u8); 6] = [(0, 1), (1, 1), (2, 1), (1, 0), (1, 2), (2, 2)];

/// Cells that name themselves, an earlier or a later cell. A cell's shape is never alike to its
/// own content.
fn references() -> Vec<Bytes> {
    let mut books = Vec::new();
    for (c, [inner, outer]) in all_pairs() {
        let named = NAMED.into_iter();
        books.extend(named.map(|(first, last)| three_cells(c, inner, outer, first, last)));
    }
    books
}

/// A plain cell between two cells of such cells, which name the given cells.
fn three_cells(c: u8, inner: u8, outer: u8, first: u8, last: u8) -> Bytes {
    let mut scene = Scene::new(c);
    let inner = scene.plain_cell(inner);
    let outer = scene.cell_of(inner, outer);
    scene.top(outer, Value::Cell(first));
    scene.top(inner, Value::Plain);
    scene.top(outer, Value::Cell(last));
    scene.with_block(c, &[]).book()
}

/// Faults in every choice of five cells: a label too low, or a value that does not fit.
fn positions() -> Vec<Bytes> {
    let mut books = Vec::new();
    for faults in 0..32 {
        books.push(five_cells(faults, 8, Value::Plain));
        books.push(five_cells(faults, 9, Value::Code(0)));
    }
    books
}

/// Cells of trust 9; those whose bit is set get this label and value.
fn five_cells(faults: u8, label: u8, value: Value) -> Bytes {
    let mut scene = Scene::new(3);
    let shape = scene.plain_cell(9);
    for number in 0..5 {
        if faults >> number & 1 == 1 {
            scene.declare(shape, label, value);
        } else {
            scene.declare(shape, 9 + number, Value::Plain);
        }
    }
    scene.with_block(15, &[]).book()
}

/// As many shapes and cells as there may be, with a fault in the last cell or none.
fn many_cells() -> Vec<Bytes> {
    [8, 9].map(deep_cells).to_vec()
}

/// Every shape is a cell of the shape before; every cell names the cell before.
fn deep_cells(last_label: u8) -> Bytes {
    let mut scene = Scene::new(3);
    let mut shape = scene.plain_cell(9);
    scene.shapes_up_to(32, 9);
    scene.top(shape, Value::Plain);
    for below in 0..29 {
        shape += 1;
        scene.top(shape, Value::Cell(below));
    }
    scene.top(31, Value::Cell(29));
    scene.declare(31, last_label, Value::Cell(29));
    scene.with_block(15, &[]).book()
}
