//! "exec: the content is code with bound at least P, and S at least P." "start: the block's
//! bound is at least P."

use super::scene::{all_pairs, pairs, triples, Scene, Value, COMPROMISED};
use crate::cases::generate::records::{code, exec, lower, name, new, start};
use crate::cases::generate::Bytes;

pub fn books() -> Vec<Bytes> {
    let parts = [
        execs(),
        lowered_execs(),
        made_execs(),
        other_contents(),
        starts(),
        lowered_starts(),
    ];
    parts.concat()
}

/// A cell of code of this bound and trust, holding block 1 of bound 15.
fn code_cell(c: u8, bound: u8, trust: u8) -> (Scene, u8) {
    let mut scene = Scene::new(c);
    let content = scene.code(bound);
    let shape = scene.cell_of(content, trust);
    let cell = scene.top(shape, Value::Code(1));
    (scene, cell)
}

/// P, the content's bound and S.
fn execs() -> Vec<Bytes> {
    let mut books = Vec::new();
    for c in COMPROMISED.into_iter().chain([7]) {
        for [p, bound, trust] in triples(c) {
            let (scene, cell) = code_cell(c, bound, trust);
            let steps = [name(0, cell), exec(0)];
            books.push(scene.with_block(p, &steps).with_block(15, &[]).book());
        }
    }
    books
}

/// The same after a lower: P counts, not the block's bound.
fn lowered_execs() -> Vec<Bytes> {
    let mut books = Vec::new();
    for c in [3, 8] {
        for [p, bound, trust] in triples(c) {
            let (scene, cell) = code_cell(c, bound, trust);
            let steps = [name(0, cell), lower(p), exec(0)];
            books.push(scene.with_block(14, &steps).with_block(15, &[]).book());
        }
    }
    books
}

/// exec of a cell just made, whose code has another bound than its content shape.
fn made_execs() -> Vec<Bytes> {
    let mut books = Vec::new();
    for c in [3] {
        for [p, bound, trust] in triples(c) {
            let (scene, _) = code_cell(c, bound, trust);
            let steps = [lower(p), code(0, 1), new(1, 1, 0), exec(1)];
            books.push(scene.with_block(15, &steps).with_block(15, &[]).book());
        }
    }
    books
}

/// exec of plain and cell contents, and through registers that are no cell.
fn other_contents() -> Vec<Bytes> {
    let mut books = Vec::new();
    for (c, [p, trust]) in all_pairs() {
        let mut scene = Scene::new(c);
        let plain = scene.plain_cell(trust);
        let nested = scene.cell_of(plain, trust);
        let cells = [
            scene.top(plain, Value::Plain),
            scene.top(nested, Value::Cell(0)),
        ];
        for cell in cells {
            books.push(scene.with_block(p, &[name(0, cell), exec(0)]).book());
        }
        books.push(scene.with_block(p, &[code(0, 0), exec(0)]).book());
    }
    books
}

/// Every P with every bound for one C, the labels around C for others; a block starts itself.
fn starts() -> Vec<Bytes> {
    let started = |c: u8, p: u8, bound: u8| {
        let scene = Scene::new(c).with_block(p, &[start(1)]);
        scene.with_block(bound, &[start(1)]).book()
    };
    let mut books = Vec::new();
    for p in 0..16 {
        books.extend((0..16).map(|bound| started(3, p, bound)));
    }
    for c in [0, 14] {
        books.extend(pairs(c).into_iter().map(|[p, bound]| started(c, p, bound)));
    }
    books
}

/// A lower makes room for blocks of a lesser bound.
fn lowered_starts() -> Vec<Bytes> {
    let mut books = Vec::new();
    for (c, [p, bound]) in all_pairs() {
        let steps = [start(0), lower(p), start(0), start(1)];
        let scene = Scene::new(c).with_block(15, &steps);
        books.push(scene.with_block(bound, &[]).book());
    }
    books
}
