//! "write: stuck if P is below S; low S passes; else a fits and S is at most its used effect."
//! "relabel to O: stuck if P is below S or O; else S is at most O."

use super::scene::{
    all_pairs, all_triples, breaker, code_scenes, levels, misfit, Scene, Value, COMPROMISED,
};
use crate::cases::generate::records::{code, lower, name, read, relabel, write};
use crate::cases::generate::Bytes;

pub fn books() -> Vec<Bytes> {
    let parts = [effects(), relabels(), lowered(), code_bounds(), kinds()];
    parts.concat()
}

/// P, S and the effect of what is written; then the same with a step behind that would break.
fn effects() -> Vec<Bytes> {
    let mut books = Vec::new();
    for (c, [bound, trust, effect]) in all_triples() {
        let mut scene = Scene::new(c);
        let target = scene.plain_cell(trust);
        let source = scene.plain_cell(effect);
        let misfit = misfit(&mut scene);
        let target = scene.top(target, Value::Plain);
        let source = scene.top(source, Value::Plain);
        let get = [name(0, target), name(1, source), read(2, 1)].concat();
        let steps = [get, write(0, 2), breaker(books.len(), misfit)];
        books.push(scene.with_block(bound, &steps[..2]).book());
        books.push(scene.with_block(bound, &steps).with_block(0, &[]).book());
    }
    books
}

/// P, S and O; then the same with a step behind that would break.
fn relabels() -> Vec<Bytes> {
    let mut books = Vec::new();
    for (c, [bound, trust, label]) in all_triples() {
        let mut scene = Scene::new(c);
        let target = scene.plain_cell(trust);
        let misfit = misfit(&mut scene);
        let target = scene.top(target, Value::Plain);
        let steps = [
            name(0, target),
            relabel(0, label),
            breaker(books.len(), misfit),
        ];
        books.push(scene.with_block(bound, &steps[..2]).book());
        books.push(scene.with_block(bound, &steps).with_block(0, &[]).book());
    }
    books
}

/// write and relabel after a lower: P counts, not the bound.
fn lowered() -> Vec<Bytes> {
    let mut books = Vec::new();
    for (c, [label, trust]) in all_pairs() {
        let mut scene = Scene::new(c);
        let target = scene.plain_cell(trust);
        let misfit = misfit(&mut scene);
        let target = scene.top(target, Value::Plain);
        for step in [write(0, 1), relabel(0, trust), relabel(0, label)] {
            let breaker = breaker(books.len(), misfit);
            let steps = [name(0, target), lower(label), step, breaker];
            books.push(scene.with_block(15, &steps[..3]).book());
            books.push(scene.with_block(15, &steps).with_block(0, &[]).book());
        }
    }
    books
}

/// "A code register of bound B fits a code content of bound at most B."
fn code_bounds() -> Vec<Bytes> {
    let written = |(mut scene, shape, bound): (Scene, u8, u8)| {
        let cell = scene.top(shape, Value::Code(2));
        let steps = [name(0, cell), code(1, 1), write(0, 1)];
        let scene = scene.with_block(15, &steps).with_block(bound, &[]);
        scene.with_block(15, &[]).book()
    };
    code_scenes().into_iter().map(written).collect()
}

/// Every kind of value for every kind of content.
fn kinds() -> Vec<Bytes> {
    let mut books = Vec::new();
    for c in COMPROMISED {
        for trust in levels(c) {
            for content in 0..3 {
                books.extend((0..4).map(|register| of_kinds(c, trust, content, register)));
            }
        }
    }
    books
}

/// Shapes 0 to 2 and registers 0 to 2 are plain, code and a cell; register 3 is unknown.
fn of_kinds(c: u8, trust: u8, content: u8, register: u8) -> Bytes {
    let mut scene = Scene::new(c);
    let plain = scene.plain();
    scene.code(9);
    let inner = scene.cell_of(plain, c);
    let target = scene.cell_of(content, trust);
    let cell = scene.top(inner, Value::Plain);
    let value = [Value::Plain, Value::Code(0), Value::Cell(cell)][usize::from(content)];
    let target = scene.top(target, value);
    let get = [code(1, 0), name(2, cell), read(3, 2)].concat();
    let steps = [get, name(4, target), write(4, register)];
    scene.with_block(15, &steps).book()
}
