//! "read: w of low effect gives low; else w is a cell, and the result has its content shape and
//! the smaller of S and P." "add: operands of effect above C must be plain; least effect."

use super::scene::{all_pairs, all_triples, Scene, Value};
use crate::cases::generate::records::{
    add, exec, lower, name, new, put, read, relabel, write, Draft,
};
use crate::cases::generate::Bytes;

pub fn books() -> Vec<Bytes> {
    let parts = [
        nested(),
        through(),
        code_through(),
        codes_read(),
        sums(),
        lowered_sums(),
    ];
    parts.concat()
}

/// A plain cell within a cell: both read, the result stored. The register read through may have
/// another effect than the trust.
fn nested() -> Vec<Bytes> {
    let mut books = Vec::new();
    for (c, [outer, inner, target]) in all_triples() {
        let (mut scene, holder) = cell_in_cell(c, inner, outer);
        let target = scene.plain_cell(target);
        let inside = scene.top(holder - 1, Value::Plain);
        let holder = scene.top(holder, Value::Cell(inside));
        let target = scene.top(target, Value::Plain);
        let get = [name(0, holder), read(1, 0), read(2, 1)].concat();
        let steps = [get, name(3, target), write(3, 2)];
        books.push(scene.with_block(15, &steps).book());
    }
    books
}

/// The scene and the outer shape; the inner one has the number before.
fn cell_in_cell(c: u8, inner: u8, outer: u8) -> (Scene, u8) {
    let mut scene = Scene::new(c);
    let inner = scene.plain_cell(inner);
    let outer = scene.cell_of(inner, outer);
    (scene, outer)
}

/// Uses of a cell that was read out of a cell.
fn through() -> Vec<Bytes> {
    let mut books = Vec::new();
    for (c, [outer, inner]) in all_pairs() {
        let (mut scene, shape) = cell_in_cell(c, inner, outer);
        let inside = scene.top(shape - 1, Value::Plain);
        let holder = scene.top(shape, Value::Cell(inside));
        let get = [name(0, holder), read(1, 0)];
        let with_use = |used: &Draft| {
            let steps = [&get[..], used].concat();
            scene.with_block(15, &steps).book()
        };
        books.extend(uses(inner, shape).iter().map(with_use));
    }
    books
}

/// Register 1 is the cell, register 7 plain.
fn uses(trust: u8, shape: u8) -> [Draft; 8] {
    [
        vec![write(1, 7)],
        vec![relabel(1, trust)],
        vec![relabel(1, 15)],
        vec![write(0, 1)],
        vec![add(2, 1, 7)],
        vec![exec(1)],
        vec![lower(15), new(2, shape, 1)],
        vec![lower(15), put(1, 3), new(2, shape, 1)],
    ]
}

/// exec and read of a code cell that was read out of a cell.
fn code_through() -> Vec<Bytes> {
    let mut books = Vec::new();
    for (c, [outer, bound]) in all_pairs() {
        let mut scene = Scene::new(c);
        let code = scene.code(bound);
        let inner = scene.cell_of(code, 15);
        let outer = scene.cell_of(inner, outer);
        let inside = scene.top(inner, Value::Code(1));
        let holder = scene.top(outer, Value::Cell(inside));
        let get = [name(0, holder), read(1, 0)].concat();
        for last in [exec(1), [read(2, 1), write(1, 2)].concat(), write(1, 7)] {
            let scene = scene.with_block(bound, &[get.clone(), last]);
            books.push(scene.with_block(15, &[]).book());
        }
    }
    books
}

/// Code read from a cell is known by the content's bound: stored in another cell, or a new one.
fn codes_read() -> Vec<Bytes> {
    let mut books = Vec::new();
    for (c, [bound, target]) in all_pairs() {
        let mut scene = Scene::new(c);
        let shapes = [bound, target].map(|bound| {
            let content = scene.code(bound);
            scene.cell_of(content, 15)
        });
        let cells = shapes.map(|shape| scene.top(shape, Value::Code(1)));
        let get = [name(0, cells[0]), read(1, 0)].concat();
        let stored = [name(2, cells[1]), write(2, 1)].concat();
        let made = [lower(15), new(2, shapes[1], 1)].concat();
        for last in [stored, made] {
            let scene = scene.with_block(15, &[get.clone(), last]);
            books.push(scene.with_block(15, &[]).book());
        }
    }
    books
}

/// Operands read from cells of two trusts, the sum stored in a third.
fn sums() -> Vec<Bytes> {
    let mut books = Vec::new();
    for (c, [one, two, target]) in all_triples() {
        let mut scene = Scene::new(c);
        let plain = scene.plain();
        let shapes = [one, two, target].map(|trust| scene.cell_of(plain, trust));
        let cells = shapes.map(|shape| scene.top(shape, Value::Plain));
        let get = cells.map(|cell| name(cell, cell)).concat();
        let add = [read(3, 0), read(4, 1), add(5, 3, 4)].concat();
        let steps = [get, add, write(2, 5)];
        books.push(scene.with_block(15, &steps).book());
    }
    books
}

/// A sum made before or after a lower, used in a new.
fn lowered_sums() -> Vec<Bytes> {
    let mut books = Vec::new();
    for (c, [label, trust]) in all_pairs() {
        let mut scene = Scene::new(c);
        let shape = scene.plain_cell(trust);
        let (sum, make) = (add(1, 2, 3), new(4, shape, 1));
        let before = [sum.clone(), lower(label), make.clone()];
        let after = [lower(label), sum, make];
        books.push(scene.with_block(15, &before).book());
        books.push(scene.with_block(15, &after).book());
    }
    books
}
