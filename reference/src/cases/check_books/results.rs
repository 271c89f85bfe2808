//! What each step leaves in its register, seen by every use of it.

use super::scene::{Scene, Value};
use crate::cases::generate::records::{
    add, code, exec, lower, name, new, put, read, relabel, write, Draft,
};
use crate::cases::generate::Bytes;

/// C, the bound of all blocks, and the trust of the high cells.
const CHOICES: [(u8, u8, u8); 3] = [(3, 15, 9), (0, 1, 1), (14, 15, 15)];

/// Cell shapes: plain content; plain content of low trust; code; a plain cell; the same of low
/// trust. Cells 0 to 4 are of these shapes in turn.
const PLAIN: u8 = 2;
const LOW: u8 = 3;
const CODE: u8 = 4;
const CELL: u8 = 5;
const LOW_CELL: u8 = 6;

pub fn books() -> Vec<Bytes> {
    let mut books = pairs_of_registers();
    for (c, p, trust) in CHOICES {
        let scene = scene(c, p, trust);
        for source in sources(p) {
            for probe in probes(p, trust) {
                let steps = [&source[..], &probe].concat();
                books.push(scene.with_block(p, &steps).with_block(p, &[]).book());
            }
        }
    }
    books
}

fn scene(c: u8, p: u8, trust: u8) -> Scene {
    let mut scene = Scene::new(c);
    let plain = scene.plain();
    let code = scene.code(p);
    let plain_cell = scene.cell_of(plain, trust);
    let low = scene.cell_of(plain, c);
    let code_cell = scene.cell_of(code, trust);
    let cell = scene.cell_of(plain_cell, trust);
    let low_cell = scene.cell_of(plain_cell, c);
    scene.top(plain_cell, Value::Plain);
    scene.top(low, Value::Plain);
    scene.top(code_cell, Value::Code(1));
    scene.top(cell, Value::Cell(0));
    scene.top(low_cell, Value::Cell(0));
    scene
}

/// Ways to fill register 1; register 0 stays plain.
fn sources(p: u8) -> Vec<Draft> {
    let mut sources = vec![
        vec![],
        vec![put(1, 7)],
        vec![code(1, 1)],
        vec![add(1, 0, 0)],
    ];
    for cell in 0..5 {
        sources.push(vec![name(1, cell)]);
        sources.push(vec![name(2, cell), read(1, 2)]);
    }
    for cell in 3..5 {
        sources.push(vec![name(2, cell), read(2, 2), read(1, 2)]);
    }
    sources.push(vec![name(2, 1), read(2, 2), add(1, 2, 0)]);
    sources.push(vec![name(2, 0), read(2, 2), add(1, 0, 2)]);
    sources.push(vec![lower(p), code(2, 1), new(1, CODE, 2)]);
    for (shape, cell) in [(CELL, 0), (LOW_CELL, 0), (LOW_CELL, 1)] {
        sources.push(vec![lower(p), name(2, cell), new(1, shape, 2)]);
    }
    for shape in [PLAIN, LOW] {
        sources.push(vec![lower(p), new(1, shape, 0)]);
    }
    sources
}

/// Uses of register 1.
fn probes(p: u8, trust: u8) -> Vec<Draft> {
    let mut probes = vec![
        vec![exec(1)],
        vec![add(5, 1, 0), name(4, 0), write(4, 5)],
        vec![add(5, 0, 1)],
        vec![add(5, 1, 1)],
        vec![read(5, 1), name(4, 0), write(4, 5)],
        vec![write(1, 0)],
        vec![relabel(1, trust)],
        vec![relabel(1, trust - 1)],
    ];
    for cell in 0..4 {
        probes.push(vec![name(4, cell), write(4, 1)]);
    }
    for shape in [PLAIN, LOW, CODE, CELL] {
        probes.push(vec![lower(p), new(5, shape, 1)]);
    }
    probes
}

/// add and write with every pair of registers of different kinds.
fn pairs_of_registers() -> Vec<Bytes> {
    let (c, p, trust) = CHOICES[0];
    let scene = scene(c, p, trust);
    let names = [name(1, 0), name(2, 1), name(3, 2), name(4, 3), name(6, 4)].concat();
    let head = [names, read(5, 2), read(6, 6), code(7, 1)].concat();
    let mut books = Vec::new();
    for one in 0..8 {
        for two in 0..8 {
            for last in [add(0, one, two), write(one, two)] {
                let steps = [head.clone(), last];
                books.push(scene.with_block(p, &steps).with_block(p, &[]).book());
            }
        }
    }
    books
}
