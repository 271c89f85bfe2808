//! "After a stuck step the rest of the block passes." Blocks at or below C, where nothing but
//! lower is stuck.

use super::scene::{breaker, misfit, Scene, Value, BREAKERS, COMPROMISED};
use crate::cases::generate::records::{
    add, code, exec, lower, name, new, put, read, relabel, start, write, Draft,
};
use crate::cases::generate::Bytes;
use std::slice::from_ref;

pub fn books() -> Vec<Bytes> {
    let parts = [stuck_and_more(), low_blocks(), lowered_blocks()];
    parts.concat()
}

/// Registers 0 and 1 name cells of trust 15 and C + 1. At P = C + 1, all but the last two are
/// stuck.
fn causes(c: u8) -> [Bytes; 9] {
    [
        lower(c + 2),
        lower(15),
        write(0, 2),
        relabel(0, 15),
        relabel(0, c + 1),
        relabel(0, 0),
        relabel(1, c + 2),
        write(1, 2),
        relabel(1, c + 1),
    ]
}

/// A cause, then a breaker; the other way round; the breaker in the next block.
fn stuck_and_more() -> Vec<Bytes> {
    let mut books = Vec::new();
    for c in [0, 3, 13] {
        let (scene, misfit) = two_cells(c);
        let head = [name(0, 0), name(1, 1)].concat();
        for cause in causes(c) {
            for which in 0..BREAKERS {
                let breaker = breaker(which, misfit);
                let behind = [head.clone(), cause.clone(), breaker.clone()];
                let before = [head.clone(), breaker.clone(), cause.clone()];
                let behind = scene.with_block(c + 1, &behind).with_block(0, &[]);
                books.push(behind.book());
                books.push(behind.with_block(c + 1, &[breaker]).book());
                let before = scene.with_block(c + 1, &before);
                books.push(before.with_block(0, &[]).book());
            }
        }
    }
    books
}

/// Cells of trust 15 and C + 1, and the misfit shape.
fn two_cells(c: u8) -> (Scene, u8) {
    let mut scene = Scene::new(c);
    let top = scene.plain_cell(15);
    let just_high = scene.plain_cell(c + 1);
    let misfit = misfit(&mut scene);
    scene.top(top, Value::Plain);
    scene.top(just_high, Value::Plain);
    (scene, misfit)
}

/// Steps of every kind, most of which would be stuck or break above C.
fn any_steps() -> Draft {
    vec![
        put(0, 1),
        name(0, 0),
        code(0, 0),
        [code(3, 0), add(4, 3, 0)].concat(),
        add(4, 0, 1),
        read(4, 5),
        [name(0, 0), read(4, 0)].concat(),
        [name(0, 0), write(0, 1)].concat(),
        write(5, 5),
        [name(0, 0), relabel(0, 15)].concat(),
        [name(0, 0), relabel(0, 0)].concat(),
        relabel(5, 15),
        start(1),
        [name(0, 0), exec(0)].concat(),
        exec(5),
    ]
}

/// The step alone, with a new of trust above C behind it, one of low trust, and one after a
/// lower that is stuck.
fn low_step(scene: &Scene, bound: u8, head: &[Bytes], step: &Bytes, high: u8) -> Vec<Bytes> {
    let low = high + 1;
    let tails: [Draft; 4] = [
        vec![],
        vec![new(6, high, 7)],
        vec![new(6, low, 5), read(6, 6), exec(6)],
        vec![lower(15), new(6, high, 7)],
    ];
    let with_tail = |tail: Draft| {
        let steps = [head, from_ref(step), &tail].concat();
        scene.with_block(bound, &steps).with_block(0, &[]).book()
    };
    tails.map(with_tail).to_vec()
}

/// A plain cell of trust above C; shapes of just above C and of C.
fn for_low_blocks(c: u8) -> (Scene, u8) {
    let mut scene = Scene::new(c);
    let top = scene.plain_cell(15);
    let high = scene.cell_of(0, c + 1);
    scene.cell_of(0, c);
    scene.top(top, Value::Plain);
    (scene, high)
}

/// "With P at or below C every step passes, except new with trust above C."
fn low_blocks() -> Vec<Bytes> {
    let mut books = Vec::new();
    for c in COMPROMISED {
        let (scene, high) = for_low_blocks(c);
        let mut bounds = vec![c.saturating_sub(1), c];
        bounds.dedup();
        for bound in bounds {
            for step in any_steps() {
                books.extend(low_step(&scene, bound, &[], &step, high));
            }
        }
    }
    books
}

/// The same in a block that was lowered to C, and just above, where the steps may break.
fn lowered_blocks() -> Vec<Bytes> {
    let mut books = Vec::new();
    for c in COMPROMISED {
        let (scene, high) = for_low_blocks(c);
        for label in [c, c + 1] {
            for step in any_steps() {
                let head = [lower(label)];
                books.extend(low_step(&scene, 15, &head, &step, high));
            }
        }
    }
    books
}
