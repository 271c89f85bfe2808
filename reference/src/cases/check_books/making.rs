//! "new: low trust passes; otherwise an earlier lower must stand in the block, the content fits,
//! and trust is at most its used effect. Result effect P."

use super::scene::{all_pairs, all_triples, code_scenes, levels, Scene, Value, COMPROMISED};
use crate::cases::generate::records::{code, lower, name, new, put, read, write, Draft};
use crate::cases::generate::Bytes;

pub fn books() -> Vec<Bytes> {
    let parts = [
        effects(),
        with_and_without_lower(),
        code_bounds(),
        kinds(),
        results(),
    ];
    parts.concat()
}

/// The label lowered to, the trust, and the content's effect, read before or after the lower.
fn effects() -> Vec<Bytes> {
    let mut books = Vec::new();
    for (c, [label, trust, effect]) in all_triples() {
        let mut scene = Scene::new(c);
        let made = scene.plain_cell(trust);
        let source = scene.plain_cell(effect);
        let cell = scene.top(source, Value::Plain);
        let (get, make) = ([name(0, cell), read(1, 0)].concat(), new(2, made, 1));
        let after = [get.clone(), lower(label), make.clone()];
        books.push(scene.with_block(15, &after).book());
        if effect > c {
            let before = [lower(label), get, make];
            books.push(scene.with_block(15, &before).book());
        }
    }
    books
}

/// The lower before, behind, between other steps, doubled, or in another block.
fn with_and_without_lower() -> Vec<Bytes> {
    let mut books = Vec::new();
    for (c, [bound, trust]) in all_pairs() {
        books.extend(around_new(c, bound, trust));
    }
    books
}

fn around_new(c: u8, bound: u8, trust: u8) -> Vec<Bytes> {
    let mut scene = Scene::new(c);
    let shape = scene.plain_cell(trust);
    let make = new(2, shape, 0);
    let drafts: [Draft; 6] = [
        vec![make.clone()],
        vec![make.clone(), lower(bound)],
        vec![lower(bound), make.clone()],
        vec![lower(bound), put(0, 1), lower(bound), make.clone()],
        vec![put(0, 9), make.clone(), lower(c), make.clone()],
        vec![lower(bound), make.clone(), make.clone()],
    ];
    let alone = |steps: &Draft| scene.with_block(bound, steps).book();
    let mut books: Vec<Bytes> = drafts.iter().map(alone).collect();
    let lowered = scene.with_block(bound, &[lower(bound)]);
    books.push(lowered.with_block(bound, &[make]).book());
    books
}

/// "A code register of bound B fits a code content of bound at most B."
fn code_bounds() -> Vec<Bytes> {
    let made = |(scene, shape, bound): (Scene, u8, u8)| {
        let steps = [lower(15), code(0, 1), new(1, shape, 0)];
        scene.with_block(15, &steps).with_block(bound, &[]).book()
    };
    code_scenes().into_iter().map(made).collect()
}

/// Every kind of content for every kind of content shape, with and without a lower.
fn kinds() -> Vec<Bytes> {
    let mut books = Vec::new();
    for c in COMPROMISED {
        for trust in levels(c) {
            for content in 0..3 {
                for register in 0..4 {
                    books.push(of_kinds(c, trust, content, register, true));
                    if register == content {
                        books.push(of_kinds(c, trust, content, register, false));
                    }
                }
            }
        }
    }
    books
}

/// Shapes 0 to 2 and registers 0 to 2 are plain, code and a cell; register 3 is unknown.
fn of_kinds(c: u8, trust: u8, content: u8, register: u8, lowered: bool) -> Bytes {
    let mut scene = Scene::new(c);
    let plain = scene.plain();
    scene.code(9);
    let inner = scene.cell_of(plain, c);
    let made = scene.cell_of(content, trust);
    let cell = scene.top(inner, Value::Plain);
    let mut steps = vec![code(1, 0), name(2, cell), read(3, 2)];
    if lowered {
        steps.push(lower(15));
    }
    steps.push(new(4, made, register));
    scene.with_block(15, &steps).book()
}

/// A made cell stored in a cell of cells: its effect is P, whatever its trust.
fn results() -> Vec<Bytes> {
    let mut books = Vec::new();
    for (c, [label, trust, outer]) in all_triples() {
        let mut scene = Scene::new(c);
        let shape = scene.plain_cell(trust);
        let outer = scene.cell_of(shape, outer);
        let inside = scene.top(shape, Value::Plain);
        let target = scene.top(outer, Value::Cell(inside));
        let make = [lower(label), new(2, shape, 0)].concat();
        let steps = [make, name(3, target), write(3, 2)];
        books.push(scene.with_block(15, &steps).book());
    }
    books
}
