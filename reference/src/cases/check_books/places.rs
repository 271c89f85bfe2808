//! Where the first fault lies, what a block begins with, and the order of the stages.

use super::scene::{breaker, misfit, Scene, Value, BREAKERS};
use crate::cases::generate::records::{
    add, c, cell_shape, code, exec, lower, name, new, plain_shape, put, read, relabel, start,
    write, Draft,
};
use crate::cases::generate::Bytes;
use std::slice::from_ref;

/// Blocks 0, 2 and 3 have so many steps; block 1 is for the breakers.
const STEPS: usize = 5;

pub fn books() -> Vec<Bytes> {
    let parts = [
        single_faults(),
        pairs_of_faults(),
        fresh_blocks(),
        cells_before_steps(),
        stages(),
        full_blocks(),
    ];
    parts.concat()
}

/// A plain cell of trust 9 as shape 1, the misfit shape, and a cell.
fn one_cell(label: u8) -> (Scene, u8, u8) {
    let mut scene = Scene::new(3);
    let shape = scene.plain_cell(9);
    let misfit = misfit(&mut scene);
    scene.declare(shape, label, Value::Plain);
    (scene, shape, misfit)
}

/// Sound steps of every length, and breakers at the given places.
fn with_faults(faults: &[usize], which: usize) -> Bytes {
    let (mut scene, _, misfit) = one_cell(9);
    let sound = [put(0, 1), add(1, 0, 0), name(2, 0), start(0), read(3, 2)];
    for number in 0..3 {
        let mut steps = sound.to_vec();
        for fault in faults.iter().filter(|&&fault| fault / STEPS == number) {
            steps[fault % STEPS] = breaker(which + fault, misfit);
        }
        scene.block(15, &steps);
        if number == 0 {
            scene.block(0, &[]);
        }
    }
    scene.book()
}

/// A fault in every step, of every kind.
fn single_faults() -> Vec<Bytes> {
    let mut books = vec![with_faults(&[], 0)];
    for fault in 0..3 * STEPS {
        books.extend((0..BREAKERS).map(|which| with_faults(&[fault], which)));
    }
    books
}

/// Two faults: the first counts.
fn pairs_of_faults() -> Vec<Bytes> {
    let mut books = Vec::new();
    for second in 0..3 * STEPS {
        books.extend((0..second).map(|first| with_faults(&[first, second], second)));
    }
    books
}

/// What one block leaves behind does not count in the next: P, the registers, a lower, being
/// stuck.
fn fresh_blocks() -> Vec<Bytes> {
    let (scene, shape, misfit) = one_cell(15);
    let before: [Draft; 7] = [
        vec![],
        vec![lower(15)],
        vec![lower(3)],
        vec![name(0, 0), code(1, 0)],
        vec![name(0, 0), read(1, 0), lower(4)],
        vec![lower(8), name(0, 0), relabel(0, 9)],
        vec![lower(8), lower(9)],
    ];
    let mut last: Draft = (0..BREAKERS).map(|which| breaker(which, misfit)).collect();
    last.extend([new(2, shape, 5), write(0, 1), add(2, 0, 1), exec(0)]);
    last.extend([relabel(0, 9), [name(3, 0), write(3, 1)].concat(), start(0)]);
    let mut books = Vec::new();
    for steps in &before {
        for step in &last {
            let scene = scene.with_block(15, steps).with_block(0, &[]);
            books.push(scene.with_block(14, from_ref(step)).book());
        }
    }
    books
}

/// Faults of refusals 7 and 8 in one book.
fn cells_before_steps() -> Vec<Bytes> {
    let mut books = Vec::new();
    for labels in 0..8 {
        for faults in 0..4 {
            let mut scene = Scene::new(3);
            let shape = scene.plain_cell(9);
            for number in 0..3 {
                scene.declare(shape, 9 - (labels >> number & 1), Value::Plain);
            }
            for number in 0..2 {
                let step = if faults >> number & 1 == 1 {
                    exec(7)
                } else {
                    put(7, 7)
                };
                scene.block(12, &[step]);
            }
            books.push(scene.book());
        }
    }
    books
}

/// "a stage covers the whole book before the next begins": faults of refusals 2 to 6 in front of
/// and behind those of 7 and 8.
fn stages() -> Vec<Bytes> {
    let mut books = Vec::new();
    for (label, step) in [(8, put(7, 7)), (9, exec(7)), (8, exec(7))] {
        let (scene, ..) = one_cell(label);
        let draft = scene.with_block(12, &[step]).draft();
        for stage in 2..=6 {
            books.push(with_late_fault(&draft, stage));
            books.push(with_early_fault(&draft, stage));
        }
    }
    books
}

fn with_late_fault(draft: &Draft, stage: u8) -> Bytes {
    let fault = match stage {
        2 => vec![76],
        3 => plain_shape(),
        4 => lower(3).repeat(64),
        5 => lower(16),
        _ => start(1),
    };
    [draft.concat(), fault].concat()
}

fn with_early_fault(draft: &Draft, stage: u8) -> Bytes {
    let mut draft = draft.clone();
    match stage {
        2 => draft.insert(1, vec![2]),
        3 => draft.insert(1, c(3)),
        4 => draft.splice(1..1, vec![plain_shape(); 33]).for_each(drop),
        5 => draft[0] = c(15),
        _ => draft.insert(1, cell_shape(0, 9)),
    }
    draft.concat()
}

/// The 64th step of a block, and a step in the 64th block.
fn full_blocks() -> Vec<Bytes> {
    let (scene, ..) = one_cell(9);
    let mut books = Vec::new();
    for last in [exec(7), put(7, 7), relabel(0, 8), relabel(0, 9)] {
        let mut steps = vec![name(0, 0); 63];
        steps.push(last.clone());
        books.push(scene.with_block(12, &steps).book());
        let mut many = scene.clone();
        for _ in 0..63 {
            many.block(12, &[]);
        }
        books.push(many.with_block(12, &[name(0, 0), last]).book());
    }
    books
}
