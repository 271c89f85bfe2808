//! Jobs and outsiders that are blocked first and succeed later.

use super::events::{self, code, plain, steps};
use super::Run;
use crate::cases::check_books::scene::{Scene, Value};
use crate::cases::generate::records::{
    code as code_step, exec, lower, name, read, relabel, start, write,
};
use crate::cases::generate::Bytes;

pub fn runs() -> Vec<Run> {
    let parts = [labels(), codes(), outsiders()];
    parts.concat()
}

/// A plain cell of this trust and label, and a code cell of trust 3 and label 0 which is plain.
fn scene(trust: u8, label: u8) -> Scene {
    let mut scene = Scene::new(3);
    let shape = scene.plain_cell(trust);
    let code = scene.code(12);
    let of_code = scene.cell_of(code, 3);
    scene.declare(shape, label, Value::Plain);
    scene.declare(of_code, 0, Value::Plain);
    scene
}

/// Job 1, lowered, cannot write or relabel cell 0 until job 0 has relabelled it.
fn labels() -> Vec<Run> {
    let mut runs = Vec::new();
    for (lowered, to) in [(8, 8), (8, 9), (8, 7), (3, 3), (3, 4), (2, 0), (9, 9)] {
        for last in [write(0, 1), relabel(0, 0), relabel(0, lowered)] {
            let first = [start(1), name(0, 0), relabel(0, to)];
            let second = [name(0, 0), lower(lowered), last];
            let scene = scene(9, 10).with_block(12, &first).with_block(12, &second);
            for tries in 0..3 {
                let wait = [steps(0, 1), steps(1, 2 + tries)].concat();
                let events = [wait, steps(0, 2), steps(1, 3), steps(0, 1)].concat();
                runs.push(Run::new(scene.book(), events));
            }
        }
    }
    runs
}

/// Job 0 cannot execute cell 1 until someone has written code into it: an outsider or job 1.
fn codes() -> Vec<Run> {
    let first = [start(1), name(0, 1), exec(0), read(2, 0), exec(0)];
    let second = [name(3, 1), code_step(4, 2), lower(5), write(3, 4)];
    let third = [name(5, 0), write(5, 6), lower(1), write(5, 6)];
    let scene = scene(3, 2).with_block(12, &first).with_block(12, &second);
    let book = scene.with_block(11, &third).book();
    let mut runs = Vec::new();
    for q in 0..=4 {
        for tries in 0..3 {
            let blocked = steps(0, 2 + tries);
            let by_outsider = events::write(q, 1, code(2));
            let by_job = steps(1, 4);
            let overwritten = [by_job.clone(), by_outsider.clone()].concat();
            for written in [by_outsider, by_job, overwritten] {
                runs.push(Run::new(book.clone(), after(&blocked, &written)));
            }
        }
    }
    runs
}

fn after(blocked: &Bytes, written: &Bytes) -> Bytes {
    let rest = [steps(0, 4), steps(2, 5), steps(3, 5)].concat();
    [&blocked[..], written, &rest].concat()
}

/// Outsiders' acts before and after job 0 lets the cell's label fall.
fn outsiders() -> Vec<Run> {
    let mut runs = Vec::new();
    for to in 0..=4 {
        let book = scene(2, 4)
            .with_block(12, &[name(0, 0), relabel(0, to)])
            .book();
        for q in 0..=3 {
            let acts = [
                events::write(q, 0, plain(8)),
                events::relabel(q, 0, q),
                events::relabel(q, 0, 0),
                events::relabel(q, 0, q + 1),
                [events::write(q, 0, code(0)), events::exec(3, 0)].concat(),
            ];
            for act in acts {
                let events = [&act[..], &steps(0, 2), &act, &steps(1, 3)].concat();
                runs.push(Run::new(book.clone(), events));
            }
        }
    }
    runs
}
