//! Every pair of labels wherever two of them are compared, or the lower one is taken.

use super::events::{self, code, plain, step, steps, write};
use super::Run;
use crate::cases::check_books::scene::{Scene, Value};
use crate::cases::generate::records::{
    add, exec, lower, name, new, put, read, relabel, start, write as store,
};
use crate::cases::generate::Bytes;

/// The greatest C: outsiders have every label but 15.
const C: u8 = 14;

pub fn runs() -> Vec<Run> {
    let parts = [jobs(), outsiders(), sources(), sums(), compromised()];
    parts.concat()
}

/// Shape 1 is a plain cell of trust 3.
fn scene(c: u8) -> Scene {
    let mut scene = Scene::new(c);
    scene.plain_cell(3);
    scene
}

/// A cell for each label; all hold block 1.
fn sixteen_cells() -> Scene {
    let mut scene = scene(C);
    for label in 0..16 {
        scene.declare(1, label, Value::Code(1));
    }
    scene
}

/// A job at each label starts sixteen others: one for each cell, or for each label asked for.
fn jobs() -> Vec<Run> {
    (0..16).flat_map(sixteen_jobs_each).collect()
}

/// A run for each kind of step that compares labels.
pub fn sixteen_jobs_each(bound: u8) -> Vec<Run> {
    let lasts: [fn(u8) -> Bytes; 5] = [
        |_| store(0, 1),
        |_| relabel(0, 0),
        |_| exec(0),
        lower,
        |label| [name(0, 0), relabel(0, label)].concat(),
    ];
    lasts.map(|last| sixteen_jobs(bound, last)).to_vec()
}

fn sixteen_jobs(bound: u8, last: fn(u8) -> Bytes) -> Run {
    let all: Vec<Bytes> = (1..=16).map(start).collect();
    let mut scene = sixteen_cells().with_block(bound, &all);
    for label in 0..16 {
        scene.block(15, &[name(0, label), last(label)]);
    }
    let go = (1..=16).flat_map(|job| steps(job, 3));
    Run::new(scene.book(), [steps(0, 16), go.collect()].concat())
}

/// The same for outsiders.
fn outsiders() -> Vec<Run> {
    let acts: [fn(u8, u8) -> Bytes; 4] = [
        |q, label| write(q, label, plain(8)),
        |q, label| events::relabel(q, label, 0),
        |q, label| events::relabel(q, 0, label),
        |q, label| events::exec(q, label),
    ];
    let book = sixteen_cells()
        .with_block(15, &[])
        .with_block(9, &[])
        .book();
    let mut runs = Vec::new();
    for q in 0..=C + 1 {
        for act in acts {
            let events = (0..16).rev().flat_map(|label| act(q, label)).collect();
            runs.push(Run::new(book.clone(), events));
        }
    }
    runs
}

/// A cell written by an outsider at Q; 15 stands for none.
fn touch(q: u8, cell: u8, value: events::Brought) -> Bytes {
    match q {
        15 => vec![],
        _ => write(q, cell, value),
    }
}

/// Jobs at each label with values of each source.
fn sources() -> Vec<Run> {
    let body = [
        name(0, 0),
        read(2, 0),
        new(3, 1, 2),
        name(1, 1),
        store(1, 2),
    ];
    let tail = [exec(0), lower(0), add(4, 2, 2), put(5, 1)];
    let mut scene = scene(C);
    scene.declare(1, 0, Value::Code(1));
    scene.declare(1, 0, Value::Plain);
    let mut runs = Vec::new();
    for bound in 0..16 {
        let book = scene.with_block(bound, &[&body[..], &tail].concat());
        let book = book.with_block(15, &[put(0, 1)]).book();
        for q in 0..16 {
            for value in [code(1), plain(9)] {
                let events = [touch(q, 0, value), steps(0, 9), steps(1, 2)].concat();
                runs.push(Run::new(book.clone(), events));
            }
        }
    }
    runs
}

/// Operands of each pair of sources. The second, where an outsider brings it, is too large for the
/// sum, or just not.
fn sums() -> Vec<Run> {
    let get = [name(0, 0), name(1, 1), read(2, 0), read(3, 1)];
    let sum = [add(4, 2, 3), new(5, 1, 4)];
    let mut scene = scene(C);
    scene.declare(1, 0, Value::Plain);
    scene.declare(1, 0, Value::Plain);
    let book = scene.with_block(15, &[&get[..], &sum].concat()).book();
    let mut runs = Vec::new();
    for two in [u32::MAX - 3, u32::MAX - 7] {
        for q in 0..=255 {
            let touched = [touch(q / 16, 0, plain(7)), touch(q % 16, 1, plain(two))];
            let events = [touched.concat(), steps(0, 6)].concat();
            runs.push(Run::new(book.clone(), events));
        }
    }
    runs
}

/// Each C with each Q and each trust.
fn compromised() -> Vec<Run> {
    let mut runs = Vec::new();
    for c in 0..=C {
        let mut scene = Scene::new(c);
        let content = scene.plain();
        for trust in 0..16 {
            scene.cell_of(content, trust);
        }
        let book = scene.with_block(15, &[]).book();
        let news = (1..=16).flat_map(|shape| events::new(c, shape, plain(1)));
        let starts = (0..=16).flat_map(|q| events::start(q, 0));
        let all: Bytes = news.chain(starts).chain(step(1)).collect();
        runs.push(Run::new(book, all));
    }
    runs
}
