//! Every field of an outsider's event at its boundaries, one event in a run.

use super::events::{cell, code, exec, new, plain, relabel, start, step, write, Brought};
use super::Run;
use crate::cases::check_books::scene::{Scene, Value};
use crate::cases::generate::records;
use crate::cases::generate::Bytes;

const C: u8 = 3;
const CELLS: u32 = 4;
const BLOCKS: u32 = 3;

/// Shapes: 0 plain, 1 code, 2 to 4 plain cells of trust 2, 3 and 4, 5 a code cell of trust 0. The
/// cells' labels are 0, 3, 4 and 2, and the last holds block 1.
fn book() -> Bytes {
    let mut scene = Scene::new(C);
    let content = scene.plain();
    let code = scene.code(9);
    let shapes = [2, 3, 4].map(|trust| scene.cell_of(content, trust));
    let of_code = scene.cell_of(code, 0);
    for (shape, label) in shapes.into_iter().zip([0, 3, 4]) {
        scene.declare(shape, label, Value::Plain);
    }
    scene.declare(of_code, 2, Value::Code(1));
    for bound in [12, 3, 0] {
        scene.block(bound, &[records::put(0, 7)]);
    }
    scene.book()
}

const LABELS: [u8; 7] = [0, 2, C, C + 1, 15, 16, 255];
const NUMBERS: [u8; 8] = [0, 1, 2, 3, 4, 63, 64, 255];
const SHAPES: [u8; 9] = [0, 1, 2, 3, 4, 5, 6, 32, 255];

fn values() -> Vec<Brought> {
    let mut values = vec![plain(0), plain(u32::MAX), (3, 0), (255, 1)];
    for number in [0, 1 << 8, 1 << 16, 1 << 24, 1 << 31] {
        values.extend([cell(number), code(number)]);
    }
    values.extend([cell(CELLS - 1), cell(CELLS), cell(63), cell(64)]);
    values.extend([code(BLOCKS - 1), code(BLOCKS), code(63), code(64)]);
    values
}

pub fn runs() -> Vec<Run> {
    let parts = [
        steps(),
        writes(),
        relabels(),
        news(),
        execs_and_starts(),
        made(),
    ];
    let lists = parts.concat().into_iter();
    lists.map(|events| Run::new(book(), events)).collect()
}

fn steps() -> Vec<Bytes> {
    NUMBERS.map(step).to_vec()
}

fn writes() -> Vec<Bytes> {
    let mut lists = Vec::new();
    for q in LABELS {
        for at in NUMBERS {
            lists.push(write(q, at, plain(8)));
        }
        lists.extend(values().into_iter().map(|value| write(q, 0, value)));
    }
    lists.extend(values().into_iter().map(|value| write(C, 2, value)));
    lists.extend(values().into_iter().map(|value| write(C, 4, value)));
    lists
}

fn relabels() -> Vec<Bytes> {
    let mut lists = Vec::new();
    for q in LABELS {
        for at in NUMBERS {
            lists.extend(LABELS.map(|label| relabel(q, at, label)));
        }
    }
    lists
}

fn news() -> Vec<Bytes> {
    let mut lists = Vec::new();
    for shape in SHAPES {
        lists.extend(LABELS.map(|q| new(q, shape, plain(8))));
        lists.extend(values().into_iter().map(|value| new(C, shape, value)));
    }
    lists
}

fn execs_and_starts() -> Vec<Bytes> {
    let mut lists = Vec::new();
    for q in LABELS {
        lists.extend(NUMBERS.map(|at| exec(q, at)));
        lists.extend(NUMBERS.map(|block| start(q, block)));
    }
    lists
}

/// What an event has made is there for the next one, not for itself.
fn made() -> Vec<Bytes> {
    let next = CELLS as u8;
    let with_cell = [
        write(C, next, plain(8)),
        write(C, 0, cell(CELLS)),
        relabel(C, next, 0),
        new(C, 2, cell(CELLS)),
        new(C, 2, cell(CELLS + 1)),
        exec(C, next),
    ];
    let with_job = [step(1), step(2), start(C, 1)];
    let mut lists = Vec::new();
    for q in [0, C] {
        let make = [new(q, 5, code(2)), start(q, 1), exec(q, 3)];
        for (number, first) in make.iter().enumerate() {
            let second = if number == 0 {
                &with_cell[..]
            } else {
                &with_job[..]
            };
            lists.extend(second.iter().map(|event| [&first[..], event].concat()));
            lists.extend(second.iter().map(|event| [&event[..], first].concat()));
        }
    }
    lists
}
