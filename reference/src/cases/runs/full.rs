//! Tables filled to 64, and what is still answered then.

use super::events::{self, cell, code, plain, step, steps};
use super::Run;
use crate::cases::check_books::scene::{Scene, Value};
use crate::cases::generate::records::{exec, name, new, put, read, start, write, Draft};
use crate::cases::generate::Bytes;

const C: u8 = 5;
const DECLARED: usize = 2;

/// Shapes 2 and 3 are low cells of plain and of code. Cell 0 is of the first; cell 1, of label 4,
/// is of the second and holds block 1.
fn scene() -> Scene {
    let mut scene = Scene::new(C);
    let plain = scene.plain();
    let code = scene.code(15);
    let of_plain = scene.cell_of(plain, C);
    let of_code = scene.cell_of(code, 1);
    scene.declare(of_plain, 0, Value::Plain);
    scene.declare(of_code, 4, Value::Code(1));
    scene
}

pub fn runs() -> Vec<Run> {
    let parts = [cells(), jobs(), by_steps(), both()];
    parts.concat()
}

/// Block 0 makes a cell and uses it, makes another, and goes on making.
fn making() -> Draft {
    let first = vec![put(0, 7), new(1, 2, 0), write(1, 1), new(2, 2, 1)];
    [first, vec![new(3, 2, 2); 5], vec![read(4, 1)]].concat()
}

/// Outsiders fill the cells but for some; then block 0 goes its steps, and outsiders try.
fn cells() -> Vec<Run> {
    let book = scene().with_block(9, &making()).with_block(15, &[]).book();
    let mut runs = Vec::new();
    for free in 0..8 {
        let fill = many(64 - DECLARED - free, |number| {
            events::new((number % 6) as u8, 2, plain(number))
        });
        for tail in tries() {
            let events = [fill.clone(), steps(0, 9), tail].concat();
            runs.push(Run::new(book.clone(), events));
        }
    }
    runs
}

/// Bytes for each number up to a count.
fn many(count: usize, each: impl Fn(u32) -> Bytes) -> Bytes {
    (0..count as u32).flat_map(each).collect()
}

/// Answers 1 and 3 with a full table.
fn tries() -> [Bytes; 6] {
    let last = [events::relabel(5, 63, 0), events::write(3, 63, cell(63))];
    [
        vec![],
        [events::new(C, 2, plain(1)), events::new(C, 3, code(1))].concat(),
        [events::new(C + 1, 2, plain(1)), events::new(C, 1, plain(1))].concat(),
        [events::new(C, 2, cell(63)), events::new(C, 2, cell(64))].concat(),
        [events::write(C, 64, plain(1)), events::exec(C, 64)].concat(),
        last.concat(),
    ]
}

/// Block 0 starts and executes; block 1 is one step.
fn starting() -> Draft {
    vec![name(0, 1), start(1), exec(0), start(0), exec(0), start(1)]
}

fn jobs() -> Vec<Run> {
    let last = [put(7, 9)];
    let book = scene().with_block(9, &starting()).with_block(15, &last);
    let book = book.book();
    let tails = [
        vec![],
        [events::start(0, 1), events::exec(C, 1)].concat(),
        [events::exec(0, 1), events::start(C, 0)].concat(),
        [events::start(C + 1, 1), events::start(0, 2)].concat(),
        [events::exec(C, 2), events::exec(C, 0)].concat(),
        [step(63), step(64), step(63), step(62)].concat(),
    ];
    let mut runs = Vec::new();
    for free in 0..7 {
        for (number, tail) in tails.iter().enumerate() {
            let fill = many(63 - free, |job| outsiders_job(job as u8, number));
            let events = [fill, steps(0, 6), tail.clone()].concat();
            runs.push(Run::new(book.clone(), events));
        }
    }
    runs
}

fn outsiders_job(number: u8, which: usize) -> Bytes {
    match which % 2 {
        0 => events::start(number % 6, number % 2),
        _ => events::exec(number % 6, 1),
    }
}

/// Jobs alone fill the tables.
fn by_steps() -> Vec<Run> {
    let news = scene()
        .with_block(9, &vec![new(1, 2, 0); 64])
        .with_block(15, &[]);
    let chain = [new(1, 2, 1), new(2, 2, 1), start(0), start(0)];
    let grow = scene().with_block(9, &chain).with_block(15, &[]);
    let again = [name(0, 1), exec(0), exec(0)];
    let code = scene().with_block(9, &[start(1)]).with_block(15, &again);
    let mut runs = vec![
        Run::new(news.book(), steps(0, 66)),
        Run::new(
            news.book(),
            [steps(0, 61), steps(0, 1), steps(0, 1)].concat(),
        ),
    ];
    for count in 1..6 {
        let events = many(64, |job| steps(job as u8, count));
        runs.push(Run::new(grow.book(), events.clone()));
        runs.push(Run::new(code.book(), events));
    }
    runs
}

/// Both tables filled, then a step of every job.
fn both() -> Vec<Run> {
    let book = scene().with_block(9, &making()).with_block(15, &starting());
    let fill = many(63, |number| {
        let q = (number % 6) as u8;
        [
            events::new(q, 3, code(number % 2)),
            events::start(q, (number % 2) as u8),
        ]
        .concat()
    });
    let mut runs = Vec::new();
    for count in 1..10 {
        let go = many(64, |job| steps(job as u8, count));
        runs.push(Run::new(book.book(), [&fill[..], &go].concat()).with_spare(count));
    }
    runs
}
