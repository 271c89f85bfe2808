//! Choosers that a low hand has touched or not, by numbers that one has touched or not: r's history
//! plays no part, and all of the chooser's does.

use super::super::events::{self, plain, steps};
use super::super::Run;
use crate::cases::check_books::scene::{Scene, Value};
use crate::cases::generate::records::{
    add, choose, exec, lower, name, new, put, read, relabel, write, Draft,
};
use crate::cases::generate::Bytes;

/// The touched cell, of low trust and label 0, and another like it that nobody touches. Shape 1 is
/// theirs.
const TOUCHED: u8 = 0;
const CLEAN: u8 = 1;
const SHAPE: u8 = 1;

/// Block 0 of this bound and these steps. Blocks 2 and 3 are there to be chosen: they write into a
/// cell and make one, so that their history stands in the cells too.
fn book(c: u8, bound: u8, block: &[Bytes], second: &[Bytes]) -> Bytes {
    let mut scene = Scene::new(c);
    let shape = scene.plain_cell(0);
    scene.declare(shape, 0, Value::Number(5));
    scene.declare(shape, 0, Value::Number(5));
    let scene = scene.with_block(bound, block).with_block(15, second);
    let chosen = [name(0, CLEAN), write(0, 1), new(2, SHAPE, 3)];
    scene.with_block(15, &chosen).with_block(0, &chosen).book()
}

/// Register 1 has what the touched cell holds, register 2 what the clean one does, 3 the sum of both.
fn head() -> Draft {
    vec![
        name(1, TOUCHED),
        read(1, 1),
        name(2, CLEAN),
        read(2, 2),
        add(3, 1, 2),
    ]
}

/// What the chooser does before it has read and after.
const LOWERS: [(Option<u8>, Option<u8>); 6] = [
    (None, None),
    (Some(9), None),
    (None, Some(9)),
    (None, Some(2)),
    (Some(9), Some(4)),
    (None, Some(0)),
];

fn lowers(label: Option<u8>) -> Draft {
    label.map(lower).into_iter().collect()
}

/// A chooser that reads and lowers itself, by each register. The number is the outsider's at Q, or
/// that of the book.
pub fn histories() -> Vec<Run> {
    let mut runs = Vec::new();
    for (before, after) in LOWERS {
        for r in [1, 2, 3, 4] {
            let parts = [lowers(before), head(), lowers(after), vec![choose(r, 2, 3)]];
            let block = parts.concat();
            for (q, number) in [(0, 0), (0, 9), (1, 0), (1, 9), (3, 65_536), (15, 0)] {
                runs.push(chooser(12, &block, q, number));
                runs.push(touched_chooser(&block, q, number));
            }
        }
    }
    runs
}

/// An outsider at Q writes the number, unless Q is above C. Job 0 has the block.
fn chooser(bound: u8, block: &[Bytes], q: u8, number: u32) -> Run {
    let touch = match q {
        15 => vec![],
        _ => events::write(q, TOUCHED, plain(number)),
    };
    let go = [steps(0, block.len() + 1), steps(1, 4)].concat();
    Run::new(book(3, bound, block, &[]), [touch, go].concat())
}

/// The chooser is code that an outsider at Q brought: job 0 raises the cell's label to 11 and runs
/// it, so that job 1 has this label and Q in its history. The number is the other outsider's.
fn touched_chooser(block: &[Bytes], q: u8, number: u32) -> Run {
    let q = q.min(3);
    let run_it = [name(0, TOUCHED), relabel(0, 11), exec(0), relabel(0, 0)];
    let code = events::write(q, TOUCHED, events::code(1));
    let touch = events::write(2, TOUCHED, plain(number));
    let go = [steps(1, block.len() + 1), steps(2, 4)].concat();
    let list = [code, steps(0, 4), touch, go].concat();
    Run::new(book(3, 12, &run_it, block), list)
}

/// Every label of the chooser with every source of the number; 15 stands for the book's. C is the
/// greatest.
pub fn labels() -> Vec<Run> {
    let block = [name(1, TOUCHED), read(1, 1), choose(1, 2, 3)];
    let mut runs = Vec::new();
    for bound in 0..16 {
        for q in 0..16 {
            let number = u32::from((bound + q) % 2);
            let touch = match q {
                15 => vec![],
                _ => events::write(q, TOUCHED, plain(number)),
            };
            let go = [steps(0, 3), steps(1, 1)].concat();
            let book = book(14, bound, &block, &[]);
            runs.push(Run::new(book, [touch, go].concat()));
        }
    }
    runs
}

/// Choosers launched at every label and without one, and one that an outsider has started.
pub fn launches() -> Vec<Run> {
    let block = [&head()[..], &[choose(1, 2, 3), put(5, 1), choose(5, 3, 2)]].concat();
    let mut runs = Vec::new();
    for number in [0, 9] {
        let run = chooser(12, &block, 1, number);
        let more = steps(2, 4);
        let run = Run::new(run.book, [run.events, more].concat());
        let given = (0..=13).map(Some);
        let launches = std::iter::once(None).chain(given);
        runs.extend(launches.map(|launch| run.with_launch(launch)));
        for q in 0..=3 {
            let go = [events::start(q, 0), steps(1, 8), steps(2, 4), steps(3, 4)].concat();
            let touch = events::write(1, TOUCHED, plain(number));
            runs.push(Run::new(run.book.clone(), [touch, go].concat()));
        }
    }
    runs
}
