//! Jobs that are blocked: "A blocked step uses a turn", and a round goes on though all are.

use super::Round;
use crate::cases::check_books::scene::{Scene, Value};
use crate::cases::generate::records::{
    add, choose, code, exec, lower, name, new, put, read, relabel, start, write, Draft,
};
use crate::cases::generate::Bytes;

pub fn rounds() -> Vec<Round> {
    let parts = [for_ever(), at_once(), patterns(), released(), code_later()];
    parts.concat()
}

const SHAPE: u8 = 1;

/// Cells of trust 2: one of label 15, one of label 0 that is the greatest number, and one of label 9
/// that is plain.
const HIGH: u8 = 0;
const GREATEST: u8 = 1;
const PLAIN: u8 = 2;

/// C is 3 and all bounds are 12.
fn book(blocks: &[Draft]) -> Bytes {
    let mut scene = Scene::new(3);
    scene.plain_cell(2);
    scene.declare(SHAPE, 15, Value::Plain);
    scene.declare(SHAPE, 0, Value::Number(u32::MAX));
    scene.declare(SHAPE, 9, Value::Plain);
    for block in blocks {
        scene.block(12, block);
    }
    scene.book()
}

/// Steps of which the last is blocked for ever, one for each reason that does not ask for a full
/// table. Registers 6 and 7 are plain 0.
fn stuck() -> Vec<Draft> {
    vec![
        vec![exec(7)],
        vec![name(0, PLAIN), exec(0)],
        vec![read(1, 7)],
        vec![write(7, 6)],
        vec![relabel(7, 0)],
        vec![lower(13)],
        vec![name(0, HIGH), write(0, 7)],
        vec![name(0, HIGH), relabel(0, 0)],
        vec![name(0, PLAIN), relabel(0, 13)],
        vec![name(0, PLAIN), add(1, 0, 7)],
        vec![code(0, 0), add(1, 7, 0)],
        vec![name(0, GREATEST), read(0, 0), put(1, 1), add(2, 0, 1)],
        vec![name(0, PLAIN), choose(0, 0, 0)],
    ]
}

/// Turns that are few, about the jobs there may be, and the most.
const TURNS: [u32; 6] = [1, 2, 5, 64, 65, 4_096];

/// One job, and what stands behind its last step plays no part.
fn for_ever() -> Vec<Round> {
    let mut rounds = Vec::new();
    for steps in stuck() {
        let block = [&steps[..], &[put(3, 1), start(0)]].concat();
        let book = book(&[block]);
        rounds.extend(TURNS.map(|turns| Round::new(book.clone(), turns)));
    }
    // Both tables are filled by job 0 itself.
    let cells = vec![new(1, SHAPE, 0); 64];
    let jobs = vec![start(1); 64];
    for (steps, other) in [(cells, vec![]), (jobs, vec![exec(7)])] {
        let book = book(&[steps, other]);
        let turns = [60, 61, 62, 63, 64, 65, 130, 4_096];
        rounds.extend(turns.map(|turns| Round::new(book.clone(), turns)));
    }
    rounds
}

/// So many jobs, all of them blocked: each by the same, or job 0 by another.
fn at_once() -> Vec<Round> {
    let pairs = [
        (exec(7), exec(7)),
        (read(1, 7), read(1, 6)),
        (relabel(7, 0), lower(15)),
    ];
    let mut rounds = Vec::new();
    for count in [1, 2, 3, 20, 61, 63] {
        for (own, other) in &pairs {
            let first = [vec![start(1); count], vec![own.clone()]].concat();
            let book = book(&[first, vec![other.clone()]]);
            let all = count as u32 + 1;
            let turns = [all, 2 * all, 2 * all + 1, 4_095, 4_096];
            rounds.extend(turns.map(|turns| Round::new(book.clone(), turns)));
        }
    }
    rounds
}

/// Job 0 starts four jobs, each of which is blocked or goes on: every pattern.
fn patterns() -> Vec<Round> {
    let mut rounds = Vec::new();
    for pattern in 0..16_u8 {
        let each = |job: u8| start(1 + (pattern >> job & 1));
        let starts: Draft = (0..4).map(each).collect();
        for end in [vec![], vec![exec(7)], vec![put(5, 5); 9]] {
            let going = vec![put(6, 9); 6];
            let book = book(&[
                [&starts[..], &end].concat(),
                vec![put(4, 1), exec(7)],
                going,
            ]);
            let turns = [7, 20, 33, 100];
            rounds.extend(turns.map(|turns| Round::new(book.clone(), turns)));
        }
    }
    rounds
}

/// A job is lowered and cannot write the cell until the other has relabelled it, after some puts: the
/// writer is job 0, job 1 or job 2.
fn released() -> Vec<Round> {
    let writer = [lower(4), name(0, PLAIN), write(0, 6), put(5, 1)];
    let mut rounds = Vec::new();
    for wait in 0..6 {
        let relabels = [vec![put(6, 9); wait], vec![name(0, PLAIN), relabel(0, 4)]].concat();
        let books = [
            book(&[[&[start(1)], &writer[..]].concat(), relabels.clone()]),
            book(&[[&[start(1)], &relabels[..]].concat(), writer.to_vec()]),
            book(&[vec![start(2), start(1)], writer.to_vec(), relabels]),
        ];
        for book in books {
            rounds.extend([8, 11, 40].map(|turns| Round::new(book.clone(), turns)));
        }
    }
    rounds
}

/// A job executes a cell that holds no code yet; another writes block 2 into it. What is started
/// stands last in the table and is next, if the job was the last.
fn code_later() -> Vec<Round> {
    let runs = [name(0, PLAIN), exec(0), put(5, 1)];
    let mut rounds = Vec::new();
    for wait in 0..5 {
        let stores = [name(0, PLAIN), code(1, 2), write(0, 1)];
        let stores = [vec![put(6, 9); wait], stores.to_vec()].concat();
        let last = vec![put(6, 9); 3];
        let books = [
            book(&[
                [&[start(1)], &runs[..]].concat(),
                stores.clone(),
                last.clone(),
            ]),
            book(&[[&[start(1)], &stores[..]].concat(), runs.to_vec(), last]),
        ];
        for book in books {
            rounds.extend([9, 14, 40].map(|turns| Round::new(book.clone(), turns)));
        }
    }
    rounds
}
