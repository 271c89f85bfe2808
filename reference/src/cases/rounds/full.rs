//! 64 jobs: each waits for 63 others.

use super::Round;
use crate::cases::check_books::scene::{Scene, Value};
use crate::cases::generate::records::{
    choose, exec, lower, name, new, put, read, start, write, Draft,
};
use crate::cases::generate::Bytes;
use crate::cases::large::{full_book, mixed_book};

pub fn rounds() -> Vec<Round> {
    let parts = [steps_each(), last_job(), both_tables(), large()];
    parts.concat()
}

/// C is 3. Cell 0, of trust and label 0, holds block 1.
fn book(blocks: &[Draft]) -> Bytes {
    let mut scene = Scene::new(3);
    let shape = scene.plain_cell(0);
    scene.declare(shape, 0, Value::Code(1));
    for block in blocks {
        scene.block(12, block);
    }
    scene.book()
}

/// Where job 0 starts 63 jobs, one in each pass, which have steps enough: the turns up to the last
/// start, and up to the end of the pass in which all 64 have one.
const LAST_START: u32 = 2_016;
const ALL: u32 = 2_079 + 64;

/// Job 0 starts 63 jobs and has a step left, and so has each of them: they have so many. 64 steps of
/// 64 jobs are 4,096 turns.
fn steps_each() -> Vec<Round> {
    let mut rounds = Vec::new();
    for count in [1, 2, 3, 62, 63, 64] {
        let first = [vec![start(1); 63], vec![put(6, 9)]].concat();
        let book = book(&[first, vec![put(6, 9); count]]);
        let turns = [
            LAST_START - 1,
            LAST_START,
            LAST_START + 1,
            ALL - 64,
            ALL - 1,
            ALL,
            ALL + 1,
            4_094,
            4_095,
            4_096,
        ];
        rounds.extend(turns.map(|turns| Round::new(book.clone(), turns)));
    }
    rounds
}

/// Job 63 starts a job more and is blocked, puts, or has no step left. In most of the books the last
/// job starts the next.
fn last_job() -> Vec<Round> {
    let books = [
        book(&[vec![start(0)], vec![]]),
        book(&[vec![start(0), put(6, 9)], vec![]]),
        book(&[vec![put(6, 9), start(0), put(6, 9)], vec![]]),
        book(&[vec![choose(5, 1, 0), put(6, 9)], vec![]]),
        book(&[vec![start(1)], vec![name(0, 0), exec(0), put(6, 9)]]),
        book(&[vec![start(1); 63], vec![put(6, 9), start(1)]]),
        book(&[vec![start(1); 64], vec![put(6, 9)]]),
        book(&[vec![start(1); 63], vec![lower(3), put(6, 9), start(0)]]),
    ];
    let turns = [62, 63, 64, 65, 126, 127, 128, 129, 192, 1_000, 4_096];
    let mut rounds = Vec::new();
    for book in books {
        rounds.extend(turns.map(|turns| Round::new(book.clone(), turns)));
    }
    rounds
}

/// Jobs that make cells and start jobs until both tables are full.
fn both_tables() -> Vec<Round> {
    let making = vec![
        new(1, 1, 0),
        start(0),
        new(2, 1, 1),
        read(3, 2),
        write(2, 1),
    ];
    let once = vec![start(0), new(1, 1, 1), start(0), name(4, 0), exec(4)];
    let mut rounds = Vec::new();
    for block in [making, once] {
        let book = book(&[block, vec![put(6, 9), start(0)]]);
        let turns = [10, 100, 250, 500, 4_096];
        rounds.extend(turns.map(|turns| Round::new(book.clone(), turns).with_answers(4_100)));
    }
    rounds
}

/// The largest books.
fn large() -> Vec<Round> {
    let mut rounds = Vec::new();
    for book in [full_book(), mixed_book()] {
        rounds.extend([0, 64, 500, 4_096].map(|turns| Round::new(book.clone(), turns)));
    }
    rounds
}
