//! Lists up to the limit of 65,536 bytes and beyond. They are few, for they are long.

use super::chance::{any_book, events};
use super::events::{exec, start, step, steps};
use super::lively::Most;
use super::{at_bound, Run};
use crate::cases::generate::dice::Dice;
use crate::cases::generate::{samples, Bytes};
use crate::cases::large::mixed_book;

const LIMIT: usize = 65_536;

pub fn runs() -> Vec<Run> {
    let a = || samples::books().swap_remove(0);
    let full = steps(0, LIMIT / 2);
    let before_last = &full[..LIMIT - 2];
    let longer = [&full[..], &step(0)[..1]].concat();
    let most = Run::new(a(), full.clone());
    vec![
        most.clone(),
        most.with([576, 3_328, LIMIT / 2 - 1]),
        Run::new(a(), longer),
        Run::new(a(), [before_last, &start(0, 0)[..2]].concat()),
        Run::new(a(), [before_last, &[86, 0]].concat()),
        mixed_run(),
        by_chance(1, LIMIT),
        by_chance(3, 8_000),
        by_chance(4, 4_000),
    ]
}

/// The largest book with steps of all kinds but choose: 64 jobs that go on to the end.
fn mixed_run() -> Run {
    let jobs = (0..64).flat_map(|job| steps(job, 65));
    let begin = (0..63).flat_map(|block| start(block % 4, block));
    let list: Bytes = begin.chain(jobs).collect();
    Run::new(mixed_book(), list).with_spare(7)
}

/// A list by chance of exactly this length, an even number.
fn by_chance(number: usize, length: usize) -> Run {
    let mut dice = Dice::new(0x5EED_0030 + number as u64);
    let most = Most::new(8, 16, 60);
    let book = any_book(&mut dice, number, most);
    // An event has 3.2 bytes or fewer on the average.
    let mut list = events(&mut dice, &book, at_bound(&book), length / 4);
    assert!(list.len() + 3 <= length);
    if list.len() % 2 == 1 {
        list.extend(exec(0, 0));
    }
    let rest = (length - list.len()) / 2;
    list.extend((0..rest).flat_map(|turn| step((turn % 64) as u8)));
    Run::new(book, list)
}
