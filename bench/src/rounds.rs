//! Times of whole rounds.

use crate::sides::ROUNDERS;
use crate::timing::{self, Times, COLUMNS};
use reference::cases::rounds::{outcome, Round};
use reference::model::machine::{fast, Rounder, MOST_TURNS};
use std::hint::black_box;

/// The rows: a name, and the round, of the most turns.
pub const ROWS: [(&str, fn() -> Round); 3] = [
    // Each has 64 steps, so that every turn is done.
    ("64 jobs", || round(&[&starting(&PUT), &SUM.repeat(32)])),
    // The 63 that job 0 starts have no step, and it is then blocked.
    ("one of 64", || round(&[&starting(&BLOCKED), &[]])),
    // Every turn is blocked.
    ("one job", || round(&[&BLOCKED])),
];

/// put 0, 1.
const PUT: [u8; 6] = [64, 0, 1, 0, 0, 0];

/// put 1, 7; add 0, 0, 1.
const SUM: [u8; 10] = [64, 1, 7, 0, 0, 0, 67, 0, 0, 1];

/// write 0, 1: register 0 is plain, and names no cell.
const BLOCKED: [u8; 3] = [70, 0, 1];

/// start 1, 63 times, and then this step.
fn starting(step: &[u8]) -> Vec<u8> {
    [&[73, 1].repeat(63), step].concat()
}

/// A book of C 3 and these blocks, of bound 12.
fn round(blocks: &[&[u8]]) -> Round {
    let mut book = vec![1, 3];
    for steps in blocks {
        book.extend([48, 12]);
        book.extend(*steps);
    }
    Round::new(book, MOST_TURNS)
}

/// Prints the table. The worst ratio of the rows.
pub fn time() -> f64 {
    println!("round          turns    done{COLUMNS}");
    let ratios = ROWS.map(|(name, round)| time_round(name, &round()));
    ratios.into_iter().fold(0.0, f64::max)
}

fn time_round(name: &str, round: &Round) -> f64 {
    let times = compare(round);
    println!("{name:<12}{:>8}{:>8}{times}", round.turns, done(round));
    times.ratio
}

/// All sides must use every turn, and leave the same bytes.
fn compare(round: &Round) -> Times {
    let expected = outcome(fast::round, round);
    let used = expected.0.as_ref().map(|rounded| rounded.turns);
    assert_eq!(used, Ok(MOST_TURNS as usize));
    for rounder in ROUNDERS {
        assert_eq!(outcome(rounder, round), expected);
    }
    timing::compare(ROUNDERS.map(|rounder| call(rounder, round)))
}

/// A call of a side, on buffers of its own.
pub fn call(rounder: Rounder, round: &Round) -> impl FnMut() + '_ {
    let mut lent = round.lent();
    move || {
        let (book, launch, turns) = black_box((&round.book, round.launch, round.turns));
        let outcome = rounder(book, launch, turns, &mut lent);
        black_box(&outcome).as_ref().expect("it is made");
    }
}

/// How many turns are answered 0.
fn done(round: &Round) -> usize {
    let (_, [_, _, answers]) = outcome(fast::round, round);
    answers.iter().filter(|answer| **answer == 0).count()
}
