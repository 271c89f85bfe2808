//! Times of whole runs.

use crate::sides::RUNNERS;
use crate::timing::{self, Times, COLUMNS, COLUMNS_PER};
use crate::BOOK_A;
use reference::cases::runs::{outcome, Run};
use reference::model::book::PLAIN_VALUE;
use reference::model::machine::{event, fast, Runner};
use reference::{full_book, mixed_book};
use std::hint::black_box;

/// Book A with a job at 8, below the label of the cell that it writes.
const BOOK_A2: &[u8] = include_bytes!("../../books/a2.book");

/// A book for one option, 95 bytes, which the check accepts. Vol, rate and hedge are official cells,
/// of trust 9, and a fourth cell is scratch, of trust 2. Block 0 reads vol and rate, adds both and a
/// constant, writes the hedge, lowers itself to 2, and starts block 1, of bound 2, which writes the
/// scratch cell.
pub const OPTION_BOOK: &[u8] = include_bytes!("../option.book");

/// The scratch cell's number.
const SCRATCH: u8 = 3;

/// 20 events: the steps of both blocks and some more, three writes by outsiders, the last of them to
/// the hedge and blocked, and a relabel of the scratch cell.
const OPTION_EVENTS: &[u8] = include_bytes!("../option.events");

/// The rows: a name, and the run, which is launched at the bound.
pub const ROWS: [(&str, fn() -> Run); 8] = [
    ("A1", || steps(BOOK_A, 4)),
    ("one option", one_option),
    // A job with no step left.
    ("A1, longest", || steps(BOOK_A, MOST_STEPS)),
    // A step that is blocked: the third, a write, is tried by all events but two.
    ("A2, longest", || steps(BOOK_A2, MOST_STEPS)),
    ("mixed", || mixed(64)),
    ("mixed, longest", || mixed(LONGEST_ROUNDS)),
    ("full, longest", || turns(full_book(), LONGEST_ROUNDS)),
    // Acts of outsiders that are done: events of 8 bytes are read, and each changes a cell.
    ("writes", || writes(MOST_WRITES)),
];

/// How often each of the 64 jobs of `mixed` is asked for a step.
const ROUNDS: [usize; 4] = [8, 16, 32, 64];

/// As many as a list of 65,536 bytes has room for, behind the events that start the jobs.
pub const LONGEST_ROUNDS: usize = 510;

/// As many steps, of 2 bytes, and outsiders' writes, of 8, as such a list has room for.
pub const MOST_STEPS: usize = 32_768;
const MOST_WRITES: u32 = 8_192;

/// Prints the tables. The worst ratio of the rows.
pub fn time() -> f64 {
    println!("run            events    done{COLUMNS}");
    let ratios = ROWS.map(|(name, run)| time_run(name, &run()));

    println!();
    println!("mixed with a number of rounds, nanoseconds for each event, the reading of the book included");
    println!("rounds        events{COLUMNS_PER}");
    for rounds in ROUNDS {
        time_rounds(rounds, &mixed(rounds));
    }
    ratios.into_iter().fold(0.0, f64::max)
}

fn time_run(name: &str, run: &Run) -> f64 {
    let times = compare(run);
    println!("{name:<15}{:>6}{:>8}{times}", count(run), done(run));
    times.ratio
}

fn time_rounds(rounds: usize, run: &Run) {
    let times = compare(run);
    println!("{rounds:<12}{:>8}{}", count(run), times.per(count(run)));
}

/// All sides must run it, and leave the same bytes.
fn compare(run: &Run) -> Times {
    let expected = outcome(fast::run, run);
    assert!(expected.0.is_ok(), "{:?}", expected.0);
    for runner in RUNNERS {
        assert_eq!(outcome(runner, run), expected);
    }
    timing::compare(RUNNERS.map(|runner| call(runner, run)))
}

/// A call of a side, on buffers of its own.
pub fn call(runner: Runner, run: &Run) -> impl FnMut() + '_ {
    let mut lent = run.lengths.map(|length| vec![0; length]);
    move || {
        let (book, launch, events) = black_box((&run.book, run.launch, &run.events));
        let outcome = runner(book, launch, events, &mut lent);
        black_box(&outcome).as_ref().expect("it runs");
    }
}

pub fn count(run: &Run) -> usize {
    event::split(&run.events).map_or(0, |events| events.len())
}

/// How many events are answered 0.
fn done(run: &Run) -> usize {
    let (_, [_, _, answers]) = outcome(fast::run, run);
    answers.iter().filter(|answer| **answer == 0).count()
}

/// Job 0 is asked for so many steps.
pub fn steps(book: &[u8], count: usize) -> Run {
    Run::new(book.to_vec(), [event::STEP, 0].repeat(count))
}

fn one_option() -> Run {
    Run::new(OPTION_BOOK.to_vec(), OPTION_EVENTS.to_vec())
}

/// The largest book with steps of all kinds. Most of its jobs are soon blocked.
pub fn mixed(rounds: usize) -> Run {
    turns(mixed_book(), rounds)
}

/// Outsiders start the blocks of a book of 64, and then its 64 jobs take turns.
fn turns(book: Vec<u8>, rounds: usize) -> Run {
    let begin = (0..63u8).flat_map(|block| [85, block % 4, block]);
    let turns = (0..rounds).flat_map(|_| (0..64u8).flat_map(|job| [80, job]));
    Run::new(book, begin.chain(turns).collect())
}

/// Outsiders at 2 and at 3, which is C, take turns to write another number to the scratch cell of
/// `OPTION_BOOK`. Its label is 2, so every write is done.
fn writes(count: u32) -> Run {
    let events = (0..count).flat_map(|turn| {
        let (q, number) = (2 + (turn % 2) as u8, turn.wrapping_mul(1_048_583));
        let [n0, n1, n2, n3] = number.to_le_bytes();
        [event::WRITE, q, SCRATCH, PLAIN_VALUE, n0, n1, n2, n3]
    });
    Run::new(OPTION_BOOK.to_vec(), events.collect())
}
