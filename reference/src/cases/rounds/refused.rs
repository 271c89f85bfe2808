//! Rounds refused 1 to 6, 10, 11, 14 and 15, and which refusal comes first.

use super::Round;
use crate::cases::generate::{samples, Bytes};
use crate::cases::runs::{choose, refused as runs};

pub fn rounds() -> Vec<Round> {
    let parts = [books(), tables(), faults()];
    parts.concat()
}

fn a() -> Bytes {
    samples::books().swap_remove(0)
}

/// The unreadable books of the runs, with sound turns and buffers or not. The longest ones have all
/// of these.
fn books() -> Vec<Round> {
    let found = [runs::books(), choose::refused()].concat();
    let found = found.into_iter().enumerate();
    let mut rounds: Vec<Round> = found.map(|(turn, run)| asked(run.book, turn)).collect();
    for run in runs::overlong_book() {
        rounds.extend((0..SORTS).map(|turn| asked(run.book.clone(), turn)));
    }
    rounds
}

/// How many sorts of turns and buffers there are.
const SORTS: usize = 6;

fn asked(book: Bytes, turn: usize) -> Round {
    let few = turn as u32 % 5;
    match turn % SORTS {
        0 => Round::new(book, few).with([0, 0, 0]),
        1 => Round::new(book, few).with_launch(Some(16)),
        2 => Round::new(book, 5_000).with_answers(5_000),
        3 => Round::new(book, u32::MAX).with([0, 0, 0]),
        4 => Round::new(book, few + 1).with_answers(few as usize),
        _ => Round::new(book, few),
    }
}

const CELL_LENGTHS: [usize; 10] = [0, 1, 9, 144, 567, 575, 576, 577, 585, 1_024];
const JOB_LENGTHS: [usize; 10] = [0, 1, 52, 832, 3_276, 3_327, 3_328, 3_329, 3_380, 4_096];

fn tables() -> Vec<Round> {
    let round = Round::new(a(), 2);
    let mut rounds = Vec::new();
    for cells in CELL_LENGTHS {
        rounds.extend(JOB_LENGTHS.map(|jobs| round.with([cells, jobs, 2])));
    }
    rounds
}

/// Faults of any stages at once: the book's, 10, 11, 14 and 15.
fn faults() -> Vec<Round> {
    let mut rounds = Vec::new();
    for book in [a(), vec![1, 3]] {
        for [cells, jobs] in [[576, 3_328], [575, 3_328], [576, 3_327]] {
            for launch in [None, Some(12), Some(13), Some(0x0100_0005)] {
                for (turns, answers) in ASKED {
                    let round = Round::new(book.clone(), turns).with_launch(launch);
                    rounds.push(round.with([cells, jobs, answers]));
                }
            }
        }
    }
    rounds
}

/// Turns and answer bytes: sound, 11, 15, and 11 with 15. Book A uses 3 turns at its bound.
const ASKED: [(u32, usize); 11] = [
    (3, 3),
    (8, 8),
    (4_096, 4_096),
    (8, 7),
    (8, 3),
    (4_096, 4_095),
    (4_097, 4_097),
    (5_000, 5_001),
    (4_097, 4_096),
    (5_000, 4_999),
    (65_539, 3),
];
