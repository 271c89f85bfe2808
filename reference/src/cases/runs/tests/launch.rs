//! The runs of launch labels, with numbers by hand.

use super::*;
use crate::cases::runs::launch::{every_label, launches, other_bounds};
use crate::model::book::{read, Refusal};

const ABOVE: Refusal = Refusal {
    number: 14,
    place: 0,
};

/// Asserts that a run is refused by 14 exactly where its launch label is above the bound, and that
/// job 0 begins at this label else.
fn assert_launched(run: &Run, c: u8, bound: u8) {
    let (outcome, [_, jobs, _]) = outcome(machine::run, run);
    let expected = match run.launch {
        Some(label) if label > u32::from(bound) => return assert_eq!(outcome, Err(ABOVE)),
        Some(label) => label as u8,
        None if bound <= c => bound,
        None => c + 1,
    };
    assert!(outcome.is_ok());
    assert_eq!([jobs[2], jobs[3]], [expected; 2], "{run:?}");
}

#[test]
fn job_0_has_the_launch_label() {
    let runs = [every_label(), other_bounds()].concat();
    // C 0 has 4 bounds about it, 3 has 5 and 14 has 3; there are 24 launches.
    assert_eq!(launches().len(), 24);
    assert_eq!(runs.len(), (4 + 5 + 3 + 4) * 24);
    for run in &runs {
        let book = read(&run.book).unwrap();
        assert_launched(run, book.c, book.blocks[0].bound);
    }
}

#[test]
fn all_that_job_0_leaves_has_the_launch_label() {
    let mut done = 0;
    for run in every_label() {
        let (Ok(ran), [cells, jobs, answers]) = outcome(machine::run, &run) else {
            continue;
        };
        done += 1;
        let label = jobs[2];
        assert_eq!((ran.cells, ran.jobs), (6, 3));
        assert_eq!(answers[..9], [0, 0, 0, 0, 0, 0, 0, 0, 2]);
        // The cell that it made: its label, and the source of a fresh register.
        assert_eq!([cells[5 * 9 + 2], cells[5 * 9 + 8]], [label; 2]);
        // The jobs that it started: label and source; the cell with the code has label 15.
        for job in [1, 2] {
            assert_eq!([jobs[job * 52 + 2], jobs[job * 52 + 3]], [label; 2]);
        }
        // The sum of two fresh registers.
        assert_eq!(jobs[4 + 2 * 6 + 5], label);
    }
    // Each bound B has B + 1 labels up to it, and none; the bounds are 0, 1, 2, 15, then 2, 3, 4,
    // 5, 15, then 13, 14, 15.
    assert_eq!(
        done,
        (2 + 3 + 4 + 17) + (4 + 5 + 6 + 7 + 17) + (15 + 16 + 17)
    );
}

/// How many runs have each kind of launch: none, at or below C, above C and below the bound, the
/// bound above C, above the bound.
#[test]
fn every_kind_of_launch_occurs() {
    let mut tally = [0; 5];
    for run in all() {
        let Ok(book) = read(&run.book) else {
            continue;
        };
        let (c, bound) = (u32::from(book.c), u32::from(book.bound()));
        tally[match run.launch {
            None => 0,
            Some(label) if label > bound => 4,
            Some(label) if label <= c => 1,
            Some(label) if label < bound => 2,
            Some(_) => 3,
        }] += 1;
    }
    println!("{tally:?}");
    assert!(tally.iter().all(|&count| count >= 150), "{tally:?}");
}
