//! The test runs beside the machine before 02, Two: sums that pass the top.

use super::*;
use crate::cases::differ;
use crate::cases::runs::sums::{play_before, TOP};

/// Whether an add of the run passed the top, by the machine before. If one did the run gives
/// something else now, and if none did the same.
fn passed_the_top(run: &Run) -> bool {
    let (before, sums) = play_before(run);
    let passed = sums.iter().any(|&sum| sum >= TOP);
    assert_eq!(before != outcome(machine::run, run), passed, "{run:?}");
    passed
}

#[test]
fn exactly_the_runs_that_passed_the_top_have_changed() {
    let runs = all();
    let changed = runs.iter().filter(|run| passed_the_top(run)).count();
    println!("{changed} of {} runs passed the top", runs.len());
    assert!(changed >= 700 && runs.len() - changed >= 7_000);
}

#[test]
fn so_have_runs_by_chance() {
    let runs = differ::runs(1).take(5_000);
    let changed = runs.filter(passed_the_top).count();
    assert!(changed >= 50, "{changed}");
}
