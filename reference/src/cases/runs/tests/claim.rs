//! "What demand 3 speaks of": the tables of an accepted book's runs, after every event.

use super::*;
use crate::cases::generate::dice::Dice;
use crate::cases::runs::chance::{any_book, events};
use crate::cases::runs::choose::needed;
use crate::cases::runs::lively::Most;

/// "Where a cell's trust is above C, its label and its value's source are at least that trust.
/// Where a job's label is above C, its source is at least that label."
fn holds(machine: &Machine) -> bool {
    let c = machine.book.c;
    let cells = machine.cells.iter().all(|cell| {
        let source = cell.value.history.source();
        cell.trust <= c || (cell.label >= cell.trust && source >= cell.trust)
    });
    let mut jobs = machine.jobs.iter();
    cells && jobs.all(|job| job.label <= c || job.history.source() >= job.label)
}

/// Whether it holds in a run from its beginning on.
fn holds_in(run: &Run) -> bool {
    let mut sound = fresh_holds(run).unwrap_or(true);
    trace(run, |_, machine| sound &= holds(machine));
    sound
}

/// Whether it holds at the beginning; none if the book or the launch label is refused.
fn fresh_holds(run: &Run) -> Option<bool> {
    let (book, _) = admitted(&run.book, &[]).ok()?;
    let label = check_launch(&book, run.launch).ok()?;
    Some(holds(&Machine::new(&book, label)))
}

fn accepted(book: &[u8]) -> bool {
    matches!(check(book), Verdict::Accepted { .. })
}

#[test]
fn the_claim_holds_in_runs_of_accepted_books() {
    for run in all().iter().filter(|run| accepted(&run.book)) {
        assert!(holds_in(run), "{run:?}");
    }
}

#[test]
fn the_claim_fails_in_some_runs_of_other_books() {
    let all = all();
    let others = all.iter().filter(|run| !accepted(&run.book));
    assert!(others.filter(|run| !holds_in(run)).count() >= 100);
}

/// A choose between blocks of which one has a lesser bound than P is refused, and lets the claim fail
/// if that block is chosen.
#[test]
fn the_claim_needs_both_bounds_of_a_choose() {
    // Behind C, two plain shapes, two cell shapes, two cells, a block and a put.
    let (number, place) = (8, 2 + 2 + 6 + 16 + 2 + 6);
    for run in needed::breaking() {
        assert_eq!(check(&run.book), Verdict::Refused { number, place });
        assert!(!holds_in(&run), "{run:?}");
    }
    let runs = needed::holding();
    assert!(runs.iter().all(holds_in));
    // Both bounds are enough in 2 of 8.
    let sound = runs.iter().filter(|run| accepted(&run.book)).count();
    assert_eq!((sound, runs.len()), (4, 16));
}

#[test]
fn the_claim_holds_in_runs_by_chance() {
    let mut dice = Dice::new(0x5EED_0050);
    let most = Most::new(6, 5, 16).with_choose();
    for _ in 0..5_000 {
        // Of these numbers, 0 asks for an accepted book.
        let book = any_book(&mut dice, 0, most);
        assert!(accepted(&book));
        // "The integrity guarantee has to cover every launch label up to the bound."
        let bound = at_bound(&book).unwrap();
        let below = dice.below(bound as usize + 1) as u32;
        let launch = dice.pick(&[None, Some(bound), Some(below), Some(below)]);
        let events = events(&mut dice, &book, launch, 80);
        let run = Run::new(book, events).with_launch(launch);
        assert!(holds_in(&run), "{run:?}");
    }
}
