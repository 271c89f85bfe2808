//! The test books, runs, rounds and tables give no difference. A difference is found, and written out.

use crate::chosen;
use crate::compare::{self, Checked, Difference};
use crate::{reference_checks, verified_checks, VERIFIED_TURNS};
use reference::cases::differ::forgetful;
use reference::model::book::Refusal;
use reference::model::machine::{self, Lent, RoundOutcome};
use reference::model::writer::{self, Tables};
use reference::Verdict;

/// A check that accepts nothing.
fn stern(book: &[u8], block: usize) -> Checked {
    let (_, stretch) = reference_checks(book, block);
    let verdict = Verdict::Refused {
        number: 8,
        place: 0,
    };
    (verdict, stretch)
}

/// A writer that writes one byte beyond the book, where there is room.
fn careless(tables: &Tables, out: &mut [u8]) -> Result<usize, Refusal> {
    let length = writer::write(tables, out)?;
    if let Some(beyond) = out.get_mut(length) {
        *beyond = 0;
    }
    Ok(length)
}

/// A round that says it used all the turns that were asked for.
fn boastful(book: &[u8], launch: Option<u32>, turns: u32, lent: &mut Lent) -> RoundOutcome {
    let mut rounded = machine::round(book, launch, turns, lent)?;
    rounded.turns = turns as usize;
    Ok(rounded)
}

fn lines(outcome: Result<compare::Tally, Difference>) -> Vec<String> {
    let Err(Difference(text)) = outcome else {
        panic!("the two differ");
    };
    text.lines().map(String::from).collect()
}

#[test]
fn a_different_run_is_written_out() {
    let lines = lines(compare::runs(1, 50, verified::run_exported, forgetful));
    let names = lines
        .iter()
        .filter_map(|line| line.split(' ').find(|word| !word.is_empty()));
    let expected = [
        "number", "book", "launch", "events", "lengths", "one", "cells", "jobs", "answers",
        "other", "cells", "jobs", "answers",
    ];
    assert_eq!(names.collect::<Vec<_>>(), expected);
    assert!(lines[1].starts_with("book 01"));
}

/// By the round, and by the run on its steps.
#[test]
fn a_different_round_is_written_out() {
    let other = machine::chosen;
    let made = compare::rounds(1, 50, (boastful, verified::run_exported), other);
    let ran = compare::rounds(1, 50, (verified::round_exported, forgetful), other);
    for (call, lines) in [("call round", lines(made)), ("call run", lines(ran))] {
        let names = lines
            .iter()
            .filter_map(|line| line.split(' ').find(|word| !word.is_empty()));
        let expected = [
            "number", "book", "launch", "turns", "lengths", "before", "call", "one", "cells",
            "jobs", "answers", "other", "cells", "jobs", "answers",
        ];
        assert_eq!(names.collect::<Vec<_>>(), expected);
        assert_eq!(lines[6], call);
    }
}

#[test]
fn a_different_book_is_written_out() {
    let lines = lines(compare::books(1, 50, verified_checks, stern));
    assert_eq!(lines.len(), 5);
    assert!(lines[1].starts_with("book 01"));
}

#[test]
fn different_tables_are_written_out() {
    let lines = lines(compare::tables(1, 50, verified::write, careless));
    let names = lines
        .iter()
        .filter_map(|line| line.split(' ').find(|word| !word.is_empty()));
    let expected = [
        "number", "c", "shapes", "cells", "blocks", "steps", "length", "one", "out", "other", "out",
    ];
    assert_eq!(names.collect::<Vec<_>>(), expected);
}

#[test]
fn a_few_do_not_differ() {
    let runs = compare::runs(7, 2_000, verified::run_exported, machine::run);
    assert!(runs.is_ok_and(|tally| tally.to_string().contains(" by 14")));
    let rounds = compare::rounds(7, 2_000, VERIFIED_TURNS, machine::chosen);
    assert!(rounds.is_ok_and(|tally| tally.to_string().contains(" by 15")));
    let books = compare::books(7, 2_000, verified_checks, reference_checks);
    assert!(books.is_ok_and(|tally| tally.to_string().contains(" not refused, ")));
    let tables = compare::tables(7, 5_000, verified::write_exported, writer::write);
    assert!(tables.is_ok_and(|tally| tally.to_string().contains(" by 13")));
}

#[test]
fn the_test_books_do_not_differ() {
    let tally = chosen::books(verified_checks, reference_checks).map_err(|found| found.0);
    let tally = tally.expect("verified (one) and reference (other) differ");
    assert_eq!(tally.count(), 6_006 + 16_002);
}

/// By both ways to run a book: by the exported call all of them, and through the bindings those
/// whose launch label is a byte or none.
#[test]
fn the_test_runs_do_not_differ() {
    let tally = chosen::runs(verified::run_exported, machine::run).map_err(|found| found.0);
    let tally = tally.expect("verified (one) and reference (other) differ");
    assert_eq!(tally.count(), 9_159 + 2_942 + 1_248);
    let tally = chosen::runs_of_bytes(verified::run, machine::run).map_err(|found| found.0);
    let tally = tally.expect("verified (one) and reference (other) differ");
    assert_eq!(tally.count(), 9_159 + 2_942 + 1_248 - 288);
    assert!(chosen::lists().is_ok());
}

#[test]
fn the_test_rounds_do_not_differ() {
    let tally = chosen::rounds(VERIFIED_TURNS, machine::chosen).map_err(|found| found.0);
    let tally = tally.expect("verified (one) and reference (other) differ");
    assert_eq!(tally.count(), 4_876);
}

/// By both ways to call the writer.
#[test]
fn the_test_tables_do_not_differ() {
    for verified in [verified::write, verified::write_exported] {
        let tally = chosen::tables(verified, writer::write).map_err(|found| found.0);
        let tally = tally.expect("verified (one) and reference (other) differ");
        assert_eq!(tally.count(), 8_857 + 3 * 16_695);
    }
}

#[test]
fn the_test_books_are_written_again() {
    let count = chosen::written_again().map_err(|found| found.0);
    assert_eq!(
        count.expect("verified (one) and reference (other) differ"),
        16_695
    );
}

#[test]
fn a_different_test_book_and_run_are_written_out() {
    assert_eq!(lines(chosen::books(verified_checks, stern)).len(), 4);
    assert_eq!(
        lines(chosen::runs(verified::run_exported, forgetful)).len(),
        13
    );
    let boastful = (boastful as machine::Rounder, VERIFIED_TURNS.1);
    assert_eq!(lines(chosen::rounds(boastful, machine::chosen)).len(), 15);
    assert_eq!(lines(chosen::tables(verified::write, careless)).len(), 11);
}
