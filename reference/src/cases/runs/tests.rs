//! What the file of test runs must hold.

mod before;
mod choose;
mod claim;
mod coverage;
mod launch;
mod recorded;
mod top;

use super::*;
use crate::model::machine::event::{EXEC, NEW, RELABEL, START, STEP, WRITE};
use crate::model::machine::{self, admitted, check_launch, fast, Cause, Machine, Why};
use crate::model::typing::{check, Verdict};
use std::collections::BTreeMap;

/// Calls `see` with each cause of a run and the machine behind the event, if the run is not
/// refused.
fn trace(run: &Run, mut see: impl FnMut(Cause, &Machine)) {
    if outcome(machine::run, run).0.is_err() {
        return;
    }
    let (book, events) = admitted(&run.book, &run.events).unwrap();
    let mut machine = Machine::new(&book, check_launch(&book, run.launch).unwrap());
    for event in events {
        let cause = machine.take(event);
        see(cause, &machine);
    }
}

/// In how many runs each cause occurs.
fn causes() -> BTreeMap<Cause, usize> {
    let mut tally = BTreeMap::new();
    for run in all() {
        let mut seen = Vec::new();
        trace(&run, |cause, _| seen.push(cause));
        seen.sort();
        seen.dedup();
        for cause in seen {
            *tally.entry(cause).or_insert(0) += 1;
        }
    }
    tally
}

/// Every cause that there is, but for "done".
fn reasons() -> Vec<(u8, Vec<Why>)> {
    use Why::*;
    let value = [ValueKindAbove2, ValueNamesNoCell, ValueNamesNoBlock];
    let new = [QAboveC, NoShape, NotACellShape, TrustAboveC, Full];
    vec![
        (64, vec![]),
        (65, vec![]),
        (66, vec![]),
        (67, vec![FirstNotPlain, SecondNotPlain, SumPassesTop]),
        (68, vec![Full]),
        (69, vec![NotACell]),
        (70, vec![NotACell, LabelAbove]),
        (71, vec![NotACell, LabelAbove, NewLabelAbove]),
        (72, vec![LabelAbove]),
        (73, vec![Full]),
        (74, vec![NotACell, NotCode, Full]),
        (75, vec![NotPlain, Full]),
        (WRITE, [&value[..], &[QAboveC, NoCell, LabelAbove]].concat()),
        (
            RELABEL,
            vec![QAboveC, NoCell, LabelAbove15, LabelAbove, NewLabelAbove],
        ),
        (NEW, [&value[..], &new].concat()),
        (EXEC, vec![QAboveC, NoCell, NotCode, Full]),
        (START, vec![QAboveC, NoBlock, Full]),
    ]
}

#[test]
fn every_cause_of_every_answer_occurs() {
    let mut expected = Vec::new();
    for (kind, reasons) in reasons() {
        expected.push(Cause { kind, why: None });
        let not_done = reasons.into_iter().map(Some);
        expected.extend(not_done.map(|why| Cause { kind, why }));
    }
    for why in [Why::NoJob, Why::NoStepLeft] {
        let (kind, why) = (STEP, Some(why));
        expected.push(Cause { kind, why });
    }
    expected.sort();
    let tally = causes();
    assert_eq!(tally.keys().copied().collect::<Vec<_>>(), expected);
    for (cause, count) in tally {
        println!(
            "{} {:?} answer {}: {count}",
            cause.kind,
            cause.why,
            cause.answer()
        );
        assert!(count >= 10, "{cause:?}");
    }
}

#[test]
fn every_refusal_occurs() {
    let mut tally = BTreeMap::new();
    for run in all() {
        let number = outcome(machine::run, &run)
            .0
            .map_or_else(|r| r.number, |_| 0);
        *tally.entry(number).or_insert(0) += 1;
    }
    let numbers: Vec<u8> = tally.keys().copied().collect();
    assert_eq!(numbers, [0, 1, 2, 3, 4, 5, 6, 9, 10, 11, 14]);
    for (number, count) in tally {
        assert!(number == 1 || count >= 20, "refusal {number}");
    }
}

#[test]
fn the_file_is_rich_enough_and_not_too_large() {
    let runs = all();
    assert!(runs.len() >= 5_000);
    assert!(file::join(&runs).len() < 3_000_000);
    for run in &runs {
        assert!(run.book.len() <= 32_769 && run.events.len() <= 65_537);
        let mut lengths = run.lengths.iter().zip(LONGEST);
        assert!(lengths.all(|(&length, longest)| length <= longest));
    }
    let accepted = |run: &&Run| matches!(check(&run.book), Verdict::Accepted { .. });
    let ran = |run: &&Run| outcome(machine::run, run).0.is_ok();
    let sound = runs.iter().filter(ran).filter(accepted).count();
    let unsound = runs.iter().filter(ran).count() - sound;
    println!(
        "{} runs, {sound} of accepted books, {unsound} of others",
        runs.len()
    );
    assert!(sound >= 500 && unsound >= 500);
}

#[test]
fn the_runs_are_the_same_at_every_call() {
    assert_eq!(all(), all());
}

#[test]
fn both_machines_give_the_same() {
    for run in all() {
        assert_eq!(outcome(machine::run, &run), outcome(fast::run, &run));
    }
}
