//! What the test rounds must hold, and what 02, Six says of every round.

mod reached;
mod watch;

use super::*;
use crate::model::machine::{self, fast};
use crate::model::typing::{check, Verdict};
use std::collections::BTreeMap;
use watch::watch;

/// Both machines give the same and choose the same; "The round equals the run on the list of steps
/// that it chose", by both; and it is fair.
pub fn assert_fair(round: &Round) {
    let (side, jobs) = chosen(machine::chosen, round);
    assert_eq!(chosen(fast::chosen, round), (side.clone(), jobs.clone()));
    assert_eq!(outcome(machine::round, round), side);
    assert_eq!(outcome(fast::round, round), side);
    if side.0.is_ok() {
        assert_eq!(outcome_of_steps(machine::run, round, &jobs), side);
        assert_eq!(outcome_of_steps(fast::run, round, &jobs), side);
        watch(round, &jobs);
    } else {
        assert_eq!(side.1, round.lent());
    }
}

#[test]
fn every_test_round_is_fair() {
    for round in all() {
        assert_fair(&round);
    }
}

#[test]
fn every_refusal_occurs() {
    let mut tally = BTreeMap::new();
    for round in all() {
        let refusal = outcome(fast::round, &round).0.err();
        let number = refusal.map_or(0, |refusal| refusal.number);
        *tally.entry(number).or_insert(0) += 1;
    }
    println!("{tally:?}");
    let numbers: Vec<u8> = tally.keys().copied().collect();
    assert_eq!(numbers, [0, 1, 2, 3, 4, 5, 6, 10, 11, 14, 15]);
    for (number, count) in tally {
        assert!(number == 1 || count >= 20, "refusal {number}");
    }
}

#[test]
fn the_file_is_rich_enough_and_not_too_large() {
    let rounds = all();
    assert!(rounds.len() >= 2_000);
    assert!(file::join(&rounds).len() < 2_000_000);
    for round in &rounds {
        let mut lengths = round.lengths.iter().zip(LONGEST);
        assert!(lengths.all(|(&length, longest)| length <= longest));
        assert_ne!(round.launch, Some(u32::MAX));
    }
    let accepted = |round: &&Round| matches!(check(&round.book), Verdict::Accepted { .. });
    let made = |round: &&Round| outcome(fast::round, round).0.is_ok();
    let sound = rounds.iter().filter(made).filter(accepted).count();
    let unsound = rounds.iter().filter(made).count() - sound;
    println!(
        "{} rounds, {sound} of accepted books, {unsound} of others",
        rounds.len()
    );
    assert!(sound >= 200 && unsound >= 200);
}

#[test]
fn the_rounds_are_the_same_at_every_call() {
    assert_eq!(all(), all());
}

/// What the buffers held before plays no part.
#[test]
fn the_tables_are_the_same_whatever_was_there() {
    for round in before::rounds() {
        let (one, [cells, jobs, answers]) = outcome(machine::round, &round);
        let other = round.with_before(Before::Byte(0x33));
        let (two, lent) = outcome(machine::round, &other);
        assert_eq!(one, two);
        if let Ok(rounded) = one {
            let [other_cells, other_jobs, other_answers] = lent;
            assert_eq!((cells, jobs), (other_cells, other_jobs));
            assert_eq!(answers[..rounded.turns], other_answers[..rounded.turns]);
            let kept = round.lent()[2][rounded.turns..].to_vec();
            assert_eq!(answers[rounded.turns..], kept);
        }
    }
}
