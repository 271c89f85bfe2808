//! What the test rounds reach, and chance misses.

use super::watch::{watch, Turn};
use super::*;
use crate::model::machine::{Why, MOST_TURNS, TABLE};
use std::collections::BTreeSet;

/// What a round reaches, by name.
type Reached = BTreeSet<String>;

/// A turn that is done or not, and the job of the next.
fn note_turn(turn: &Turn, next: Option<usize>, reached: &mut Reached) {
    let kind = turn.cause.kind;
    let last = turn.job + 1 == turn.in_use;
    let started = turn.then_in_use > turn.in_use;
    if let (true, Some(next)) = (started, next) {
        let who = if last { "the last job" } else { "another" };
        let found = if next == turn.in_use { "next" } else { "later" };
        reached.insert(format!("{kind} by {who}: what it started is {found}"));
    }
    if started && last && turn.then_in_use == TABLE {
        reached.insert(format!("{kind} by the last job: job 63"));
    }
    if turn.cause.why == Some(Why::Full) {
        reached.insert(format!("{kind} with a full table"));
    }
    if turn.last == Some(turn.job) && turn.in_use > 1 {
        reached.insert("a job again after a whole ring".to_string());
    }
    if turn.last == Some(turn.job) && turn.in_use == TABLE {
        reached.insert(format!("job {} again after a ring of 64", turn.job));
    }
    if turn.last.is_some_and(|last| last > turn.job) && turn.passed > 0 {
        reached.insert("a wrap past jobs without a step".to_string());
    }
    if turn.longest_wait == TABLE - 1 {
        reached.insert("a wait of 63 turns".to_string());
    }
}

fn note_turns(asked: u32, turns: &[Turn], reached: &mut Reached) {
    let blocked = |turn: &&Turn| turn.cause.answer() == 1;
    let mut stuck = [false; TABLE];
    for (number, turn) in turns.iter().enumerate() {
        note_turn(turn, turns.get(number + 1).map(|next| next.job), reached);
        if stuck[turn.job] && !blocked(&turn) {
            reached.insert("a step done after it was blocked".to_string());
        }
        stuck[turn.job] = blocked(&turn);
    }
    let all = turns.len() == MOST_TURNS as usize;
    let early = turns.len() < asked as usize;
    let full = turns.last().is_some_and(|turn| turn.then_in_use == TABLE);
    let count = turns.iter().filter(blocked).count();
    let names = [
        ("4,096 turns", all),
        ("4,096 turns, all blocked", all && count == turns.len()),
        (
            "4,096 turns, 64 jobs blocked",
            all && full && stuck == [true; TABLE],
        ),
        (
            "4,096 turns of 64 jobs, all done",
            all && full && count == 0,
        ),
        ("turns but no step", early && turns.is_empty()),
        ("a turn fewer than asked", turns.len() + 1 == asked as usize),
        ("an early end, a step was blocked", early && count > 0),
        (
            "the last turn used, steps were blocked",
            !early && count > 9,
        ),
    ];
    let found = names.into_iter().filter(|(_, holds)| *holds);
    reached.extend(found.map(|(name, _)| name.to_string()));
}

/// Which of 10, 11, 14 and 15 would refuse it, each alone.
fn note_faults(round: &Round, reached: &mut Reached) {
    let [cells, jobs, answers] = round.lengths;
    let bound = at_bound(&round.book);
    let faults = [
        (10, cells != CELLS_SIZE || jobs != JOBS_SIZE),
        (11, answers < round.turns as usize),
        (14, bound.is_some() && round.launch > bound),
        (15, round.turns > MOST_TURNS),
    ];
    let found = faults.into_iter().filter(|(_, holds)| *holds);
    let numbers: Vec<u8> = found.map(|(number, _)| number).collect();
    let readable = if bound.is_some() { "" } else { "unreadable, " };
    reached.insert(format!("{readable}faults {numbers:?}"));
    if bound.is_some() && numbers == [11] {
        let enough = round.with_answers(round.turns as usize);
        if outcome(fast::round, &enough).0.unwrap().turns <= answers {
            reached.insert("11 though the turns used are fewer".to_string());
        }
    }
}

fn reached(round: &Round) -> Reached {
    let mut reached = Reached::new();
    note_faults(round, &mut reached);
    let ((outcome, _), jobs) = chosen(fast::chosen, round);
    if outcome.is_ok() {
        note_turns(round.turns, &watch(round, &jobs), &mut reached);
    }
    reached
}

const EXPECTED: [&str; 52] = [
    "73 by the last job: what it started is next",
    "73 by the last job: what it started is later",
    "73 by the last job: job 63",
    "73 by another: what it started is next",
    "73 by another: what it started is later",
    "73 with a full table",
    "74 by the last job: what it started is next",
    "74 by the last job: what it started is later",
    "74 by the last job: job 63",
    "74 by another: what it started is next",
    "74 by another: what it started is later",
    "74 with a full table",
    "75 by the last job: what it started is next",
    "75 by the last job: what it started is later",
    "75 by the last job: job 63",
    "75 by another: what it started is next",
    "75 by another: what it started is later",
    "75 with a full table",
    "68 with a full table",
    "a job again after a whole ring",
    "job 0 again after a ring of 64",
    "job 32 again after a ring of 64",
    "job 63 again after a ring of 64",
    "a wrap past jobs without a step",
    "a wait of 63 turns",
    "a step done after it was blocked",
    "4,096 turns",
    "4,096 turns, all blocked",
    "4,096 turns, 64 jobs blocked",
    "4,096 turns of 64 jobs, all done",
    "turns but no step",
    "a turn fewer than asked",
    "an early end, a step was blocked",
    "the last turn used, steps were blocked",
    "faults []",
    "faults [10]",
    "faults [11]",
    "faults [14]",
    "faults [15]",
    "faults [10, 11]",
    "faults [10, 14]",
    "faults [10, 15]",
    "faults [11, 14]",
    "faults [11, 15]",
    "faults [14, 15]",
    "faults [10, 11, 14, 15]",
    "unreadable, faults []",
    "unreadable, faults [10]",
    "unreadable, faults [11]",
    "unreadable, faults [15]",
    "unreadable, faults [10, 11, 15]",
    "11 though the turns used are fewer",
];

#[test]
fn the_rounds_reach_what_random_ones_miss() {
    let mut tally: BTreeMap<String, usize> = BTreeMap::new();
    for round in all() {
        for name in reached(&round) {
            *tally.entry(name).or_insert(0) += 1;
        }
    }
    println!("{tally:#?}");
    for name in EXPECTED {
        assert!(tally.contains_key(name), "{name}");
    }
}
