//! What the file of test books must hold.

mod choose;

use super::choices::{met, Met};
use super::*;
use crate::cases::file;
use crate::model::book::{self, Book, Step};
use crate::model::typing::{check, first_break, Outcome, Rules, State, Verdict};
use std::collections::{BTreeMap, BTreeSet, HashMap};

/// How often each verdict is given, 0 standing for acceptance.
fn tally(books: &[Bytes]) -> BTreeMap<u8, usize> {
    let mut tally = BTreeMap::new();
    for book in books {
        let number = match check(book) {
            Verdict::Accepted { .. } => 0,
            Verdict::Refused { number, .. } => number,
        };
        *tally.entry(number).or_insert(0) += 1;
    }
    tally
}

#[test]
fn the_file_is_rich_enough() {
    let books = books();
    let tally = tally(&books);
    assert!(books.len() >= 5_000 && file::join(&books).len() < 1_100_000);
    assert!(tally[&0] >= 1_500 && tally[&8] >= 1_500 && tally[&7] >= 200);
    assert_eq!(tally[&1], 1);
    for number in 2..=6 {
        assert!(tally[&number] >= 15, "refusal {number}");
    }
    assert!(books.iter().filter(|book| book.len() > 15_000).count() <= 4);
}

#[test]
fn the_books_are_the_same_at_every_call() {
    assert_eq!(books(), books());
}

#[test]
fn the_books_by_chance_are_accepted() {
    for book in walk::books() {
        assert!(matches!(check(&book), Verdict::Accepted { .. }));
    }
}

/// The kind of a step's record.
fn kind(step: Step) -> u8 {
    walk::step_record(step)[0]
}

/// Calls `see` with each step of a block up to the one that is stuck or breaks, the state before
/// it and what its rule says.
fn trace(book: &Book, block: usize, mut see: impl FnMut(&State, Step, Outcome)) {
    let rules = Rules::new(book);
    let mut state = rules.start(book.blocks[block].bound);
    for &step in &book.blocks[block].steps {
        let before = state;
        let outcome = rules.step(&mut state, step);
        see(&before, step, outcome);
        if outcome != Outcome::Passes {
            return;
        }
    }
}

/// Whether the book is accepted, the kind of a step, whether P is high there, what its rule says.
type Seen = (bool, u8, bool, Outcome);

/// All that happens to steps in books which are accepted or refused 8.
fn seen() -> HashMap<Seen, usize> {
    let mut seen = HashMap::new();
    for bytes in books() {
        let accepted = match check(&bytes) {
            Verdict::Accepted { .. } => true,
            Verdict::Refused { number: 8, .. } => false,
            Verdict::Refused { .. } => continue,
        };
        let book = book::read(&bytes).unwrap();
        for block in 0..book.blocks.len() {
            trace(&book, block, |state, step, outcome| {
                let happened = (accepted, kind(step), state.p > book.c, outcome);
                *seen.entry(happened).or_insert(0) += 1;
            });
        }
    }
    seen
}

#[test]
fn every_kind_of_step_passes_breaks_and_is_stuck_where_it_can() {
    let seen = seen();
    let often = |happened: Seen| seen.get(&happened).copied().unwrap_or(0);
    for kind in 64..=75 {
        assert!(often((true, kind, true, Outcome::Passes)) >= 100, "{kind}");
        assert!(often((true, kind, false, Outcome::Passes)) >= 100, "{kind}");
        let can_break = [67, 68, 69, 70, 71, 73, 74, 75].contains(&kind);
        let broken = often((false, kind, true, Outcome::Breaks));
        assert_eq!(broken >= 100, can_break, "{kind}");
        assert_eq!(broken == 0, !can_break, "{kind}");
        let can_stick = [70, 71, 72].contains(&kind);
        let stuck = often((true, kind, true, Outcome::Stuck));
        assert_eq!(stuck >= 100, can_stick, "{kind}");
        assert_eq!(stuck == 0, !can_stick, "{kind}");
        let low_stuck = often((true, kind, false, Outcome::Stuck));
        assert_eq!(low_stuck >= 100, kind == 72, "{kind}");
        let low_broken = often((false, kind, false, Outcome::Breaks));
        assert_eq!(low_broken >= 100, kind == 68, "{kind}");
    }
}

#[test]
fn steps_stand_behind_stuck_ones() {
    let mut behind = BTreeSet::new();
    for bytes in [stuck::books(), super::choose::books()].concat() {
        let Ok(book) = book::read(&bytes) else {
            continue;
        };
        let mut place = 0;
        trace(&book, 0, |_, _, outcome| {
            place += 1;
            if outcome == Outcome::Stuck {
                let rest = &book.blocks[0].steps[place..];
                behind.extend(rest.iter().map(|&step| kind(step)));
            }
        });
    }
    for kind in [67, 68, 69, 70, 71, 73, 74, 75] {
        assert!(behind.contains(&kind), "{kind}");
    }
}

#[test]
fn long_blocks_are_accepted() {
    let long = walk::books()
        .iter()
        .filter(|book| has_long_block(book))
        .count();
    assert!(long >= 10);
}

/// Whether 64 steps in a row pass with P above C.
fn has_long_block(bytes: &Bytes) -> bool {
    let book = book::read(bytes).unwrap();
    (0..book.blocks.len()).any(|block| {
        let mut high = 0;
        trace(&book, block, |state, _, outcome| {
            high += usize::from(state.p > book.c && outcome == Outcome::Passes);
        });
        high == 64
    })
}

/// The block and the number of the first step that breaks its rule.
fn first_fault(bytes: &Bytes) -> Option<(usize, usize)> {
    let book = book::read(bytes).ok()?;
    let breaks = |block| first_break(Rules::new(&book), &book.blocks[block]);
    let mut blocks = 0..book.blocks.len();
    blocks.find_map(|block| Some((block, breaks(block)?)))
}

#[test]
fn faults_lie_in_first_middle_and_last_places() {
    let books = places::books();
    let places: BTreeSet<_> = books.iter().filter_map(first_fault).collect();
    for block in [0, 2, 3] {
        for step in 0..5 {
            assert!(places.contains(&(block, step)), "{block} {step}");
        }
    }
    assert!(places.contains(&(0, 63)) && places.iter().any(|&(block, _)| block == 63));
}
