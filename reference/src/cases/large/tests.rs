//! What the books for measuring must hold.

use super::*;
use crate::model::book;
use crate::model::typing::{check, Outcome, Rules, Verdict};
use std::collections::BTreeSet;

const FULL: Verdict = Verdict::Accepted {
    shapes: 32,
    cells: 32,
    blocks: 64,
    steps: 4_096,
};

#[test]
fn the_full_book_is_the_largest_and_accepted() {
    assert_eq!(full_book().len(), 25_057);
    assert_eq!(check(&full_book()), FULL);
    assert!(all_steps_are_high(&full_book()));
}

#[test]
fn the_mixed_book_is_accepted() {
    assert_eq!(check(&mixed_book()), FULL);
    assert!(all_steps_are_high(&mixed_book()));
}

#[test]
fn the_mixed_book_has_all_kinds_of_steps_but_choose() {
    let book = book::read(&mixed_book()).unwrap();
    let steps = book.blocks.iter().flat_map(|block| &block.steps);
    let kinds: BTreeSet<_> = steps
        .map(std::mem::discriminant)
        .map(|d| format!("{d:?}"))
        .collect();
    assert_eq!(kinds.len(), 11);
}

/// Whether P is above C at every step, and none is stuck.
fn all_steps_are_high(bytes: &[u8]) -> bool {
    let book = book::read(bytes).unwrap();
    let rules = Rules::new(&book);
    book.blocks.iter().all(|block| {
        let mut state = rules.start(block.bound);
        let mut steps = block.steps.iter();
        steps.all(|&step| {
            let high = state.p > book.c;
            high && rules.step(&mut state, step) == Outcome::Passes
        })
    })
}
