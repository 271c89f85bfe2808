//! The books of chooses, with numbers by hand.

use super::*;
use crate::cases::check_books::choose::{self, bounds, next_to_p, registers};
use crate::cases::check_books::scene::all_triples;

/// How many are accepted, and how many refused by 8.
fn verdicts(books: &[Bytes]) -> [usize; 2] {
    let tally = tally(books);
    assert!(tally.keys().all(|number| [0, 8].contains(number)));
    [0, 8].map(|number| tally.get(&number).copied().unwrap_or(0))
}

/// C and the block before the choose have two bytes each.
const BREAKS: Verdict = Verdict::Refused {
    number: 8,
    place: 4,
};

#[test]
fn both_bounds_count_if_p_is_above_c() {
    let books = bounds();
    assert_eq!(books.len(), all_triples().len());
    for (book, (c, [p, first, second])) in books.iter().zip(all_triples()) {
        let breaks = p > c && (first < p || second < p);
        assert_eq!(check(book) == BREAKS, breaks, "{book:?}");
        assert_eq!(matches!(check(book), Verdict::Accepted { .. }), !breaks);
    }
}

#[test]
fn one_below_p_breaks_above_c() {
    // 16 P with 3 bounds in 3 places and 2 orders. C is 3: for 12 P the bound below breaks.
    assert_eq!(verdicts(&next_to_p()), [16 * 18 - 12 * 6, 12 * 6]);
}

#[test]
fn eleven_of_21_registers_are_plain_or_low() {
    // For each of 3 C: P at C passes, with 3 pairs of bounds and after a lower. At the two P above it
    // the bounds are enough in one pair of three, and after the lower to one above C.
    let accepted = 3 * (21 * 3 + 21 + 11 * 2 + 11);
    let refused = 3 * (10 * 2 + 21 * 4 + 10);
    assert_eq!(verdicts(&registers()), [accepted, refused]);
}

/// Whatever may stand at a choose does.
#[test]
fn chooses_of_every_sort_are_there() {
    let mut tally: BTreeMap<Met, usize> = BTreeMap::new();
    for met in choose::books().iter().flat_map(|book| met(book)) {
        *tally.entry(met).or_insert(0) += 1;
    }
    println!("{tally:?}");
    assert_eq!(tally.len(), 7);
    assert!(tally.values().all(|&count| count >= 50), "{tally:?}");
}
