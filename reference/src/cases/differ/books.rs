//! Books by chance.

use super::LIVELY;
use crate::cases::check_books::{change, walk};
use crate::cases::generate::dice::Dice;
use crate::cases::generate::valid::{self, size, Size};
use crate::cases::generate::{chance, Bytes};
use crate::cases::runs::lively;

const SMALL: Size = size(8, 4, 3, 12).with_choose();
const LARGE: Size = size(32, 32, 12, 64).with_choose();

/// Books without end, the same for the same seed, which must not be 0. They are accepted, near to
/// that, readable, or damaged.
pub fn books(seed: u64) -> impl Iterator<Item = Bytes> {
    let mut dice = Dice::new(seed);
    (0..).map(move |number| any_book(&mut dice, number))
}

fn any_book(dice: &mut Dice, number: usize) -> Bytes {
    let size = match dice.below(64) {
        0 => LARGE,
        _ => SMALL,
    };
    match number % 8 {
        0 => walk::draft(dice, size).concat(),
        1 | 2 => change::changed(dice, size),
        3 => change::broken(dice, size),
        4 => valid::draft(dice, size).concat(),
        5 => chance::any_book(dice),
        6 => crowded(dice),
        _ => lively::book(dice, LIVELY),
    }
}

/// A book with one record many times over, seldom so long that it is refused for it.
fn crowded(dice: &mut Dice) -> Bytes {
    let mut records = walk::draft(dice, SMALL);
    let chosen = dice.below(records.len());
    let count = match dice.below(500) {
        0 => 32_800 / records[chosen].len(),
        _ => dice.below(70),
    };
    let copies = vec![records[chosen].clone(); count];
    records.splice(chosen..chosen, copies);
    records.concat()
}

#[cfg(test)]
mod tests {
    use super::*;
    use crate::cases::check_books::choices::{met, Met};
    use crate::model::typing::{check, Verdict};
    use std::collections::BTreeMap;

    /// How often each refusal number is given, 0 standing for none.
    fn tally(count: usize) -> [usize; 9] {
        let mut tally = [0; 9];
        for book in books(1).take(count) {
            tally[match check(&book) {
                Verdict::Accepted { .. } => 0,
                Verdict::Refused { number, .. } => usize::from(number),
            }] += 1;
        }
        tally
    }

    #[test]
    fn every_verdict_is_there() {
        let tally = tally(20_000);
        assert!(tally.iter().all(|&count| count > 0), "{tally:?}");
        assert!(tally[0] > 3_000 && tally[8] > 3_000, "{tally:?}");
    }

    /// In 20,000 books chooses pass at high P and at low, and are refused for each cause alone.
    #[test]
    fn chooses_of_every_sort_are_met() {
        let mut tally: BTreeMap<Met, usize> = BTreeMap::new();
        for met in books(1).take(20_000).flat_map(|book| met(&book)) {
            *tally.entry(met).or_insert(0) += 1;
        }
        println!("{tally:?}");
        assert_eq!(tally.len(), 7);
        assert!(tally.values().all(|&count| count >= 100), "{tally:?}");
    }
}
