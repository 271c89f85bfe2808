//! Runs, rounds, books and tables by chance, for comparing two implementations.

mod books;
mod rounds;
mod tables;

pub use books::books;
pub use rounds::rounds;
pub use tables::tables;

use crate::cases::generate::dice::Dice;
use crate::cases::generate::Bytes;
use crate::cases::runs::chance::{any_book, events};
use crate::cases::runs::lively::Most;
use crate::cases::runs::{at_bound, outcome, Run, LONGEST};
use crate::model::machine::{self, Lent, Outcome, Runner};

/// A run on which the two differ, its number from 0, and what each gives.
#[derive(Debug)]
pub struct Difference {
    pub number: usize,
    pub run: Run,
    pub one: (Outcome, Lent),
    pub other: (Outcome, Lent),
}

/// Runs without end, the same for the same seed, which must not be 0.
pub(crate) fn runs(seed: u64) -> impl Iterator<Item = Run> {
    let mut dice = Dice::new(seed);
    (0..).map(move |number| any_run(&mut dice, number))
}

/// The first difference in so many runs. What both give on a run before it goes to `same`. The seed
/// must not be 0.
pub fn differ(
    seed: u64,
    count: usize,
    one: Runner,
    other: Runner,
    mut same: impl FnMut(&(Outcome, Lent)),
) -> Option<Difference> {
    let mut runs = runs(seed).take(count).enumerate();
    runs.find_map(|(number, run)| {
        let (one, other) = (outcome(one, &run), outcome(other, &run));
        if one == other {
            same(&one);
            return None;
        }
        Some(Difference {
            number,
            run,
            one,
            other,
        })
    })
}

/// A run that keeps its answers for itself: a wrong one, for tests that a difference is found.
pub fn forgetful(book: &[u8], launch: Option<u32>, events: &[u8], lent: &mut Lent) -> Outcome {
    let answers = lent[2].clone();
    let outcome = machine::run(book, launch, events, lent);
    lent[2] = answers;
    outcome
}

/// How large the lively books are.
const LIVELY: Most = Most::new(6, 5, 12).with_choose();

/// Mostly a run that is not refused.
fn any_run(dice: &mut Dice, number: usize) -> Run {
    let mut book = any_book(dice, number, LIVELY);
    let launch = any_launch(dice, at_bound(&book).unwrap_or_default());
    let count = match dice.below(20) {
        0 => dice.below(400),
        _ => dice.below(60),
    };
    let mut events = events(dice, &book, launch, count);
    match dice.below(40) {
        0 => change(dice, &mut events),
        1 => change(dice, &mut book),
        _ => {}
    }
    let run = Run::new(book, events).with_launch(launch);
    match dice.below(40) {
        0 => run.with(any_lengths(dice, run.lengths)),
        _ => run.with_spare(dice.below(3)),
    }
}

/// None in a third of the runs; else mostly the bound or a label up to it, seldom the next above
/// it, or a number that is no label, though its low byte may be one.
fn any_launch(dice: &mut Dice, bound: u32) -> Option<u32> {
    match dice.below(30) {
        0..=9 => None,
        10..=19 => Some(bound),
        20..=27 => Some(dice.below(bound as usize + 1) as u32),
        28 => Some(bound + 1),
        _ => Some(dice.pick(&[16, 255, 256, 0x0100_0000 + bound, u32::MAX - 1])),
    }
}

/// A byte changed, removed or put in, or the end cut off.
fn change(dice: &mut Dice, bytes: &mut Bytes) {
    let place = dice.below(bytes.len() + 1);
    match dice.below(4) {
        0 => bytes.truncate(place),
        1 => bytes.insert(place, dice.byte()),
        2 if place < bytes.len() => bytes[place] = dice.byte(),
        _ if place < bytes.len() => drop(bytes.remove(place)),
        _ => {}
    }
}

/// The lengths with one of them changed.
fn any_lengths(dice: &mut Dice, mut lengths: [usize; 3]) -> [usize; 3] {
    let which = dice.below(3);
    lengths[which] = match dice.below(3) {
        0 => lengths[which].saturating_sub(1),
        1 => lengths[which] + 1,
        _ => dice.below(LONGEST[which]),
    };
    lengths
}

#[cfg(test)]
mod tests {
    use super::*;
    use crate::cases::runs::choices::{choices, Choice};
    use crate::cases::runs::sums::{play, TOP};
    use crate::model::book::{read, Book};
    use crate::model::machine::{check_launch, fast, Datum, Why};

    #[test]
    fn the_two_machines_do_not_differ() {
        assert!(differ(1, 5_000, machine::run, fast::run, |_| {}).is_none());
    }

    #[test]
    fn a_difference_is_found() {
        let found = differ(1, 50, machine::run, forgetful, |_| {}).unwrap();
        assert_eq!(found.one.0, found.other.0);
        assert_ne!(found.one.1, found.other.1);
    }

    /// In 5,000 runs the greatest sum that fits, the least that does not, and greater ones.
    #[test]
    fn sums_about_the_top_are_met() {
        let mut met = [0; 3];
        for run in runs(1).take(5_000) {
            let (_, sums) = play(&run);
            let any = |holds: fn(u64) -> bool| sums.iter().any(|&sum| holds(sum));
            met[0] += usize::from(any(|sum| sum == TOP - 1));
            met[1] += usize::from(any(|sum| sum == TOP));
            met[2] += usize::from(any(|sum| sum > TOP));
        }
        println!("{met:?} of 5,000 runs");
        assert!(met.iter().all(|&count| count >= 20), "{met:?}");
    }

    /// In how many of so many runs a choose is done or blocked: it takes the first block, the
    /// second, the first or the second by a value that a lower hand has touched, it looks at a cell,
    /// at code, and no job fits.
    fn met_choices(count: usize) -> [usize; 7] {
        let mut met = [0; 7];
        for run in runs(1).take(count) {
            let choices = choices(&run);
            let any = |holds: fn(&Choice) -> bool| usize::from(choices.iter().any(holds));
            met[0] += any(|one| one.first());
            met[1] += any(|one| one.second());
            met[2] += any(|one| one.first() && one.touched);
            met[3] += any(|one| one.second() && one.touched);
            met[4] += any(|one| matches!(one.seen, Datum::Cell(_)));
            met[5] += any(|one| matches!(one.seen, Datum::Code(_)));
            met[6] += any(|one| one.why == Some(Why::Full));
        }
        met
    }

    #[test]
    fn chooses_are_met() {
        let met = met_choices(20_000);
        println!("{met:?} of 20,000 runs");
        assert!(met.iter().all(|&count| count >= 10), "{met:?}");
    }

    /// In how many of 5,000 runs it holds of the launch and the book, if that can be read.
    fn met(holds: impl Fn(Option<u32>, &Book) -> bool) -> usize {
        let so = |run: &Run| read(&run.book).is_ok_and(|book| holds(run.launch, &book));
        runs(1).take(5_000).filter(so).count()
    }

    #[test]
    fn every_kind_of_launch_is_met() {
        let none = met(|launch, _| launch.is_none());
        let below = met(|launch, book| launch.is_some_and(|label| label < book.bound().into()));
        let bound = met(|launch, book| launch == Some(book.bound().into()));
        let odd = met(|launch, _| launch.is_some_and(|label| label > 16));
        println!("none {none}, below the bound {below}, the bound {bound}, no label {odd}");
        assert!(none >= 1_000 && below >= 700 && bound >= 1_500 && odd >= 50);
    }

    #[test]
    fn launches_about_c_are_met_and_those_that_are_refused() {
        let low = met(|launch, book| check_launch(book, launch).is_ok_and(|label| label <= book.c));
        let high = met(|launch, book| check_launch(book, launch).is_ok_and(|label| label > book.c));
        let refused = |run: &Run| matches!(outcome(machine::run, run).0, Err(r) if r.number == 14);
        let refused = runs(1).take(5_000).filter(refused).count();
        println!("at or below C {low}, above {high}, refused by 14 {refused}");
        assert!(low >= 1_000 && high >= 1_000 && refused >= 150);
    }
}
