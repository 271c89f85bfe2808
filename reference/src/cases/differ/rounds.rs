//! Rounds by chance.

use super::{any_launch, any_lengths, change, LIVELY};
use crate::cases::check_books::scene::{Scene, Value};
use crate::cases::generate::dice::Dice;
use crate::cases::generate::records::{choose, exec, lower, name, put, start};
use crate::cases::generate::Bytes;
use crate::cases::rounds::{Before, Round};
use crate::cases::runs::at_bound;
use crate::cases::runs::chance::any_book;
use crate::cases::runs::lively::Most;

/// How large some of the books are.
const LARGE: Most = Most::new(8, 12, 40).with_choose();

/// No answer buffer is longer unless its length is changed.
const MOST_ANSWERS: u32 = 5_000;

/// Rounds without end, the same for the same seed, which must not be 0.
pub fn rounds(seed: u64) -> impl Iterator<Item = Round> {
    let mut dice = Dice::new(seed);
    (0..).map(move |number| any_round(&mut dice, number))
}

/// Mostly a round that is not refused.
fn any_round(dice: &mut Dice, number: usize) -> Round {
    let mut book = match dice.below(16) {
        0 => any_book(dice, number, LARGE),
        1..=7 => any_book(dice, number, LIVELY),
        _ => busy_book(dice),
    };
    let launch = any_launch(dice, at_bound(&book).unwrap_or_default());
    if dice.below(40) == 0 {
        change(dice, &mut book);
    }
    let turns = any_turns(dice);
    let spare = dice.below(3);
    let round = Round::new(book, turns)
        .with_launch(launch)
        .with_before(any_before(dice))
        .with_answers(turns.min(MOST_ANSWERS) as usize + spare);
    match dice.below(40) {
        0 => round.with(any_lengths(dice, round.lengths)),
        _ => round,
    }
}

/// The cells of a busy book, and the register that names one.
const CELLS: u8 = 3;
const NAMED: u8 = 7;

/// A book whose jobs start many others and are seldom blocked.
fn busy_book(dice: &mut Dice) -> Bytes {
    let mut scene = Scene::new(dice.byte_below(15));
    let shape = scene.plain_cell(2);
    let blocks = 1 + dice.below(6);
    for _ in 0..CELLS {
        let code = Value::Code(dice.byte_below(blocks));
        scene.declare(shape, dice.byte_below(16), code);
    }
    for _ in 0..blocks {
        let count = dice.below(14);
        let steps: Vec<Bytes> = (0..count).map(|_| busy_step(dice, blocks)).collect();
        scene.block(dice.byte_below(16), &steps);
    }
    scene.book()
}

/// A step, or two of which the second executes a cell.
fn busy_step(dice: &mut Dice, blocks: usize) -> Bytes {
    let r = dice.byte_below(NAMED.into());
    let [one, two] = [0; 2].map(|_| dice.byte_below(blocks));
    match dice.below(40) {
        0..=23 => put(r, dice.below(2) as u32),
        24..=31 => start(one),
        32..=34 => choose(r, one, two),
        35..=37 => [name(NAMED, dice.byte_below(CELLS.into())), exec(NAMED)].concat(),
        38 => lower(dice.byte_below(16)),
        // It is blocked, for the register is plain.
        _ => exec(r),
    }
}

/// Mostly few, some about the most that there may be, seldom any number.
fn any_turns(dice: &mut Dice) -> u32 {
    match dice.below(40) {
        0..=28 => dice.below(60) as u32,
        29..=34 => dice.below(600) as u32,
        35..=37 => 4_090 + dice.below(7) as u32,
        38 => 4_096 + dice.below(4) as u32,
        _ => dice.number(),
    }
}

fn any_before(dice: &mut Dice) -> Before {
    match dice.below(4) {
        0 => Before::Byte(dice.byte()),
        1 => Before::Places,
        2 => Before::Busy,
        _ => Before::Byte(0xA5),
    }
}

#[cfg(test)]
mod tests {
    use super::*;
    use crate::cases::rounds::tests::assert_fair;
    use crate::cases::rounds::{chosen, outcome};
    use crate::model::machine::fast;
    use std::collections::BTreeMap;

    #[test]
    fn rounds_by_chance_are_fair() {
        rounds(1).take(4_000).for_each(|round| assert_fair(&round));
    }

    #[test]
    fn every_refusal_is_met() {
        let mut tally = BTreeMap::new();
        for round in rounds(1).take(4_000) {
            let refusal = outcome(fast::round, &round).0.err();
            let number = refusal.map_or(0, |refusal| refusal.number);
            *tally.entry(number).or_insert(0) += 1;
        }
        println!("{tally:?}");
        for number in [0, 2, 3, 5, 6, 10, 11, 14, 15] {
            assert!(tally.get(&number).is_some_and(|&count| count >= 5));
        }
        assert!(tally[&0] >= 3_000);
    }

    /// In how many of 4,000 rounds: more than one job has turns, 64 jobs are in use, the last turn is
    /// used, it ends early, the answers have a blocked step, and 4,000 turns are used.
    #[test]
    fn rounds_of_every_sort_are_met() {
        let mut met = [0; 6];
        for round in rounds(1).take(4_000) {
            let ((outcome, [_, _, answers]), jobs) = chosen(fast::chosen, &round);
            let Ok(rounded) = outcome else {
                continue;
            };
            let early = rounded.turns < round.turns as usize;
            let holds = [
                jobs.iter().any(|&job| job > 0),
                rounded.jobs == 64,
                !early,
                early,
                answers[..rounded.turns].contains(&1),
                rounded.turns >= 4_000,
            ];
            for (count, holds) in met.iter_mut().zip(holds) {
                *count += usize::from(holds);
            }
        }
        println!("{met:?} of 4,000 rounds");
        assert!(met.iter().all(|&count| count >= 20), "{met:?}");
    }
}
