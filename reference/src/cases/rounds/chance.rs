//! Books by chance.

use super::before::SORTS;
use super::Round;
use crate::cases::generate::dice::Dice;
use crate::cases::runs::at_bound;
use crate::cases::runs::chance::any_book;
use crate::cases::runs::lively::Most;

const SMALL: Most = Most::new(4, 4, 10).with_choose();
const LARGE: Most = Most::new(8, 12, 40).with_choose();

pub fn rounds() -> Vec<Round> {
    let mut dice = Dice::new(0x5EED_0080);
    let mut rounds = Vec::new();
    for number in 0..400 {
        let most = if number % 8 == 7 { LARGE } else { SMALL };
        let book = any_book(&mut dice, number, most);
        let turns = match dice.below(8) {
            0 => 4_090 + dice.below(7),
            1 | 2 => dice.below(600),
            _ => dice.below(50),
        };
        let launch = dice.pick(&[at_bound(&book), None]);
        let round = Round::new(book, turns as u32).with_launch(launch);
        let spare = round.with_answers(turns + number % 3);
        rounds.push(spare.with_before(dice.pick(&SORTS)));
    }
    rounds
}
