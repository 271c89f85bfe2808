//! "Sample books" with few turns, at the bound and without a launch label. Some of them the check
//! refuses.

use super::Round;
use crate::cases::generate::samples;

pub fn rounds() -> Vec<Round> {
    let mut rounds = Vec::new();
    for book in samples::books() {
        for turns in 0..7 {
            let round = Round::new(book.clone(), turns);
            let spare = round.with_answers(turns as usize + 3);
            rounds.extend([spare.with_launch(None), round, spare]);
        }
    }
    rounds
}
