//! Rounds launched at every label, above the bound, and without one: the books are those of the runs.

use super::Round;
use crate::cases::runs::launch::{every_label, other_bounds};
use crate::cases::runs::Run;

pub fn rounds() -> Vec<Round> {
    let runs = [every_label(), other_bounds()].concat();
    let round = |(turn, run): (usize, Run)| {
        let turns = [30, 5, 12][turn % 3];
        Round::new(run.book, turns).with_launch(run.launch)
    };
    runs.into_iter().enumerate().map(round).collect()
}
