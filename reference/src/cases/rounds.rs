//! The test rounds: a book, a launch label or none, a number of turns, and the lent buffers, how long
//! they are and what they hold before. They are the same at every call.

mod before;
mod blocked;
mod chance;
pub mod file;
mod full;
mod launch;
mod refused;
mod ring;
mod samples;
#[cfg(test)]
pub(crate) mod tests;
mod turns;

pub use before::Before;

use crate::cases::generate::Bytes;
use crate::cases::runs::{at_bound, events};
use crate::model::machine::{
    Chooser, Lent, Ran, RoundOutcome, Rounded, Rounder, Runner, CELLS_SIZE, JOBS_SIZE, MOST_TURNS,
};

/// A test round. The lengths are those of the cell table, the job table and the answer buffer, in
/// bytes. The launch label is any number of 32 bits but the greatest, which stands for none in a
/// file.
#[derive(Clone, Debug, PartialEq, Eq)]
pub struct Round {
    pub book: Bytes,
    pub launch: Option<u32>,
    pub turns: u32,
    pub lengths: [usize; 3],
    pub before: Before,
}

/// The lengths never exceed these.
pub const LONGEST: [usize; 3] = [1_024, 4_096, 70_000];

impl Round {
    /// A round at block 0's bound, with tables of the right length and an answer byte for each turn,
    /// or for the most turns there may be.
    pub fn new(book: Bytes, turns: u32) -> Round {
        let launch = at_bound(&book);
        let answers = turns.min(MOST_TURNS) as usize;
        Round {
            book,
            launch,
            turns,
            lengths: [CELLS_SIZE, JOBS_SIZE, answers],
            before: Before::Byte(0xA5),
        }
    }

    /// The same with this launch label, or with none.
    pub fn with_launch(&self, launch: Option<u32>) -> Round {
        Round {
            launch,
            ..self.clone()
        }
    }

    /// The same with other lengths.
    pub fn with(&self, lengths: [usize; 3]) -> Round {
        Round {
            lengths,
            ..self.clone()
        }
    }

    /// The same with so many answer bytes.
    pub fn with_answers(&self, answers: usize) -> Round {
        let [cells, jobs, _] = self.lengths;
        self.with([cells, jobs, answers])
    }

    /// The same with buffers that hold something else before.
    pub fn with_before(&self, before: Before) -> Round {
        Round {
            before,
            ..self.clone()
        }
    }

    /// The buffers that are lent.
    pub fn lent(&self) -> Lent {
        self.before.lent(self.lengths)
    }
}

/// What a round gives, and the buffers behind it.
pub type Side = (RoundOutcome, Lent);

pub fn outcome(rounder: Rounder, round: &Round) -> Side {
    let mut lent = round.lent();
    let outcome = rounder(&round.book, round.launch, round.turns, &mut lent);
    (outcome, lent)
}

/// The same, with the jobs that were chosen; of a refused round there are none.
pub fn chosen(chooser: Chooser, round: &Round) -> (Side, Vec<u8>) {
    let mut lent = round.lent();
    match chooser(&round.book, round.launch, round.turns, &mut lent) {
        Ok((rounded, jobs)) => ((Ok(rounded), lent), jobs),
        Err(refusal) => ((Err(refusal), lent), vec![]),
    }
}

/// "The round equals the run on the list of steps that it chose": what that run gives, with so many
/// turns as there are steps.
pub fn outcome_of_steps(runner: Runner, round: &Round, jobs: &[u8]) -> Side {
    let list: Bytes = jobs.iter().flat_map(|&job| events::step(job)).collect();
    let mut lent = round.lent();
    let ran = runner(&round.book, round.launch, &list, &mut lent);
    let turns = jobs.len();
    let outcome = ran.map(|Ran { cells, jobs }| Rounded { cells, jobs, turns });
    (outcome, lent)
}

/// All test rounds, in the order in which they stand in the file.
pub fn all() -> Vec<Round> {
    let parts = [
        samples::rounds(),
        turns::rounds(),
        ring::rounds(),
        blocked::rounds(),
        full::rounds(),
        launch::rounds(),
        refused::rounds(),
        before::rounds(),
        chance::rounds(),
    ];
    parts.concat()
}
