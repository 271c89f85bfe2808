//! The same round for measuring.

use super::super::round::{check_round, Chosen, RoundOutcome, Rounded};
use super::{Fast, Lent, DONE, TABLE};
use crate::model::book;

/// As `machine::round`.
pub fn round(book: &[u8], launch: Option<u32>, turns: u32, lent: &mut Lent) -> RoundOutcome {
    round_by(book, launch, turns, lent, |_| {})
}

/// As `machine::chosen`.
pub fn chosen(book: &[u8], launch: Option<u32>, turns: u32, lent: &mut Lent) -> Chosen {
    let mut chosen = Vec::new();
    let rounded = round_by(book, launch, turns, lent, |job| chosen.push(job as u8))?;
    Ok((rounded, chosen))
}

/// Calls `choose` with the job of each turn.
#[inline]
fn round_by(
    book: &[u8],
    launch: Option<u32>,
    turns: u32,
    lent: &mut Lent,
    choose: impl FnMut(usize),
) -> RoundOutcome {
    let book = book::read(book)?;
    let label = check_round(&book, launch, turns, lent)?;
    let [cells, jobs, answers] = lent;
    let mut fast = Fast::new(&book, label);
    let used = fast.turns(&mut answers[..turns as usize], choose);
    fast.store(cells, jobs);
    Ok(Rounded {
        cells: fast.cells.len(),
        jobs: fast.jobs.len(),
        turns: used,
    })
}

impl Fast<'_> {
    /// A turn for each answer, while a job has a step left. How many.
    #[inline]
    fn turns(&mut self, answers: &mut [u8], mut choose: impl FnMut(usize)) -> usize {
        // How many steps each job has left.
        let mut left = [0; TABLE];
        left[0] = self.steps_of(0);
        let mut first = 0;
        for (turn, answer) in answers.iter_mut().enumerate() {
            let in_use = self.jobs.len();
            let Some(job) = next(&left[..in_use], first) else {
                return turn;
            };
            choose(job);
            *answer = self.step(job);
            left[job] -= u8::from(*answer == DONE);
            if self.jobs.len() > in_use {
                left[in_use] = self.steps_of(in_use);
            }
            first = job + 1;
        }
        answers.len()
    }

    /// How many steps the job's block has.
    fn steps_of(&self, job: usize) -> u8 {
        let block = usize::from(self.jobs[job].block);
        self.book.blocks[block].steps.len() as u8
    }
}

/// The next job with a step left: from the first on, else from job 0.
#[inline]
fn next(left: &[u8], first: usize) -> Option<usize> {
    let has_step = |&steps: &u8| steps > 0;
    let (before, behind) = left.split_at(first);
    match behind.iter().position(has_step) {
        Some(place) => Some(first + place),
        None => before.iter().position(has_step),
    }
}
