//! 02, Six: "A fair round".

use super::{check_answers, check_launch, check_tables, tables, Lent, Machine};
use crate::model::book::{self, refuse, Book, Refusal};

/// "a number of turns up to 4,096".
pub const MOST_TURNS: u32 = 4_096;

/// The cells and jobs in use; and the call "reports the turns used".
#[derive(Clone, Copy, Debug, PartialEq, Eq)]
pub struct Rounded {
    pub cells: usize,
    pub jobs: usize,
    pub turns: usize,
}

/// What a round answers. On a refusal nothing is written.
pub type RoundOutcome = Result<Rounded, Refusal>;

/// How a round is made: `round`, or another implementation.
pub type Rounder = fn(&[u8], Option<u32>, u32, &mut Lent) -> RoundOutcome;

/// What a round answers, with the job of each turn used.
pub type Chosen = Result<(Rounded, Vec<u8>), Refusal>;

/// As `Rounder`, with the jobs.
pub type Chooser = fn(&[u8], Option<u32>, u32, &mut Lent) -> Chosen;

/// A round of a book, so many turns. The launch label, if one is given, is any number of 32 bits.
pub fn round(book: &[u8], launch: Option<u32>, turns: u32, lent: &mut Lent) -> RoundOutcome {
    chosen(book, launch, turns, lent).map(|(rounded, _)| rounded)
}

/// The same, with the jobs that it chose.
pub fn chosen(book: &[u8], launch: Option<u32>, turns: u32, lent: &mut Lent) -> Chosen {
    let book = book::read(book)?;
    let label = check_round(&book, launch, turns, lent)?;
    let [cells, jobs, answers] = lent;
    let mut machine = Machine::new(&book, label);
    let mut chosen = Vec::new();
    while chosen.len() < turns as usize {
        let Some(job) = machine.next(chosen.last().copied()) else {
            break;
        };
        answers[chosen.len()] = machine.step(job.into()).answer();
        chosen.push(job);
    }
    tables::write(&machine, cells, jobs);
    let rounded = Rounded {
        cells: machine.cells.len(),
        jobs: machine.jobs.len(),
        turns: chosen.len(),
    };
    Ok((rounded, chosen))
}

/// Refusals 10, 11, 14 and 15 of a readable book. Gives the label of job 0.
pub fn check_round(
    book: &Book,
    launch: Option<u32>,
    turns: u32,
    [cells, jobs, answers]: &Lent,
) -> Result<u8, Refusal> {
    check_tables(cells, jobs)?;
    // "Refusal 11 here means fewer answer bytes than turns."
    check_answers(answers, turns as usize)?;
    let label = check_launch(book, launch)?;
    // "15, after 14, when the turns exceed 4,096."
    if turns > MOST_TURNS {
        return refuse(15, 0);
    }
    Ok(label)
}

impl Machine<'_> {
    /// "The next job with a step left is found by scanning the job table from the one after the
    /// last stepped, wrapping at the jobs in use; job 0 is looked at first."
    fn next(&self, last: Option<u8>) -> Option<u8> {
        let first = last.map_or(0, |job| job + 1);
        let in_use = self.jobs.len() as u8;
        let mut ring = (first..in_use).chain(0..first);
        ring.find(|&job| self.has_step_left(job.into()))
    }

    pub fn has_step_left(&self, number: usize) -> bool {
        let job = &self.jobs[number];
        job.position < self.book.blocks[job.block].steps.len()
    }
}
