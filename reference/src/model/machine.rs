//! "The machine" of document 01, amended by 02, Two to Four: a run of a readable book on a list of
//! events, refusals 9 to 11 and 14, and the tables that a run leaves. And the round of 02, Six, with
//! refusal 15.

mod acts;
mod cause;
pub mod event;
pub mod fast;
mod history;
mod launch;
mod outsider;
mod round;
mod state;
mod steps;
mod tables;
#[cfg(test)]
mod tests;

pub use cause::{Cause, Why};
pub use history::History;
pub use launch::check_launch;
pub use round::{chosen, round, Chooser, Chosen, RoundOutcome, Rounded, Rounder, MOST_TURNS};
pub use state::{Actor, Cell, Datum, Job, Machine, Value};
pub use tables::{CELLS_SIZE, CELL_SIZE, JOBS_SIZE, JOB_SIZE};

use crate::model::book::{self, refuse, Book, Refusal};
use event::Event;

/// "The tables only grow, to 64 cells and 64 jobs in a run."
pub const TABLE: usize = 64;

/// "The run's result gives the cells and jobs in use."
#[derive(Clone, Copy, Debug, PartialEq, Eq)]
pub struct Ran {
    pub cells: usize,
    pub jobs: usize,
}

/// What a run answers. On a refusal nothing is written.
pub type Outcome = Result<Ran, Refusal>;

/// The lent buffers: the cell table, the job table, the answers.
pub type Lent = [Vec<u8>; 3];

/// How a book is run: `run`, or another implementation.
pub type Runner = fn(&[u8], Option<u32>, &[u8], &mut Lent) -> Outcome;

/// Runs a book on a list of events, both as bytes. The launch label, if one is given, is any number
/// of 32 bits.
pub fn run(book: &[u8], launch: Option<u32>, events: &[u8], lent: &mut Lent) -> Outcome {
    run_by(book, launch, events, lent, |machine, event| {
        machine.take(event).answer()
    })
}

/// The same with what takes an event and answers it. Only tests have another.
pub(crate) fn run_by(
    book: &[u8],
    launch: Option<u32>,
    events: &[u8],
    [cells, jobs, answers]: &mut Lent,
    mut take: impl FnMut(&mut Machine, Event) -> u8,
) -> Outcome {
    let (book, events) = admitted(book, events)?;
    check_tables(cells, jobs)?;
    check_answers(answers, events.len())?;
    let mut machine = Machine::new(&book, check_launch(&book, launch)?);
    for (answer, event) in answers.iter_mut().zip(events) {
        *answer = take(&mut machine, event);
    }
    tables::write(&machine, cells, jobs);
    Ok(machine.in_use())
}

/// Refusals 1 to 6 of the book, then 9 of the list.
pub fn admitted(book: &[u8], events: &[u8]) -> Result<(Book, Vec<Event>), Refusal> {
    Ok((book::read(book)?, event::split(events)?))
}

/// Refusal 10: "The cell or job table has not exactly 64 entries."
fn check_tables(cells: &[u8], jobs: &[u8]) -> Result<(), Refusal> {
    if cells.len() != CELLS_SIZE || jobs.len() != JOBS_SIZE {
        return refuse(10, 0);
    }
    Ok(())
}

/// Refusal 11: "The answer buffer has fewer bytes than the list has events."
fn check_answers(answers: &[u8], events: usize) -> Result<(), Refusal> {
    if answers.len() < events {
        return refuse(11, 0);
    }
    Ok(())
}
