//! The turns of a round once more, each held against the words of 02, Six.

use crate::cases::rounds::Round;
use crate::model::book;
use crate::model::machine::{check_launch, Cause, Machine, TABLE};

/// "A job with a step left waits through at most 63 turns of others before its next."
const LONGEST_WAIT: usize = 63;

/// What is seen of a turn.
pub struct Turn {
    pub job: usize,
    /// The job of the turn before.
    pub last: Option<usize>,
    /// How many jobs the scan passed by.
    pub passed: usize,
    pub cause: Cause,
    /// The jobs in use before the step and after it.
    pub in_use: usize,
    pub then_in_use: usize,
    /// How long the job that waits longest has waited then.
    pub longest_wait: usize,
}

/// Asserts that a round which is not refused had to choose these jobs, and gives its turns.
pub fn watch(round: &Round, jobs: &[u8]) -> Vec<Turn> {
    let book = book::read(&round.book).unwrap();
    let mut machine = Machine::new(&book, check_launch(&book, round.launch).unwrap());
    let mut waits = [0; TABLE];
    let mut last = None;
    let mut turns = Vec::new();
    for &job in jobs {
        let job = usize::from(job);
        let in_use = machine.jobs.len();
        assert!(job < in_use && machine.has_step_left(job));
        let passed = passed_by(last, job, in_use);
        assert!(passed.iter().all(|&other| !machine.has_step_left(other)));
        let cause = machine.step(job);
        assert!(cause.answer() <= 1);
        for other in (0..in_use).filter(|&other| machine.has_step_left(other)) {
            waits[other] += 1;
        }
        waits[job] = 0;
        let longest_wait = waits[..in_use].iter().copied().max().unwrap_or_default();
        assert!(longest_wait <= LONGEST_WAIT);
        turns.push(Turn {
            job,
            last,
            passed: passed.len(),
            cause,
            in_use,
            then_in_use: machine.jobs.len(),
            longest_wait,
        });
        last = Some(job);
    }
    // "The call ends early only when no job has a step left".
    let asked = round.turns as usize;
    let left = (0..machine.jobs.len()).any(|job| machine.has_step_left(job));
    assert!(jobs.len() == asked || (jobs.len() < asked && !left));
    turns
}

/// The jobs between the last stepped and this one, on the ring of those in use; from job 0 on where
/// none was stepped.
fn passed_by(last: Option<usize>, job: usize, in_use: usize) -> Vec<usize> {
    let mut at = last.map_or(0, |last| (last + 1) % in_use);
    let mut passed = Vec::new();
    while at != job {
        passed.push(at);
        at = (at + 1) % in_use;
    }
    passed
}
