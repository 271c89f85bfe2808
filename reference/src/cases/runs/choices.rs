//! For tests: what the chooses of a run do.

use super::Run;
use crate::model::book::Step;
use crate::model::machine::event::Event;
use crate::model::machine::{run_by, Datum, Machine, Value, Why};

/// A choose that an event lets a job try: what it looks at, whether that has a lower source than the
/// job, and why it is not done.
#[derive(Clone, Copy, Debug)]
pub struct Choice {
    pub seen: Datum,
    pub touched: bool,
    pub why: Option<Why>,
}

impl Choice {
    /// It takes the first block.
    pub fn first(&self) -> bool {
        self.why.is_none() && self.seen != Datum::Plain(0)
    }

    /// It takes the second.
    pub fn second(&self) -> bool {
        self.why.is_none() && self.seen == Datum::Plain(0)
    }
}

/// All chooses that are tried, in order; none if the run is refused.
pub fn choices(run: &Run) -> Vec<Choice> {
    let mut lent = run.lengths.map(|length| vec![0; length]);
    let mut choices = Vec::new();
    let outcome = run_by(
        &run.book,
        run.launch,
        &run.events,
        &mut lent,
        |machine, event| {
            let looked_at = looked_at(machine, event);
            let cause = machine.take(event);
            choices.extend(looked_at.map(|(value, source)| Choice {
                seen: value.datum,
                touched: value.history.source() < source,
                why: cause.why,
            }));
            cause.answer()
        },
    );
    assert!(outcome.is_ok() || choices.is_empty());
    choices
}

/// The value that the choose looks at which an event lets a job try, and the job's source.
fn looked_at(machine: &Machine, event: Event) -> Option<(Value, u8)> {
    let Event::Step { job } = event else {
        return None;
    };
    let job = machine.jobs.get(usize::from(job))?;
    match machine.book.blocks[job.block].steps.get(job.position)? {
        Step::Choose { r, .. } => Some((job.register(*r), job.history.source())),
        _ => None,
    }
}
