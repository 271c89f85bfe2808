//! The test runs: a book, a list of events, the lengths of the lent buffers, and a launch label or
//! none. They are the same at every call.

mod again;
pub(crate) mod chance;
#[cfg(test)]
pub(crate) mod choices;
pub(crate) mod choose;
pub(crate) mod events;
mod fields;
pub mod file;
mod full;
mod hands;
mod labels;
pub(crate) mod launch;
pub(crate) mod lively;
mod long;
pub(crate) mod refused;
mod samples;
#[cfg(test)]
pub(crate) mod sums;
#[cfg(test)]
mod tests;
mod top;

use crate::cases::generate::Bytes;
use crate::model::book;
use crate::model::machine::{event, Lent, Outcome, Runner, CELLS_SIZE, JOBS_SIZE};

/// A test run. The lengths are those of the cell table, the job table and the answer buffer, in
/// bytes. The launch label is any number of 32 bits but the greatest, which stands for none in a
/// file.
#[derive(Clone, Debug, PartialEq, Eq)]
pub struct Run {
    pub book: Bytes,
    pub events: Bytes,
    pub lengths: [usize; 3],
    pub launch: Option<u32>,
}

/// The lengths never exceed these.
pub const LONGEST: [usize; 3] = [1_024, 4_096, 32_800];

impl Run {
    /// A run at block 0's bound, with tables of the right length and an answer byte for each event.
    pub fn new(book: Bytes, events: Bytes) -> Run {
        let count = event::split(&events).map_or(8, |events| events.len());
        let lengths = [CELLS_SIZE, JOBS_SIZE, count];
        let launch = at_bound(&book);
        Run {
            book,
            events,
            lengths,
            launch,
        }
    }

    /// The same with this launch label, or with none.
    pub fn with_launch(&self, launch: Option<u32>) -> Run {
        Run {
            launch,
            ..self.clone()
        }
    }

    /// The same with other lengths.
    pub fn with(&self, lengths: [usize; 3]) -> Run {
        Run {
            lengths,
            ..self.clone()
        }
    }

    /// The same with more answer bytes than events.
    pub fn with_spare(&self, spare: usize) -> Run {
        let [cells, jobs, answers] = self.lengths;
        self.with([cells, jobs, answers + spare])
    }
}

/// The bound of block 0 as a launch label; none if the book cannot be read.
pub fn at_bound(book: &[u8]) -> Option<u32> {
    book::bound(book).map(u32::from)
}

/// What the lent buffers hold before a run.
const BEFORE: u8 = 0xA5;

/// What a run gives, and the buffers behind it.
pub fn outcome(runner: Runner, run: &Run) -> (Outcome, Lent) {
    let mut lent = run.lengths.map(|length| vec![BEFORE; length]);
    let outcome = runner(&run.book, run.launch, &run.events, &mut lent);
    (outcome, lent)
}

/// All test runs, in the order in which they stand in the file.
pub fn all() -> Vec<Run> {
    let parts = [
        samples::runs(),
        fields::runs(),
        hands::runs(),
        labels::runs(),
        full::runs(),
        again::runs(),
        top::runs(),
        chance::runs(),
        refused::runs(),
        long::runs(),
        launch::runs(),
        choose::runs(),
    ];
    parts.concat()
}
