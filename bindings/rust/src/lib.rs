//! Checks a control job book before it runs, runs it on a list of events or in a fair round, and
//! writes books from tables.
//!
//! These are safe calls of the static library that `include/xemdulba.h` declares. What they answer
//! is proved of the library, for every input: each call returns, a book is accepted exactly when
//! the typing rules allow it, and a call that is refused writes nothing. The numbers of the
//! refusals, and the bytes of books, events and tables, are explained there.
//!
//! ```
//! // C is 3; a block with no steps.
//! let counts = xemdulba::check(&[1, 3, 48, 12])?;
//! assert_eq!(counts.blocks, 1);
//! // Job 0 is asked for a step.
//! let run = xemdulba::run(&[1, 3, 48, 12], &[80, 0], xemdulba::Settings::default())?;
//! assert_eq!(run.answers, [xemdulba::Answer::NoStepLeft]);
//! # Ok::<(), xemdulba::Refusal>(())
//! ```

#![deny(unsafe_code)]

mod answer;
mod fields;
#[allow(unsafe_code)]
mod library;
mod records;
mod rounds;
mod rows;
mod settings;
mod tables;
mod verdict;
mod writer;

pub use answer::Answer;
pub use fields::{event, record, Fields};
pub use records::{Cell, Job, Kind, Label, Trust, Value, REGISTERS};
pub use rounds::{round, round_into, Rounded, MOST_TURNS};
pub use rows::{
    BlockRow, BookTables, CellRow, ShapeRow, StepRow, BLOCK_ROW, CELL_ROW, SHAPE_ROW, STEP_ROW,
};
pub use settings::Settings;
pub use tables::{Record, Records, Tables, CELLS_SIZE, JOBS_SIZE, TABLE};
pub use verdict::{Counts, Refusal};
pub use writer::{tables, write, write_into, LONGEST_BOOK};

use std::ops::Range;

/// The version of this library.
pub const VERSION: &str = env!("CARGO_PKG_VERSION");

/// The identity of the kit that proved the library which is linked, as `rt version` prints it.
pub const KIT: &str = env!("XEMDULBA_KIT");

/// Checks a book: refused by 1 to 8, or accepted with its counts.
pub fn check(book: &[u8]) -> Result<Counts, Refusal> {
    let checked = library::check(book);
    Refusal::stated(checked.refusal, checked.place)?;
    Ok(Counts {
        shapes: checked.shapes as usize,
        cells: checked.cells as usize,
        blocks: checked.blocks as usize,
        steps: checked.steps as usize,
    })
}

/// The part of a book that a block's steps are, the block's own record not included: refused by 1
/// to 6 or 12. The book need not be accepted.
pub fn stretch(book: &[u8], block: u32) -> Result<&[u8], Refusal> {
    stretch_range(book, block).map(|range| &book[range])
}

/// Where `stretch` stands in the book.
pub fn stretch_range(book: &[u8], block: u32) -> Result<Range<usize>, Refusal> {
    let found = library::block(book, block);
    Refusal::stated(found.refusal, found.place)?;
    let start = found.start as usize;
    Ok(start..start + found.length as usize)
}

/// The bound of block 0, the highest label that a run may be launched at: refused by 1 to 6. The
/// book need not be accepted.
pub fn bound(book: &[u8]) -> Result<Label, Refusal> {
    // The bound is the last byte of the block's record, which stands just before its steps.
    let steps = stretch_range(book, 0)?;
    Ok(Label(book[steps.start - 1]))
}

/// What a run or a round gives: the cells and jobs in use, and an answer for each event or turn.
#[derive(Clone, Debug, PartialEq, Eq)]
pub struct Run {
    pub cells: Vec<Cell>,
    pub jobs: Vec<Job>,
    pub answers: Vec<Answer>,
}

impl Run {
    /// The records of lent tables, and the bytes up to the first that is no answer.
    fn of(tables: Tables, answers: Vec<u8>) -> Run {
        Run {
            cells: tables.cells.iter().collect(),
            jobs: tables.jobs.iter().collect(),
            answers: answers.into_iter().map_while(Answer::of).collect(),
        }
    }
}

/// Runs a list of events on a book from its start: refused by 1 to 6, 9 or 14. The book need not be
/// accepted. The settings say at which label job 0 is launched: by default low, and not at the
/// bound of block 0, which `bound` tells.
pub fn run(book: &[u8], events: &[u8], settings: Settings) -> Result<Run, Refusal> {
    let (mut cells, mut jobs) = ([0; CELLS_SIZE], [0; JOBS_SIZE]);
    let mut answers = vec![UNANSWERED; most_events(events)];
    let tables = run_into(book, events, settings, &mut cells, &mut jobs, &mut answers)?;
    Ok(Run::of(tables, answers))
}

/// No answer. A run leaves the bytes beyond its events as they were.
const UNANSWERED: u8 = 0xFF;

/// A longer list is refused.
const LONGEST_LIST: usize = 65_536;

/// As many events as the list can have: each has 2 bytes or more.
fn most_events(events: &[u8]) -> usize {
    events.len().min(LONGEST_LIST) / 2
}

/// As `run`, with memory that the caller lends; nothing is allocated. The tables must have
/// `CELLS_SIZE` and `JOBS_SIZE` bytes, else the run is refused by 10, and `answers` a byte for
/// each event, else by 11, both ahead of 14; bytes of `answers` beyond the events are kept. What the
/// memory held before plays no part, and a refused run writes nothing to it.
pub fn run_into<'t>(
    book: &[u8],
    events: &[u8],
    settings: Settings,
    cells: &'t mut [u8],
    jobs: &'t mut [u8],
    answers: &mut [u8],
) -> Result<Tables<'t>, Refusal> {
    let ran = library::run(book, settings.launch_number(), events, cells, jobs, answers);
    Refusal::stated(ran.refusal, ran.place)?;
    Ok(Tables::first(cells, ran.cells, jobs, ran.jobs))
}
