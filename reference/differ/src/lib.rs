//! The verified library with the reference's answers.

mod exported;
mod told;

pub use told::{event, record};

use exported::DEFAULT_LAUNCH;
use reference::model::book::{self, Refusal};
use reference::model::machine::{Lent, Outcome, Ran, RoundOutcome, Rounded};
use reference::model::writer::{Packed, Tables};
use reference::Verdict;
use xemdulba::{Label, Settings};

pub fn check(bytes: &[u8]) -> Verdict {
    match xemdulba::check(bytes).map_err(refused) {
        Ok(counts) => Verdict::Accepted {
            shapes: counts.shapes,
            cells: counts.cells,
            blocks: counts.blocks,
            steps: counts.steps,
        },
        Err(Refusal { number, place }) => Verdict::Refused { number, place },
    }
}

/// The offset and the length of a block's stretch.
pub fn stretch(bytes: &[u8], block: usize) -> Result<(usize, usize), Refusal> {
    let block = u32::try_from(block).expect("a block's number is small");
    let range = xemdulba::stretch_range(bytes, block).map_err(refused)?;
    Ok((range.start, range.len()))
}

/// A `machine::Runner`. It allocates nothing. The launch label has to be a byte, or none.
pub fn run(
    book: &[u8],
    launch: Option<u32>,
    events: &[u8],
    [cells, jobs, answers]: &mut Lent,
) -> Outcome {
    let settings = launch.map_or(Settings::default(), |label| {
        Settings::default().launch(Label(u8::try_from(label).expect("the label is a byte")))
    });
    let tables = xemdulba::run_into(book, events, settings, cells, jobs, answers);
    let tables = tables.map_err(refused)?;
    Ok(Ran {
        cells: tables.cells.len(),
        jobs: tables.jobs.len(),
    })
}

/// As `run`, by the exported call itself, with any launch label that it can be given. What its
/// answer does not have has to be 0.
pub fn run_exported(book: &[u8], launch: Option<u32>, events: &[u8], lent: &mut Lent) -> Outcome {
    assert_ne!(launch, Some(DEFAULT_LAUNCH), "it stands for none");
    let ran = exported::run(book, launch.unwrap_or(DEFAULT_LAUNCH), events, lent);
    match (ran.refusal, ran.place, ran.cells, ran.jobs) {
        (0, 0, cells, jobs) => Ok(Ran {
            cells: cells as usize,
            jobs: jobs as usize,
        }),
        (number, place, 0, 0) if number > 0 => Err(Refusal {
            number: u8::try_from(number).expect("a refusal is at most 15"),
            place: place as usize,
        }),
        _ => panic!("no run has this answer: {ran:?}"),
    }
}

/// A `machine::Rounder`, by the exported call itself, as `run_exported`. It allocates nothing.
pub fn round_exported(
    book: &[u8],
    launch: Option<u32>,
    turns: u32,
    lent: &mut Lent,
) -> RoundOutcome {
    assert_ne!(launch, Some(DEFAULT_LAUNCH), "it stands for none");
    let rounded = exported::round(book, launch.unwrap_or(DEFAULT_LAUNCH), turns, lent);
    let counts = [rounded.cells, rounded.jobs, rounded.turns];
    match (rounded.refusal, rounded.place, counts) {
        (0, 0, counts) => {
            let [cells, jobs, turns] = counts.map(|count| count as usize);
            Ok(Rounded { cells, jobs, turns })
        }
        (number, place, [0, 0, 0]) if number > 0 => Err(Refusal {
            number: u8::try_from(number).expect("a refusal is at most 15"),
            place: place as usize,
        }),
        _ => panic!("no round has this answer: {rounded:?}"),
    }
}

/// A `writer::Writer`. It allocates nothing.
pub fn write(tables: &Tables, out: &mut [u8]) -> Result<usize, Refusal> {
    let Tables {
        c,
        shapes,
        cells,
        blocks,
        steps,
    } = *tables;
    xemdulba::write_into(c, shapes, cells, blocks, steps, out).map_err(refused)
}

/// As `write`, by the exported call itself. What its answer does not have has to be 0.
pub fn write_exported(tables: &Tables, out: &mut [u8]) -> Result<usize, Refusal> {
    let written = exported::write(tables, out);
    match (written.refusal, written.place, written.length) {
        (0, 0, length) => Ok(length as usize),
        (number, place, 0) if number > 0 => Err(Refusal {
            number: u8::try_from(number).expect("a refusal is at most 15"),
            place: place as usize,
        }),
        _ => panic!("no writing has this answer: {written:?}"),
    }
}

/// The packed tables of a book.
pub fn tables_of(book: &[u8]) -> Result<Packed, Refusal> {
    let tables = xemdulba::tables(book).map_err(refused)?;
    Ok(Packed {
        c: tables.c.into(),
        shapes: tables.shapes.iter().flat_map(|row| row.bytes()).collect(),
        cells: tables.cells.iter().flat_map(|row| row.bytes()).collect(),
        blocks: tables.blocks.iter().flat_map(|row| row.bytes()).collect(),
        steps: tables.steps.iter().flat_map(|row| row.bytes()).collect(),
    })
}

/// A book, taken apart and written again.
pub fn written_again(book: &[u8]) -> Result<Vec<u8>, Refusal> {
    let tables = xemdulba::tables(book).map_err(refused)?;
    xemdulba::write(&tables).map_err(refused)
}

fn refused(refusal: xemdulba::Refusal) -> book::Refusal {
    Refusal {
        number: u8::try_from(refusal.number).expect("a refusal is at most 15"),
        place: refusal.place,
    }
}
