//! The same run for measuring: fixed tables, and a source in place of each history. What a step does
//! is inlined by order: with the round as a second caller the compiler no longer did it, and the run
//! took up to a quarter more instructions.

mod acts;
mod round;
mod steps;

pub use round::{chosen, round};

use super::event::{self, Event};
use super::{check_answers, check_launch, check_tables, Lent, Outcome, Ran};
use super::{CELL_SIZE, JOB_SIZE, TABLE};
use crate::model::book::{self, Book, DeclaredCell};

/// Kind, number and source; a source of two histories is the lower of theirs.
#[derive(Clone, Copy)]
struct Word {
    number: u32,
    kind: u8,
    source: u8,
}

#[derive(Clone, Copy)]
struct Cell {
    shape: u8,
    trust: u8,
    label: u8,
    value: Word,
}

#[derive(Clone, Copy)]
struct Job {
    block: u8,
    position: u8,
    label: u8,
    source: u8,
    registers: [Word; 8],
}

const PLAIN: u8 = book::PLAIN_VALUE;
const CELL: u8 = book::CELL_VALUE;
const CODE: u8 = book::CODE_VALUE;

const DONE: u8 = 0;
const BLOCKED: u8 = 1;
const NO_STEP_LEFT: u8 = 2;
const NO_SUCH: u8 = 3;

/// The tables, as far as they are in use.
struct Fast<'b> {
    book: &'b Book,
    cells: Vec<Cell>,
    jobs: Vec<Job>,
}

/// As `machine::run`.
pub fn run(
    book: &[u8],
    launch: Option<u32>,
    events: &[u8],
    [cells, jobs, answers]: &mut Lent,
) -> Outcome {
    let book = book::read(book)?;
    let mut count = 0;
    event::walk(events, |_| count += 1)?;
    check_tables(cells, jobs)?;
    check_answers(answers, count)?;
    let mut fast = Fast::new(&book, check_launch(&book, launch)?);
    let mut left = answers.iter_mut();
    event::walk(events, |event| {
        if let Some(answer) = left.next() {
            *answer = fast.take(event);
        }
    })?;
    fast.store(cells, jobs);
    Ok(Ran {
        cells: fast.cells.len(),
        jobs: fast.jobs.len(),
    })
}

fn declared(book: &Book, cell: &DeclaredCell) -> Cell {
    Cell {
        shape: cell.shape,
        trust: book.trust_of(cell.shape),
        label: cell.label,
        value: Word {
            number: cell.number,
            kind: cell.value_kind,
            source: 15,
        },
    }
}

impl<'b> Fast<'b> {
    #[inline(always)]
    fn new(book: &'b Book, launch: u8) -> Fast<'b> {
        let mut cells = Vec::with_capacity(TABLE);
        cells.extend(book.cells.iter().map(|cell| declared(book, cell)));
        let mut jobs = Vec::with_capacity(TABLE);
        jobs.push(Job::new(0, launch, launch));
        Fast { book, cells, jobs }
    }

    fn take(&mut self, event: Event) -> u8 {
        match event {
            Event::Step { job } => self.step(job.into()),
            Event::Write { q, cell, value } => self.write_by(q, cell, value),
            Event::Relabel { q, cell, label } => self.relabel_by(q, cell, label),
            Event::New { q, shape, value } => self.new_by(q, shape, value),
            Event::Exec { q, cell } => self.exec_by(q, cell),
            Event::Start { q, block } => self.start_by(q, block),
        }
    }

    fn store(&self, cells: &mut [u8], jobs: &mut [u8]) {
        cells[self.cells.len() * CELL_SIZE..].fill(0);
        jobs[self.jobs.len() * JOB_SIZE..].fill(0);
        for (record, cell) in cells.chunks_exact_mut(CELL_SIZE).zip(&self.cells) {
            record[..3].copy_from_slice(&[cell.shape, cell.trust, cell.label]);
            cell.value.store(&mut record[3..]);
        }
        for (record, job) in jobs.chunks_exact_mut(JOB_SIZE).zip(&self.jobs) {
            record[..4].copy_from_slice(&[job.block, job.position, job.label, job.source]);
            for (field, register) in record[4..].chunks_exact_mut(6).zip(&job.registers) {
                register.store(field);
            }
        }
    }
}

impl Word {
    fn store(self, field: &mut [u8]) {
        field[0] = self.kind;
        field[1..5].copy_from_slice(&self.number.to_le_bytes());
        field[5] = self.source;
    }
}

impl Job {
    fn new(block: u8, label: u8, source: u8) -> Job {
        let zero = Word {
            number: 0,
            kind: PLAIN,
            source,
        };
        Job {
            block,
            position: 0,
            label,
            source,
            registers: [zero; 8],
        }
    }
}
