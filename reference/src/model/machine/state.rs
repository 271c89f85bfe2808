//! What a run holds: cells and jobs, and how it begins.

use super::history::History;
use super::{Ran, TABLE};
use crate::model::book::{Book, DeclaredCell, CELL_VALUE, PLAIN_VALUE};

/// "plain (32 bits), a cell or a block".
#[derive(Clone, Copy, Debug, PartialEq, Eq)]
pub enum Datum {
    Plain(u32),
    Cell(usize),
    Code(usize),
}

/// "A value is plain (32 bits), a cell or a block, with a history".
#[derive(Clone, Copy, Debug, PartialEq, Eq)]
pub struct Value {
    pub datum: Datum,
    pub history: History,
}

impl Value {
    /// "An act below appends the actor's whole history to the value's."
    pub fn after(self, act: History) -> Value {
        Value {
            datum: self.datum,
            history: self.history.with(act),
        }
    }
}

#[derive(Clone, Copy, Debug, PartialEq, Eq)]
pub struct Cell {
    pub shape: u8,
    pub trust: u8,
    pub label: u8,
    pub value: Value,
}

/// "A job has a block, position, label, eight registers and a history."
#[derive(Clone, Copy, Debug, PartialEq, Eq)]
pub struct Job {
    pub block: usize,
    pub position: usize,
    pub label: u8,
    pub registers: [Value; 8],
    pub history: History,
}

impl Job {
    /// "Registers start as plain 0 with the job's history."
    pub fn new(block: usize, label: u8, history: History) -> Job {
        let datum = Datum::Plain(0);
        Job {
            block,
            position: 0,
            label,
            registers: [Value { datum, history }; 8],
            history,
        }
    }

    pub fn register(&self, number: u8) -> Value {
        self.registers[usize::from(number)]
    }
}

/// Who acts: a job or an outsider.
#[derive(Clone, Copy)]
pub struct Actor {
    pub label: u8,
    pub history: History,
}

/// A run of a book.
pub struct Machine<'b> {
    pub book: &'b Book,
    pub cells: Vec<Cell>,
    pub jobs: Vec<Job>,
}

impl<'b> Machine<'b> {
    /// Job 0 runs block 0. 02, Three: "A run now takes a launch label for job 0, which is also its
    /// history."
    pub fn new(book: &'b Book, launch: u8) -> Machine<'b> {
        Machine {
            book,
            cells: book.cells.iter().map(|cell| fresh(book, cell)).collect(),
            jobs: vec![Job::new(0, launch, History::of(launch))],
        }
    }

    pub fn in_use(&self) -> Ran {
        Ran {
            cells: self.cells.len(),
            jobs: self.jobs.len(),
        }
    }

    pub fn cells_are_full(&self) -> bool {
        self.cells.len() == TABLE
    }

    pub fn jobs_are_full(&self) -> bool {
        self.jobs.len() == TABLE
    }
}

/// A declared cell. "Declared values have history 15."
fn fresh(book: &Book, declared: &DeclaredCell) -> Cell {
    let number = declared.number;
    let datum = match declared.value_kind {
        PLAIN_VALUE => Datum::Plain(number),
        CELL_VALUE => Datum::Cell(number as usize),
        _ => Datum::Code(number as usize),
    };
    Cell {
        shape: declared.shape,
        trust: book.trust_of(declared.shape),
        label: declared.label,
        value: Value {
            datum,
            history: History::of(15),
        },
    }
}
