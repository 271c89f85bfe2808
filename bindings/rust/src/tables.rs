//! The tables that a run or a round leaves, as bytes.

use crate::records::{Cell, Job, Kind, Label, Trust, Value, REGISTERS};
use layout::Layout;
use std::array;
use std::marker::PhantomData;

/// How many entries each table has.
pub const TABLE: usize = 64;

/// The bytes of a cell table.
pub const CELLS_SIZE: usize = TABLE * Cell::SIZE;

/// The bytes of a job table.
pub const JOBS_SIZE: usize = TABLE * Job::SIZE;

/// What a table has: cells or jobs.
pub trait Record: Layout + 'static {}

impl Record for Cell {}
impl Record for Job {}

mod layout {
    /// How a record stands in its table.
    pub trait Layout {
        const SIZE: usize;

        /// Reads a record of that many bytes.
        fn read(bytes: &[u8]) -> Self;
    }
}

impl Layout for Value {
    const SIZE: usize = 6;

    fn read(bytes: &[u8]) -> Value {
        Value {
            kind: kind(bytes[0]),
            number: u32::from_le_bytes([bytes[1], bytes[2], bytes[3], bytes[4]]),
            source: Label(bytes[5]),
        }
    }
}

fn kind(byte: u8) -> Kind {
    match byte {
        0 => Kind::Plain,
        1 => Kind::Cell,
        2 => Kind::Code,
        _ => unreachable!("a run leaves value kinds 0 to 2"),
    }
}

impl Layout for Cell {
    const SIZE: usize = 3 + Value::SIZE;

    fn read(bytes: &[u8]) -> Cell {
        Cell {
            shape: bytes[0],
            trust: Trust(bytes[1]),
            label: Label(bytes[2]),
            value: Value::read(&bytes[3..]),
        }
    }
}

impl Layout for Job {
    const SIZE: usize = 4 + REGISTERS * Value::SIZE;

    fn read(bytes: &[u8]) -> Job {
        Job {
            block: bytes[0],
            position: bytes[1],
            label: Label(bytes[2]),
            source: Label(bytes[3]),
            registers: array::from_fn(|r| Value::read(&bytes[4 + r * Value::SIZE..])),
        }
    }
}

/// The records of a table that are in use, in the order in which they came to be.
#[derive(Clone, Copy, Debug)]
pub struct Records<'t, R> {
    bytes: &'t [u8],
    record: PhantomData<R>,
}

impl<'t, R: Record> Records<'t, R> {
    /// The first so many records of a table that a run has left.
    fn first(table: &'t [u8], count: usize) -> Records<'t, R> {
        Records {
            bytes: &table[..count * R::SIZE],
            record: PhantomData,
        }
    }

    /// How many there are.
    pub fn len(&self) -> usize {
        self.bytes.len() / R::SIZE
    }

    /// There is none.
    pub fn is_empty(&self) -> bool {
        self.bytes.is_empty()
    }

    /// The record of a number, if it is in use.
    pub fn get(&self, number: usize) -> Option<R> {
        self.bytes.chunks_exact(R::SIZE).nth(number).map(R::read)
    }

    /// All of them.
    pub fn iter(&self) -> impl ExactSizeIterator<Item = R> + 't {
        self.bytes.chunks_exact(R::SIZE).map(R::read)
    }
}

/// The tables of a run or a round in the memory that was lent for it.
#[derive(Clone, Copy, Debug)]
pub struct Tables<'t> {
    pub cells: Records<'t, Cell>,
    pub jobs: Records<'t, Job>,
}

impl<'t> Tables<'t> {
    /// The first so many cells and jobs.
    pub(crate) fn first(
        cells: &'t [u8],
        cell_count: u32,
        jobs: &'t [u8],
        job_count: u32,
    ) -> Tables<'t> {
        Tables {
            cells: Records::first(cells, cell_count as usize),
            jobs: Records::first(jobs, job_count as usize),
        }
    }
}
