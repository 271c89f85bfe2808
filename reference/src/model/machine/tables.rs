//! The tables that a run leaves: "A stored value is kind, number and source".

use super::state::{Cell, Datum, Job, Machine, Value};
use super::TABLE;
use crate::model::book::{CELL_VALUE, CODE_VALUE, PLAIN_VALUE};

/// The bytes of a cell record and of a job record, and of the tables.
pub const CELL_SIZE: usize = 9;
pub const JOB_SIZE: usize = 52;
pub const CELLS_SIZE: usize = TABLE * CELL_SIZE;
pub const JOBS_SIZE: usize = TABLE * JOB_SIZE;

/// "Unused table entries are all zero after a run".
pub fn write(machine: &Machine, cells: &mut [u8], jobs: &mut [u8]) {
    cells.fill(0);
    jobs.fill(0);
    for (record, cell) in cells.chunks_exact_mut(CELL_SIZE).zip(&machine.cells) {
        record.copy_from_slice(&cell_record(cell));
    }
    for (record, job) in jobs.chunks_exact_mut(JOB_SIZE).zip(&machine.jobs) {
        record.copy_from_slice(&job_record(job));
    }
}

/// "A cell record holds shape, trust, label and value".
fn cell_record(cell: &Cell) -> Vec<u8> {
    let head = vec![cell.shape, cell.trust, cell.label];
    [head, value_record(cell.value)].concat()
}

/// "a job record block, position (how many of the block's steps are done), label, registers and
/// its own source": the source stands before the registers.
fn job_record(job: &Job) -> Vec<u8> {
    let (block, position) = (job.block as u8, job.position as u8);
    let mut record = vec![block, position, job.label, job.history.source()];
    for register in job.registers {
        record.extend(value_record(register));
    }
    record
}

/// Kind, number in 4 bytes, source.
fn value_record(value: Value) -> Vec<u8> {
    let (kind, number) = match value.datum {
        Datum::Plain(number) => (PLAIN_VALUE, number),
        Datum::Cell(number) => (CELL_VALUE, number as u32),
        Datum::Code(number) => (CODE_VALUE, number as u32),
    };
    let mut record = vec![kind];
    record.extend(number.to_le_bytes());
    record.push(value.history.source());
    record
}
