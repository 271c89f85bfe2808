//! Events as bytes.

use crate::cases::generate::Bytes;
use crate::model::machine::event::{EXEC, NEW, RELABEL, START, STEP, WRITE};

/// The kind and number of a value that an outsider brings.
pub type Brought = (u8, u32);

pub fn plain(number: u32) -> Brought {
    (0, number)
}

pub fn cell(number: u32) -> Brought {
    (1, number)
}

pub fn code(number: u32) -> Brought {
    (2, number)
}

pub fn step(job: u8) -> Bytes {
    vec![STEP, job]
}

/// A job takes so many steps.
pub fn steps(job: u8, count: usize) -> Bytes {
    step(job).repeat(count)
}

pub fn write(q: u8, cell: u8, value: Brought) -> Bytes {
    bring(WRITE, q, cell, value)
}

pub fn relabel(q: u8, cell: u8, label: u8) -> Bytes {
    vec![RELABEL, q, cell, label]
}

pub fn new(q: u8, shape: u8, value: Brought) -> Bytes {
    bring(NEW, q, shape, value)
}

pub fn exec(q: u8, cell: u8) -> Bytes {
    vec![EXEC, q, cell]
}

pub fn start(q: u8, block: u8) -> Bytes {
    vec![START, q, block]
}

fn bring(kind: u8, q: u8, at: u8, (value_kind, number): Brought) -> Bytes {
    let head = [kind, q, at, value_kind];
    [&head[..], &number.to_le_bytes()].concat()
}
