//! Refusals 1 to 6 of tables, in one walk over their rows.

use super::{number, Tables, BLOCK_ROW, CELL_ROW, SHAPE_ROW, STEP_ROW};
use crate::model::book::{refuse, Refusal, CELL_VALUE, CODE_VALUE};

const LONGEST_BOOK: usize = 32_768;
const MOST_SHAPES: usize = 32;
const MOST_CELLS: usize = 32;
const MOST_BLOCKS: usize = 64;
const MOST_STEPS: usize = 64;

const TOP_LABEL: u8 = 15;
const TOP_C: u32 = 14;
const TOP_REGISTER: u8 = 7;

const CELL_SHAPE: u8 = 18;

/// The length of the book that these tables of whole rows have, unless one of refusals 1 to 6 holds.
pub fn length(tables: &Tables) -> Result<usize, Refusal> {
    let steps = tables.steps.len() / STEP_ROW;
    // Every row has a byte or more, so that no long walk is needed.
    let rows = tables.shapes.len() / SHAPE_ROW + tables.cells.len() / CELL_ROW;
    if rows + tables.blocks.len() / BLOCK_ROW + steps > LONGEST_BOOK {
        return refuse(1, 0);
    }
    let mut walk = Walk::begin(*tables);
    walk.record(2, tables.c <= TOP_C, true);
    walk.shapes();
    walk.cells();
    let counted = walk.blocks();
    if walk.place > LONGEST_BOOK {
        return refuse(1, 0);
    }
    // "Counts that don't add up to the step rows get refusal 2 at 0, ahead of any other 2."
    if counted != steps as u64 {
        return refuse(2, 0);
    }
    if walk.blocks == 0 {
        walk.fault(3);
    }
    match walk.first {
        Some(refusal) => Err(refusal),
        None => Ok(walk.place),
    }
}

/// A walk over the rows in the order of their records.
struct Walk<'t> {
    tables: Tables<'t>,
    /// How many cells and blocks there are.
    cells: usize,
    blocks: usize,
    /// The offset of the record that is looked at.
    place: usize,
    /// The first fault of the earliest stage that has one so far.
    first: Option<Refusal>,
}

impl<'t> Walk<'t> {
    fn begin(tables: Tables<'t>) -> Self {
        Walk {
            tables,
            cells: tables.cells.len() / CELL_ROW,
            blocks: tables.blocks.len() / BLOCK_ROW,
            place: 0,
            first: None,
        }
    }

    /// The record here is at fault. An earlier one of this stage was found before.
    fn fault(&mut self, number: u8) {
        let place = self.place;
        match self.first {
            Some(first) if first.number <= number => {}
            _ => self.first = Some(Refusal { number, place }),
        }
    }

    /// Goes on behind a record of this size. Refusal 5 holds unless its fields are within their
    /// limits, and 6 unless what it names is there.
    fn record(&mut self, size: usize, within: bool, named: bool) {
        if !within {
            self.fault(5);
        } else if !named {
            self.fault(6);
        }
        self.place += size;
    }

    /// "gets refusal 2 at its place and counts as one byte of length".
    fn unknown(&mut self) {
        self.fault(2);
        self.place += 1;
    }

    fn shapes(&mut self) {
        let shapes = self.tables.shapes.chunks_exact(SHAPE_ROW);
        for (own, row) in shapes.enumerate() {
            if own >= MOST_SHAPES {
                self.fault(4);
            }
            let (x, y) = (row[1], row[2]);
            match row[0] {
                16 => self.record(1, x | y == 0, true),
                17 => self.record(2, x <= TOP_LABEL && y == 0, true),
                CELL_SHAPE => self.record(3, y <= TOP_LABEL, usize::from(x) < own),
                _ => self.unknown(),
            }
        }
    }

    fn cells(&mut self) {
        let cells = self.tables.cells.chunks_exact(CELL_ROW);
        for (own, row) in cells.enumerate() {
            if own >= MOST_CELLS {
                self.fault(4);
            }
            let (shape, label, kind) = (row[0], row[1], row[2]);
            let value_exists = match kind {
                CELL_VALUE => (number(row) as usize) < self.cells,
                CODE_VALUE => (number(row) as usize) < self.blocks,
                _ => true,
            };
            let within = label <= TOP_LABEL && kind <= CODE_VALUE;
            self.record(8, within, self.has_cell_shape(shape) && value_exists);
        }
    }

    /// Walks over the blocks, each with as many of the steps that are left as it counts; then over
    /// the steps that no block counts. The sum of the counts.
    fn blocks(&mut self) -> u64 {
        let mut steps = self.tables.steps.chunks_exact(STEP_ROW);
        let mut counted = 0;
        let blocks = self.tables.blocks.chunks_exact(BLOCK_ROW);
        for (own, row) in blocks.enumerate() {
            if own >= MOST_BLOCKS {
                self.fault(4);
            }
            self.record(2, row[0] <= TOP_LABEL, true);
            counted += u64::from(number(row));
            let its_own = steps.by_ref().take(number(row) as usize);
            for (own, row) in its_own.enumerate() {
                if own >= MOST_STEPS {
                    self.fault(4);
                }
                self.step(row);
            }
        }
        steps.for_each(|row| self.step(row));
        counted
    }

    /// If registers are at most 7, so is their or; what is not used is 0.
    fn step(&mut self, row: &[u8]) {
        let (x, y, z) = (row[1], row[2], row[3]);
        let registers = |or: u8| or <= TOP_REGISTER;
        let spare = |or: u8| or == 0 && number(row) == 0;
        match row[0] {
            64 => self.record(6, registers(x) && y | z == 0, true),
            65 => self.record(3, registers(x) && spare(z), usize::from(y) < self.cells),
            66 => self.record(3, registers(x) && spare(z), self.has_block(y)),
            67 => self.record(4, registers(x | y | z) && spare(0), true),
            68 => self.record(4, registers(x | z) && spare(0), self.has_cell_shape(y)),
            69 | 70 => self.record(3, registers(x | y) && spare(z), true),
            71 => self.record(3, registers(x) && y <= TOP_LABEL && spare(z), true),
            72 => self.record(2, x <= TOP_LABEL && spare(y | z), true),
            73 => self.record(2, spare(y | z), self.has_block(x)),
            74 => self.record(2, registers(x) && spare(y | z), true),
            75 => self.record(
                4,
                registers(x) && spare(0),
                self.has_block(y) && self.has_block(z),
            ),
            _ => self.unknown(),
        }
    }

    fn has_block(&self, block: u8) -> bool {
        usize::from(block) < self.blocks
    }

    fn has_cell_shape(&self, shape: u8) -> bool {
        self.tables.shapes.get(usize::from(shape) * SHAPE_ROW) == Some(&CELL_SHAPE)
    }
}
