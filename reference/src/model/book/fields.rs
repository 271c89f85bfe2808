//! What the fields of records may be: refusals 5 and 6.

use super::record::{Content, Record};
use super::{
    refuse, Book, DeclaredCell, Refusal, Shape, Step, CELL_VALUE, CODE_VALUE, PLAIN_VALUE,
};

const TOP_LABEL: u8 = 15;
const TOP_C: u8 = 14;
const TOP_REGISTER: u8 = 7;

/// Refusal 5: "A label, bound or trust is above 15, C above 14, a register above 7, or a value
/// kind above 2."
pub fn check_limits(records: &[Record]) -> Result<(), Refusal> {
    for record in records {
        let within = match record.content {
            Content::C(c) => c <= TOP_C,
            Content::Shape(shape) => shape_within_limits(shape),
            Content::Cell(cell) => cell.label <= TOP_LABEL && cell.value_kind <= CODE_VALUE,
            Content::Block { bound } => bound <= TOP_LABEL,
            Content::Step(step) => step_within_limits(step),
        };
        if !within {
            return refuse(5, record.place);
        }
    }
    Ok(())
}

fn shape_within_limits(shape: Shape) -> bool {
    match shape {
        Shape::Plain => true,
        Shape::Code { bound } => bound <= TOP_LABEL,
        Shape::Cell { trust, .. } => trust <= TOP_LABEL,
    }
}

fn step_within_limits(step: Step) -> bool {
    let registers = |all: &[u8]| all.iter().all(|&register| register <= TOP_REGISTER);
    match step {
        Step::Put { r, .. } | Step::Name { r, .. } | Step::Code { r, .. } => registers(&[r]),
        Step::Add { r, a, b } => registers(&[r, a, b]),
        Step::New { r, a, .. } => registers(&[r, a]),
        Step::Read { r, w } => registers(&[r, w]),
        Step::Write { w, a } => registers(&[w, a]),
        Step::Relabel { w, label } => registers(&[w]) && label <= TOP_LABEL,
        Step::Lower { label } => label <= TOP_LABEL,
        Step::Start { .. } => true,
        Step::Exec { w } => registers(&[w]),
        Step::Choose { r, .. } => registers(&[r]),
    }
}

/// Refusal 6: "A content shape is not lower-numbered than its cell shape, a cell or new names no
/// cell shape, or a declared cell or block number does not exist."
pub fn check_names(records: &[Record], book: &Book) -> Result<(), Refusal> {
    let mut shapes_before = 0;
    for record in records {
        let sound = match record.content {
            Content::C(_) | Content::Block { .. } => true,
            Content::Shape(shape) => {
                let own_number = shapes_before;
                shapes_before += 1;
                content_is_lower(shape, own_number)
            }
            Content::Cell(cell) => book.has_cell_shape(cell.shape) && book.value_exists(cell),
            Content::Step(step) => book.names_exist(step),
        };
        if !sound {
            return refuse(6, record.place);
        }
    }
    Ok(())
}

fn content_is_lower(shape: Shape, own_number: usize) -> bool {
    match shape {
        Shape::Plain | Shape::Code { .. } => true,
        Shape::Cell { content, .. } => usize::from(content) < own_number,
    }
}

impl Book {
    /// Whether this shape number exists and is that of a cell shape.
    fn has_cell_shape(&self, shape: u8) -> bool {
        matches!(
            self.shapes.get(usize::from(shape)),
            Some(Shape::Cell { .. })
        )
    }

    /// The bound of block 0.
    pub fn bound(&self) -> u8 {
        self.blocks[0].bound
    }

    /// The trust that a cell shape states, not counted as typing does.
    pub fn trust_of(&self, shape: u8) -> u8 {
        match self.shapes[usize::from(shape)] {
            Shape::Cell { trust, .. } => trust,
            _ => unreachable!("refusal 6 leaves only cell shapes here"),
        }
    }

    fn has_cell(&self, number: u32) -> bool {
        (number as usize) < self.cells.len()
    }

    fn has_block(&self, number: u32) -> bool {
        (number as usize) < self.blocks.len()
    }

    /// "number (for kinds 1 and 2 the cell or block number)".
    fn value_exists(&self, cell: DeclaredCell) -> bool {
        match cell.value_kind {
            PLAIN_VALUE => true,
            CELL_VALUE => self.has_cell(cell.number),
            _ => self.has_block(cell.number),
        }
    }

    /// Whether the shape, cell or blocks that a step names are there.
    fn names_exist(&self, step: Step) -> bool {
        match step {
            Step::Name { cell, .. } => self.has_cell(cell.into()),
            Step::Code { block, .. } | Step::Start { block } => self.has_block(block.into()),
            Step::New { shape, .. } => self.has_cell_shape(shape),
            Step::Choose { first, second, .. } => {
                self.has_block(first.into()) && self.has_block(second.into())
            }
            _ => true,
        }
    }
}
