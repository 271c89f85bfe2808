//! "The job book" of document 01, with the step of 02, Four: its records, refusals 1 to 6, and a
//! block's stretch with refusal 12.

mod fields;
pub mod record;
#[cfg(test)]
pub(crate) mod tests;

use fields::{check_limits, check_names};
use record::{split, Content, Record};

const LONGEST_BOOK: usize = 32_768;
const MOST_SHAPES: usize = 32;
const MOST_CELLS: usize = 32;
const MOST_BLOCKS: usize = 64;
const MOST_STEPS: usize = 64;

/// Value kinds: "0 plain, 1 cell, 2 code".
pub const PLAIN_VALUE: u8 = 0;
pub const CELL_VALUE: u8 = 1;
pub const CODE_VALUE: u8 = 2;

/// "Refusals, each with a place".
#[derive(Clone, Copy, Debug, PartialEq, Eq)]
pub struct Refusal {
    pub number: u8,
    pub place: usize,
}

/// "16 plain shape, no body; 17 code shape: bound; 18 cell shape: content shape, trust."
#[derive(Clone, Copy, Debug, PartialEq, Eq)]
pub enum Shape {
    Plain,
    Code { bound: u8 },
    Cell { content: u8, trust: u8 },
}

/// "32 cell: shape, label, value kind, number", with the offset of its record.
#[derive(Clone, Copy, Debug, PartialEq, Eq)]
pub struct DeclaredCell {
    pub place: usize,
    pub shape: u8,
    pub label: u8,
    pub value_kind: u8,
    pub number: u32,
}

/// "Steps, r w a b registers 0 to 7", kinds 64 to 74 in this order; and 02, Four: "Kind 75, choose r,
/// block, block".
#[derive(Clone, Copy, Debug, PartialEq, Eq)]
pub enum Step {
    Put { r: u8, number: u32 },
    Name { r: u8, cell: u8 },
    Code { r: u8, block: u8 },
    Add { r: u8, a: u8, b: u8 },
    New { r: u8, shape: u8, a: u8 },
    Read { r: u8, w: u8 },
    Write { w: u8, a: u8 },
    Relabel { w: u8, label: u8 },
    Lower { label: u8 },
    Start { block: u8 },
    Exec { w: u8 },
    Choose { r: u8, first: u8, second: u8 },
}

impl Step {
    /// The kind byte of its record.
    pub fn kind(self) -> u8 {
        match self {
            Step::Put { .. } => 64,
            Step::Name { .. } => 65,
            Step::Code { .. } => 66,
            Step::Add { .. } => 67,
            Step::New { .. } => 68,
            Step::Read { .. } => 69,
            Step::Write { .. } => 70,
            Step::Relabel { .. } => 71,
            Step::Lower { .. } => 72,
            Step::Start { .. } => 73,
            Step::Exec { .. } => 74,
            Step::Choose { .. } => 75,
        }
    }

    /// The length of its record: "one byte of kind, then a body".
    pub fn size(self) -> usize {
        match self {
            Step::Put { .. } => 6,
            Step::Add { .. } | Step::New { .. } | Step::Choose { .. } => 4,
            Step::Name { .. } | Step::Code { .. } => 3,
            Step::Read { .. } | Step::Write { .. } | Step::Relabel { .. } => 3,
            Step::Lower { .. } | Step::Start { .. } | Step::Exec { .. } => 2,
        }
    }
}

/// "48 block: bound. Its steps follow, perhaps none." The stretch of its steps begins at the
/// offset `start`, just past the block's record, and is `length` bytes long.
#[derive(Clone, Debug, PartialEq, Eq)]
pub struct Block {
    pub bound: u8,
    pub start: usize,
    pub length: usize,
    pub steps: Vec<Step>,
}

/// A readable book: none of refusals 1 to 6 holds of it.
#[derive(Clone, Debug, Default, PartialEq, Eq)]
pub struct Book {
    pub c: u8,
    pub shapes: Vec<Shape>,
    pub cells: Vec<DeclaredCell>,
    pub blocks: Vec<Block>,
}

/// Reads a book; "a stage covers the whole book before the next begins".
pub fn read(bytes: &[u8]) -> Result<Book, Refusal> {
    check_length(bytes)?;
    let records = split(bytes)?;
    check_order(&records, bytes.len())?;
    check_counts(&records)?;
    check_limits(&records)?;
    let book = assemble(&records);
    check_names(&records, &book)?;
    Ok(book)
}

/// The bound of block 0; none if the book cannot be read.
pub fn bound(bytes: &[u8]) -> Option<u8> {
    read(bytes).ok().map(|book| book.bound())
}

/// "Asked for a block, a call hands back that block's stretch of the lent book, steps only":
/// its offset and its length.
pub fn stretch(bytes: &[u8], number: usize) -> Result<(usize, usize), Refusal> {
    match read(bytes)?.blocks.get(number) {
        Some(block) => Ok((block.start, block.length)),
        None => refuse(12, 0),
    }
}

pub(crate) fn refuse<T>(number: u8, place: usize) -> Result<T, Refusal> {
    Err(Refusal { number, place })
}

/// Refusal 1: "The book is longer than 32,768 bytes."
fn check_length(bytes: &[u8]) -> Result<(), Refusal> {
    if bytes.len() > LONGEST_BOOK {
        return refuse(1, 0);
    }
    Ok(())
}

/// Refusal 3: "The first record is missing or not C, a record is out of order, or no block
/// stands (place: the book's length, or 0 if it is empty)."
fn check_order(records: &[Record], length: usize) -> Result<(), Refusal> {
    if !records.first().is_some_and(|first| is_c(&first.content)) {
        return refuse(3, 0);
    }
    for pair in records.windows(2) {
        if !may_follow(&pair[0].content, &pair[1].content) {
            return refuse(3, pair[1].place);
        }
    }
    if !records.iter().any(|record| is_block(&record.content)) {
        return refuse(3, length);
    }
    Ok(())
}

fn is_c(content: &Content) -> bool {
    matches!(content, Content::C(_))
}

fn is_block(content: &Content) -> bool {
    matches!(content, Content::Block { .. })
}

/// "Groups stand in this order: C, shapes, cells, blocks. A step before the first block is out
/// of order." C stands once; a step follows a block or another step.
fn may_follow(before: &Content, next: &Content) -> bool {
    match next {
        Content::C(_) => false,
        Content::Shape(_) => matches!(before, Content::C(_) | Content::Shape(_)),
        Content::Cell(_) => {
            matches!(before, Content::C(_) | Content::Shape(_) | Content::Cell(_))
        }
        Content::Block { .. } => true,
        Content::Step(_) => matches!(before, Content::Block { .. } | Content::Step(_)),
    }
}

/// Refusal 4: "A record is beyond 32 shapes, 32 cells, 64 blocks or 64 steps in a block."
fn check_counts(records: &[Record]) -> Result<(), Refusal> {
    let (mut shapes, mut cells, mut blocks, mut steps) = (0, 0, 0, 0);
    for record in records {
        match record.content {
            Content::C(_) => {}
            Content::Shape(_) => shapes += 1,
            Content::Cell(_) => cells += 1,
            Content::Block { .. } => (blocks, steps) = (blocks + 1, 0),
            Content::Step(_) => steps += 1,
        }
        let beyond = shapes > MOST_SHAPES
            || cells > MOST_CELLS
            || blocks > MOST_BLOCKS
            || steps > MOST_STEPS;
        if beyond {
            return refuse(4, record.place);
        }
    }
    Ok(())
}

/// The groups as lists; "each is numbered from 0".
fn assemble(records: &[Record]) -> Book {
    let mut book = Book::default();
    for record in records {
        match record.content {
            Content::C(c) => book.c = c,
            Content::Shape(shape) => book.shapes.push(shape),
            Content::Cell(cell) => book.cells.push(cell),
            Content::Block { bound } => book.blocks.push(Block {
                bound,
                start: record.place + record.size,
                length: 0,
                steps: Vec::with_capacity(MOST_STEPS),
            }),
            Content::Step(step) => {
                if let Some(block) = book.blocks.last_mut() {
                    block.length += record.size;
                    block.steps.push(step);
                }
            }
        }
    }
    book
}
