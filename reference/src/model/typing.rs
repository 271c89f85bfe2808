//! "Typing a block" of document 01, with the step of 02, Four: refusals 7 and 8, and the verdict on
//! a book.

mod rules;
mod shapes;
mod state;
#[cfg(test)]
mod tests;

pub use rules::{Outcome, Rules};
pub use shapes::Shapes;
pub use state::{Known, Register, State};

use crate::model::book::{self, Block, Book, DeclaredCell, Refusal};
use std::fmt;

/// "A book is accepted when none of refusals 1 to 8 holds of it." "Acceptance reports the
/// shapes, cells, blocks and steps in the book."
#[derive(Clone, Copy, Debug, PartialEq, Eq)]
pub enum Verdict {
    Accepted {
        shapes: usize,
        cells: usize,
        blocks: usize,
        steps: usize,
    },
    Refused {
        number: u8,
        place: usize,
    },
}

impl fmt::Display for Verdict {
    fn fmt(&self, out: &mut fmt::Formatter<'_>) -> fmt::Result {
        match self {
            Verdict::Accepted {
                shapes,
                cells,
                blocks,
                steps,
            } => write!(
                out,
                "accepted shapes {shapes} cells {cells} blocks {blocks} steps {steps}"
            ),
            Verdict::Refused { number, place } => write!(out, "refused {number} at {place}"),
        }
    }
}

/// "Checking gives 1 to 8"; "a stage covers the whole book before the next begins".
pub fn check(bytes: &[u8]) -> Verdict {
    match checked(bytes) {
        Ok(book) => accepted(&book),
        Err(Refusal { number, place }) => Verdict::Refused { number, place },
    }
}

fn checked(bytes: &[u8]) -> Result<Book, Refusal> {
    let book = book::read(bytes)?;
    let rules = Rules::new(&book);
    check_cells(rules)?;
    check_blocks(rules)?;
    Ok(book)
}

fn accepted(book: &Book) -> Verdict {
    Verdict::Accepted {
        shapes: book.shapes.len(),
        cells: book.cells.len(),
        blocks: book.blocks.len(),
        steps: book.blocks.iter().map(|block| block.steps.len()).sum(),
    }
}

/// Refusal 7: "A cell declaration breaks its typing rule."
fn check_cells(rules: Rules) -> Result<(), Refusal> {
    let breaks = |cell: &&DeclaredCell| !rules.cell_is_sound(cell);
    match rules.book.cells.iter().find(breaks) {
        Some(cell) => Err(Refusal {
            number: 7,
            place: cell.place,
        }),
        None => Ok(()),
    }
}

/// Refusal 8: "A step breaks its typing rule."
fn check_blocks(rules: Rules) -> Result<(), Refusal> {
    for block in &rules.book.blocks {
        if let Some(step) = first_break(rules, block) {
            return Err(Refusal {
                number: 8,
                place: place_of(block, step),
            });
        }
    }
    Ok(())
}

/// The number of the block's first step that breaks its rule.
/// "After a stuck step the rest of the block passes."
pub fn first_break(rules: Rules, block: &Block) -> Option<usize> {
    let mut state = rules.start(block.bound);
    for (number, &step) in block.steps.iter().enumerate() {
        match rules.step(&mut state, step) {
            Outcome::Passes => {}
            Outcome::Stuck => return None,
            Outcome::Breaks => return Some(number),
        }
    }
    None
}

/// The offset of a step's record.
fn place_of(block: &Block, step: usize) -> usize {
    let before = block.steps[..step].iter();
    block.start + before.map(|step| step.size()).sum::<usize>()
}
