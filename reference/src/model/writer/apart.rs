//! The tables of a book. The reader takes it apart.

use super::Packed;
use crate::model::book::{self, DeclaredCell, Refusal, Shape, Step};

/// The tables of a readable book, of which `write` makes the same bytes again.
pub fn tables_of(bytes: &[u8]) -> Result<Packed, Refusal> {
    let book = book::read(bytes)?;
    let mut tables = Packed {
        c: book.c.into(),
        ..Packed::default()
    };
    let shapes = book.shapes.iter().flat_map(|&shape| shape_row(shape));
    tables.shapes.extend(shapes);
    tables.cells.extend(book.cells.iter().flat_map(cell_row));
    for block in &book.blocks {
        let [n0, n1, n2, n3] = (block.steps.len() as u32).to_le_bytes();
        tables.blocks.extend([block.bound, n0, n1, n2, n3]);
        let steps = block.steps.iter().flat_map(|&step| step_row(step));
        tables.steps.extend(steps);
    }
    Ok(tables)
}

fn shape_row(shape: Shape) -> [u8; 3] {
    match shape {
        Shape::Plain => [16, 0, 0],
        Shape::Code { bound } => [17, bound, 0],
        Shape::Cell { content, trust } => [18, content, trust],
    }
}

fn cell_row(cell: &DeclaredCell) -> [u8; 7] {
    let [n0, n1, n2, n3] = cell.number.to_le_bytes();
    [cell.shape, cell.label, cell.value_kind, n0, n1, n2, n3]
}

fn step_row(step: Step) -> [u8; 8] {
    let (x, y, z, number) = match step {
        Step::Put { r, number } => (r, 0, 0, number),
        Step::Name { r, cell } => (r, cell, 0, 0),
        Step::Code { r, block } => (r, block, 0, 0),
        Step::Add { r, a, b } => (r, a, b, 0),
        Step::New { r, shape, a } => (r, shape, a, 0),
        Step::Read { r, w } => (r, w, 0, 0),
        Step::Write { w, a } => (w, a, 0, 0),
        Step::Relabel { w, label } => (w, label, 0, 0),
        Step::Lower { label } => (label, 0, 0, 0),
        Step::Start { block } => (block, 0, 0, 0),
        Step::Exec { w } => (w, 0, 0, 0),
        Step::Choose { r, first, second } => (r, first, second, 0),
    };
    let [n0, n1, n2, n3] = number.to_le_bytes();
    [step.kind(), x, y, z, n0, n1, n2, n3]
}
