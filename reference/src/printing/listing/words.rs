//! The words of a record.

use super::Numbers;
use crate::model::book::record::Content;
use crate::model::book::{DeclaredCell, Shape, Step};
use crate::printing::line::value;

/// A record's name and number, and its fields, in columns.
pub fn record(content: &Content, numbers: Numbers) -> String {
    let (name, first, fields) = parts(content, numbers);
    let name = match content {
        Content::Step(_) => format!("  {name}"),
        _ => name,
    };
    match first {
        Some(first) => format!("{name:<9}  {first:<7} {fields}"),
        None => format!("{name:<9}  {fields}"),
    }
}

/// The same in a sentence; a step stands in a block, if there is one.
pub fn told(content: &Content, numbers: Numbers) -> String {
    let (mut name, first, fields) = parts(content, numbers);
    if matches!(content, Content::Step(_)) && numbers.blocks > 0 {
        name = format!("block {}, {name}", numbers.blocks - 1);
    }
    match first {
        Some(first) => format!("{name}: {first} {fields}"),
        None => format!("{name}: {fields}"),
    }
}

/// The name and number of a record, the name of its kind of step, and its fields.
fn parts(content: &Content, numbers: Numbers) -> (String, Option<&'static str>, String) {
    let (name, fields) = match *content {
        Content::C(c) => ("C".to_string(), c.to_string()),
        Content::Shape(shape) => (format!("shape {}", numbers.shapes), shape_fields(shape)),
        Content::Cell(cell) => (format!("cell {}", numbers.cells), cell_fields(cell)),
        Content::Block { bound } => (
            format!("block {}", numbers.blocks),
            format!("bound {bound}"),
        ),
        Content::Step(step) => {
            let (kind, operands) = step_fields(step);
            return (format!("step {}", numbers.steps), Some(kind), operands);
        }
    };
    (name, None, fields)
}

fn shape_fields(shape: Shape) -> String {
    match shape {
        Shape::Plain => "plain".to_string(),
        Shape::Code { bound } => format!("code, bound {bound}"),
        Shape::Cell { content, trust } => format!("cell of shape {content}, trust {trust}"),
    }
}

fn cell_fields(cell: DeclaredCell) -> String {
    let value = value(cell.value_kind, cell.number);
    format!("shape {}, label {}, {value}", cell.shape, cell.label)
}

fn step_fields(step: Step) -> (&'static str, String) {
    match step {
        Step::Put { r, number } => ("put", format!("r{r}, {number}")),
        Step::Name { r, cell } => ("name", format!("r{r}, cell {cell}")),
        Step::Code { r, block } => ("code", format!("r{r}, block {block}")),
        Step::Add { r, a, b } => ("add", format!("r{r}, r{a}, r{b}")),
        Step::New { r, shape, a } => ("new", format!("r{r}, shape {shape}, r{a}")),
        Step::Read { r, w } => ("read", format!("r{r}, r{w}")),
        Step::Write { w, a } => ("write", format!("r{w}, r{a}")),
        Step::Relabel { w, label } => ("relabel", format!("r{w}, {label}")),
        Step::Lower { label } => ("lower", label.to_string()),
        Step::Start { block } => ("start", format!("block {block}")),
        Step::Exec { w } => ("exec", format!("r{w}")),
        Step::Choose { r, first, second } => {
            ("choose", format!("r{r}, block {first}, block {second}"))
        }
    }
}
