//! What a refusal means of the record at fault, and the line where no record can be marked.

use crate::model::book::record::Content;
use crate::model::book::{Refusal, Shape, Step};
use crate::printing::line::{line, Show};

/// What stands behind the words of the record at fault.
pub fn mark(refusal: Refusal, reason: &str) -> String {
    format!("  <- refused {}: {reason}", refusal.number)
}

/// The last line of a book of which no record is at fault, or one that cannot be read.
pub fn without_record(bytes: &[u8], refusal: Refusal, show: Show) -> Option<String> {
    let (stands, reason) = stands_there(bytes, refusal)?;
    let shown = match refusal.number {
        2 => &bytes[refusal.place..],
        _ => &[],
    };
    let words = stands + &mark(refusal, reason);
    Some(line(show, refusal.place, shown, &words))
}

/// What stands at the place of such a refusal, and what is wrong with it.
pub fn stands_there(bytes: &[u8], refusal: Refusal) -> Option<(String, &'static str)> {
    let Refusal { number, place } = refusal;
    match (number, bytes.get(place)) {
        (1, _) => Some(too_long()),
        (2, Some(&kind)) => Some(unreadable(kind)),
        (_, None) => Some(missing(place)),
        (_, Some(_)) => None,
    }
}

/// Refusal 1: "The book is longer than 32,768 bytes."
fn too_long() -> (String, &'static str) {
    let stands = "start of the book".to_string();
    (stands, "the book is longer than 32768 bytes")
}

/// Refusal 2: "A kind is none of the above, or the book ends inside a body."
fn unreadable(kind: u8) -> (String, &'static str) {
    match name(kind) {
        Some(name) => (
            format!("kind {kind} ({name})"),
            "the book ends inside the record",
        ),
        None => (format!("kind {kind}"), "no record has this kind"),
    }
}

/// "Kinds in decimal."
fn name(kind: u8) -> Option<&'static str> {
    const STEPS: [&str; 12] = [
        "put", "name", "code", "add", "new", "read", "write", "relabel", "lower", "start", "exec",
        "choose",
    ];
    match kind {
        1 => Some("C"),
        16 => Some("plain shape"),
        17 => Some("code shape"),
        18 => Some("cell shape"),
        32 => Some("cell"),
        48 => Some("block"),
        _ => STEPS.get(usize::from(kind.checked_sub(64)?)).copied(),
    }
}

/// Refusal 3 at the end of a book.
fn missing(length: usize) -> (String, &'static str) {
    let reason = match length {
        0 => "the first record is missing",
        _ => "no block stands",
    };
    ("end of the book".to_string(), reason)
}

/// What a refusal by 3 to 8 means of a record.
pub fn reason(content: &Content, refusal: Refusal) -> &'static str {
    match refusal {
        Refusal {
            number: 3,
            place: 0,
        } => "the first record is not C",
        Refusal { number: 3, .. } => "the record is out of order",
        Refusal { number: 4, .. } => beyond(content),
        Refusal { number: 5, .. } => above(content),
        Refusal { number: 6, .. } => unnamed(content),
        Refusal { number: 7, .. } => "a cell declaration breaks its typing rule",
        _ => "a step breaks its typing rule",
    }
}

/// Refusal 4: "A record is beyond 32 shapes, 32 cells, 64 blocks or 64 steps in a block."
fn beyond(content: &Content) -> &'static str {
    match content {
        Content::C(_) => unreachable!("C is not counted"),
        Content::Shape(_) => "more than 32 shapes",
        Content::Cell(_) => "more than 32 cells",
        Content::Block { .. } => "more than 64 blocks",
        Content::Step(_) => "more than 64 steps in a block",
    }
}

/// Refusal 5: "A label, bound or trust is above 15, C above 14, a register above 7, or a value
/// kind above 2."
fn above(content: &Content) -> &'static str {
    match content {
        Content::C(_) => "C is above 14",
        Content::Shape(Shape::Cell { .. }) => "the trust is above 15",
        Content::Shape(_) | Content::Block { .. } => "the bound is above 15",
        Content::Cell(_) => "the label is above 15 or the value kind above 2",
        Content::Step(Step::Lower { .. }) => "the label is above 15",
        Content::Step(Step::Relabel { .. }) => "the register is above 7 or the label above 15",
        Content::Step(_) => "a register is above 7",
    }
}

/// Refusal 6: "A content shape is not lower-numbered than its cell shape, a cell or new names no
/// cell shape, or a declared cell or block number does not exist."
fn unnamed(content: &Content) -> &'static str {
    match content {
        Content::Shape(_) => "the content shape is not lower-numbered",
        Content::Cell(_) => "the shape is no cell shape, or the value names what does not exist",
        Content::Step(Step::New { .. }) => "the shape is no cell shape",
        Content::Step(Step::Name { .. }) => "the cell does not exist",
        Content::Step(Step::Choose { .. }) => "a block does not exist",
        _ => "the block does not exist",
    }
}
