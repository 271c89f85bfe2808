//! The records of a book, and refusal 2.

use super::{refuse, DeclaredCell, Refusal, Shape, Step};

/// What a record says.
#[derive(Clone, Copy, Debug, PartialEq, Eq)]
pub enum Content {
    C(u8),
    Shape(Shape),
    Cell(DeclaredCell),
    Block { bound: u8 },
    Step(Step),
}

/// A record with its offset and its length in bytes.
pub struct Record {
    pub place: usize,
    pub size: usize,
    pub content: Content,
}

/// Refusal 2: "A kind is none of the above, or the book ends inside a body."
pub fn split(bytes: &[u8]) -> Result<Vec<Record>, Refusal> {
    let mut records = Vec::with_capacity(bytes.len() / 3 + 1);
    let mut place = 0;
    while place < bytes.len() {
        let Some((content, size)) = decode(place, &bytes[place..]) else {
            return refuse(2, place);
        };
        records.push(Record {
            place,
            size,
            content,
        });
        place += size;
    }
    Ok(records)
}

/// The record at the head of `rest`, with its size; none if its kind is unknown or its body cut.
// Inline, since the bench times `split`: others call it too, and a call for each record takes longer.
#[inline]
pub fn decode(place: usize, rest: &[u8]) -> Option<(Content, usize)> {
    match *rest {
        [1, c, ..] => Some((Content::C(c), 2)),
        [16, ..] => Some((Content::Shape(Shape::Plain), 1)),
        [17, bound, ..] => Some((Content::Shape(Shape::Code { bound }), 2)),
        [18, content, trust, ..] => Some((Content::Shape(Shape::Cell { content, trust }), 3)),
        [32, shape, label, value_kind, n0, n1, n2, n3, ..] => {
            let number = u32::from_le_bytes([n0, n1, n2, n3]);
            let cell = DeclaredCell {
                place,
                shape,
                label,
                value_kind,
                number,
            };
            Some((Content::Cell(cell), 8))
        }
        [48, bound, ..] => Some((Content::Block { bound }, 2)),
        _ => decode_step(rest).map(|(step, size)| (Content::Step(step), size)),
    }
}

/// As `decode`, for the kinds of step.
fn decode_step(rest: &[u8]) -> Option<(Step, usize)> {
    match *rest {
        [64, r, n0, n1, n2, n3, ..] => {
            let number = u32::from_le_bytes([n0, n1, n2, n3]);
            Some((Step::Put { r, number }, 6))
        }
        [65, r, cell, ..] => Some((Step::Name { r, cell }, 3)),
        [66, r, block, ..] => Some((Step::Code { r, block }, 3)),
        [67, r, a, b, ..] => Some((Step::Add { r, a, b }, 4)),
        [68, r, shape, a, ..] => Some((Step::New { r, shape, a }, 4)),
        [69, r, w, ..] => Some((Step::Read { r, w }, 3)),
        [70, w, a, ..] => Some((Step::Write { w, a }, 3)),
        [71, w, label, ..] => Some((Step::Relabel { w, label }, 3)),
        [72, label, ..] => Some((Step::Lower { label }, 2)),
        [73, block, ..] => Some((Step::Start { block }, 2)),
        [74, w, ..] => Some((Step::Exec { w }, 2)),
        [75, r, first, second, ..] => Some((Step::Choose { r, first, second }, 4)),
        _ => None,
    }
}
