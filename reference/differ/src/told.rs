//! What stands at an offset, in the reference's words. What a kind does not have has to be 0.

use reference::model::book::record::Content;
use reference::model::book::{DeclaredCell, Shape, Step};
use reference::model::machine::event::{Brought, Event};
use xemdulba::Fields;

/// The record at an offset of a book, and its size.
pub fn record(book: &[u8], place: usize) -> Option<(Content, usize)> {
    let fields = xemdulba::record(book, place)?;
    Some((content(place, fields), fields.next - place))
}

fn content(place: usize, fields: Fields) -> Content {
    match parts(fields) {
        (1, [c, 0, 0], 0) => Content::C(c),
        (16, [0, 0, 0], 0) => Content::Shape(Shape::Plain),
        (17, [bound, 0, 0], 0) => Content::Shape(Shape::Code { bound }),
        (18, [content, trust, 0], 0) => Content::Shape(Shape::Cell { content, trust }),
        (32, [shape, label, value_kind], number) => Content::Cell(DeclaredCell {
            place,
            shape,
            label,
            value_kind,
            number,
        }),
        (48, [bound, 0, 0], 0) => Content::Block { bound },
        _ => Content::Step(step(fields)),
    }
}

fn step(fields: Fields) -> Step {
    match parts(fields) {
        (64, [r, 0, 0], number) => Step::Put { r, number },
        (65, [r, cell, 0], 0) => Step::Name { r, cell },
        (66, [r, block, 0], 0) => Step::Code { r, block },
        (67, [r, a, b], 0) => Step::Add { r, a, b },
        (68, [r, shape, a], 0) => Step::New { r, shape, a },
        (69, [r, w, 0], 0) => Step::Read { r, w },
        (70, [w, a, 0], 0) => Step::Write { w, a },
        (71, [w, label, 0], 0) => Step::Relabel { w, label },
        (72, [label, 0, 0], 0) => Step::Lower { label },
        (73, [block, 0, 0], 0) => Step::Start { block },
        (74, [w, 0, 0], 0) => Step::Exec { w },
        (75, [r, first, second], 0) => Step::Choose { r, first, second },
        _ => panic!("no record has these fields: {fields:?}"),
    }
}

/// The event at an offset of a list, and its size.
pub fn event(list: &[u8], place: usize) -> Option<(Event, usize)> {
    let fields = xemdulba::event(list, place)?;
    Some((act(fields), fields.next - place))
}

fn act(fields: Fields) -> Event {
    let value = Brought {
        kind: fields.third,
        number: fields.number,
    };
    match parts(fields) {
        (80, [job, 0, 0], 0) => Event::Step { job },
        (81, [q, cell, _], _) => Event::Write { q, cell, value },
        (82, [q, cell, label], 0) => Event::Relabel { q, cell, label },
        (83, [q, shape, _], _) => Event::New { q, shape, value },
        (84, [q, cell, 0], 0) => Event::Exec { q, cell },
        (85, [q, block, 0], 0) => Event::Start { q, block },
        _ => panic!("no event has these fields: {fields:?}"),
    }
}

/// The kind, the fields of one byte, the number.
fn parts(fields: Fields) -> (u8, [u8; 3], u32) {
    let bytes = [fields.first, fields.second, fields.third];
    (fields.kind, bytes, fields.number)
}
