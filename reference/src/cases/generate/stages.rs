//! Faults of several stages in one book: "a stage covers the whole book before the next begins".

use super::records::{
    block, c, cell, cell_shape, lower, name, plain_shape, put, small, start, Draft,
};
use super::Bytes;

/// Where a book has a fault of a stage.
#[derive(Clone, Copy)]
enum Fault {
    None,
    Early,
    Late,
}

const FAULTS: [Fault; 3] = [Fault::None, Fault::Early, Fault::Late];

/// Every choice for the stages 2 to 6, and pairs of single records.
pub fn books() -> Vec<Bytes> {
    let mut books: Vec<Bytes> = (0..243).map(book).collect();
    books.extend(pairs());
    books
}

/// The choices are the digits of `number` in base 3.
fn book(number: usize) -> Bytes {
    let mut draft = small();
    let mut digits = number;
    for stage in (2..=6).rev() {
        match FAULTS[digits % 3] {
            Fault::None => {}
            Fault::Early => early(stage, &mut draft),
            Fault::Late => late(stage, &mut draft),
        }
        digits /= 3;
    }
    draft.concat()
}

/// A fault among the first records.
fn early(stage: u8, draft: &mut Draft) {
    match stage {
        2 => draft.insert(1, vec![0]),
        3 => draft.insert(1, c(3)),
        4 => draft.splice(1..1, vec![plain_shape(); 33]).for_each(drop),
        5 => draft[0][1] = 15,
        _ => draft.insert(1, cell_shape(9, 0)),
    }
}

/// A fault at the end; that of an earlier stage comes to stand behind.
fn late(stage: u8, draft: &mut Draft) {
    match stage {
        2 => draft.push(vec![64, 1, 2]),
        3 => draft.push(plain_shape()),
        4 => draft.extend(vec![lower(2); 65]),
        5 => draft.push(put(8, 1)),
        _ => draft.push(start(255)),
    }
}

/// Records with a fault of stages 2 to 6 each, in pairs behind a sound book and, for the same
/// record, two faults at once.
fn pairs() -> Vec<Bytes> {
    let faulty: [Bytes; 9] = [
        vec![76],
        c(0),
        plain_shape(),
        cell(1, 9, 0, 5),
        vec![lower(0); 65].concat(),
        block(16),
        lower(16),
        name(0, 1),
        start(2),
    ];
    let sound = small().concat();
    let mut books = Vec::new();
    for first in &faulty {
        for second in &faulty {
            books.push([&sound[..], first, second].concat());
        }
    }
    let twice = [vec![65, 8, 1], vec![68, 0, 0, 8], vec![68, 8, 7, 0]];
    books.extend(twice.map(|both| [&sound[..], &both].concat()));
    books
}
