//! Refusal 2: unknown kinds and cut bodies.

use super::records::{broad, small, specimen, with_inserted, with_last, Draft, KINDS};
use super::{samples, Bytes};

/// Unknown kinds beside the known ones.
const UNKNOWN: [u8; 10] = [0, 2, 15, 19, 31, 33, 49, 63, 76, 255];

pub fn books() -> Vec<Bytes> {
    let parts = [
        (0..=255).map(|kind| vec![kind]).collect(),
        (0..=255).flat_map(every_kind).collect(),
        unknown_kinds(),
        cut_books(),
        cut_records(),
    ];
    parts.concat()
}

/// A byte as a kind: in the first record, in the middle and at the end of a sound book, with and
/// without bytes that may serve as its body.
fn every_kind(kind: u8) -> Vec<Bytes> {
    let small = small();
    let bytes_behind = [&[kind][..], &[0; 7]].concat();
    vec![
        bytes_behind.clone(),
        with_inserted(&small, 3, specimen(kind)),
        with_inserted(&small, 5, vec![kind]),
        with_last(&small, specimen(kind)),
        with_last(&small, bytes_behind),
    ]
}

fn unknown_kinds() -> Vec<Bytes> {
    let broad = broad();
    let mut books = Vec::new();
    for kind in UNKNOWN {
        for before in [0, 1, broad.len() / 2, broad.len() - 1, broad.len()] {
            books.push(with_inserted(&broad, before, vec![kind]));
        }
    }
    books
}

/// Sound books cut at every byte.
fn cut_books() -> Vec<Bytes> {
    let samples = samples::books();
    let wholes = [
        samples[0].clone(),
        samples[9].clone(),
        broad().concat(),
        three_blocks().concat(),
    ];
    let mut books = Vec::new();
    for whole in &wholes {
        books.extend((0..=whole.len()).map(|length| whole[..length].to_vec()));
    }
    books
}

/// A book without shapes and cells.
fn three_blocks() -> Draft {
    let kinds = [1, 48, 66, 48, 48, 64, 73];
    kinds.map(specimen).to_vec()
}

/// Every kind, cut at every byte of its body: as the first record, and at the end of a book.
fn cut_records() -> Vec<Bytes> {
    let mut books = Vec::new();
    for record in KINDS.map(specimen) {
        for length in 1..record.len() {
            books.push(record[..length].to_vec());
            books.push(with_last(&small(), record[..length].to_vec()));
        }
    }
    books
}
