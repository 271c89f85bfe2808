//! Refusal 5: labels, bounds, trusts, C, registers and value kinds at their largest and above.

use super::records::{broad, places, small, specimen, with_byte, with_last};
use super::Bytes;

/// Kind, the field's byte in the record, its largest value.
const LIMITS: [(u8, usize, u8); 23] = [
    (1, 1, 14),
    (17, 1, 15),
    (18, 2, 15),
    (32, 2, 15),
    (32, 3, 2),
    (48, 1, 15),
    (64, 1, 7),
    (65, 1, 7),
    (66, 1, 7),
    (67, 1, 7),
    (67, 2, 7),
    (67, 3, 7),
    (68, 1, 7),
    (68, 3, 7),
    (69, 1, 7),
    (69, 2, 7),
    (70, 1, 7),
    (70, 2, 7),
    (71, 1, 7),
    (71, 2, 15),
    (72, 1, 15),
    (74, 1, 7),
    (75, 1, 7),
];

pub fn books() -> Vec<Bytes> {
    let mut books: Vec<Bytes> = (0..=255).map(|c| vec![1, c, 48, 0]).collect();
    for (kind, byte, limit) in LIMITS {
        for value in [limit, limit + 1, 128, 255] {
            books.extend(in_broad(kind, byte, value));
        }
        if kind >= 48 {
            books.extend(at_the_end(kind, byte, limit));
        }
    }
    books.extend(pairs_of_faults());
    books
}

/// The value in the first, a middle and the last record of its kind.
fn in_broad(kind: u8, byte: usize, value: u8) -> Vec<Bytes> {
    let broad = broad();
    let records = places(&broad, kind);
    let changed = records.into_iter();
    changed
        .map(|record| with_byte(&broad, record, byte, value))
        .collect()
}

/// The largest value and the one above in the last record of the book.
fn at_the_end(kind: u8, byte: usize, limit: u8) -> Vec<Bytes> {
    let with = |value| {
        let mut record = specimen(kind);
        record[byte] = value;
        with_last(&small(), record)
    };
    vec![with(limit), with(limit + 1)]
}

/// Two faults of this stage: the first record at fault counts.
fn pairs_of_faults() -> Vec<Bytes> {
    let mut books = Vec::new();
    for (middle_kind, byte) in [(17, 1), (32, 2), (48, 1), (70, 1)] {
        for (last_kind, other_byte) in [(18, 2), (32, 3), (48, 1), (64, 1), (72, 1), (74, 1)] {
            let mut draft = broad();
            let (middle, last) = (places(&draft, middle_kind)[1], places(&draft, last_kind)[2]);
            draft[middle][byte] = 200;
            draft[last][other_byte] = 16;
            books.push(draft.concat());
        }
    }
    books
}
