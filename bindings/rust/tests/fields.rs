//! The record and the event at an offset, by the tables of docs/FORMAT.md.

mod common;

use common::{BOOK_A, FOUR_STEPS};
use xemdulba::{event, record, Fields};

/// Bytes of one record or event; then its fields of one byte, absent ones 0, and its number.
type Sample = (&'static [u8], [u8; 3], u32);

/// A record of each kind.
const RECORDS: [Sample; 18] = [
    (&[0x01, 0x03], [3, 0, 0], 0),
    (&[0x10], [0, 0, 0], 0),
    (&[0x11, 0x0C], [12, 0, 0], 0),
    (&[0x12, 0x04, 0x09], [4, 9, 0], 0),
    (
        &[0x20, 0x01, 0x09, 0x02, 0x78, 0x56, 0x34, 0x12],
        [1, 9, 2],
        0x1234_5678,
    ),
    (&[0x30, 0x0C], [12, 0, 0], 0),
    (
        &[0x40, 0x07, 0xFF, 0xFE, 0xFD, 0xFC],
        [7, 0, 0],
        0xFCFD_FEFF,
    ),
    (&[0x41, 0x01, 0x02], [1, 2, 0], 0),
    (&[0x42, 0x03, 0x04], [3, 4, 0], 0),
    (&[0x43, 0x05, 0x06, 0x07], [5, 6, 7], 0),
    (&[0x44, 0xFF, 0xFE, 0xFD], [255, 254, 253], 0),
    (&[0x45, 0x01, 0x02], [1, 2, 0], 0),
    (&[0x46, 0x03, 0x04], [3, 4, 0], 0),
    (&[0x47, 0x05, 0x06], [5, 6, 0], 0),
    (&[0x48, 0x0B], [11, 0, 0], 0),
    (&[0x49, 0x3F], [63, 0, 0], 0),
    (&[0x4A, 0x07], [7, 0, 0], 0),
    (&[0x4B, 0x07, 0x3F, 0x3E], [7, 63, 62], 0),
];

/// An event of each kind.
const EVENTS: [Sample; 6] = [
    (&[0x50, 0x3F], [63, 0, 0], 0),
    (
        &[0x51, 0x03, 0x09, 0x02, 0x01, 0x00, 0x00, 0x80],
        [3, 9, 2],
        0x8000_0001,
    ),
    (&[0x52, 0x03, 0x09, 0x04], [3, 9, 4], 0),
    (
        &[0x53, 0x04, 0x05, 0xFF, 0x78, 0x56, 0x34, 0x12],
        [4, 5, 255],
        0x1234_5678,
    ),
    (&[0x54, 0x03, 0x09], [3, 9, 0], 0),
    (&[0x55, 0x03, 0x3E], [3, 62, 0], 0),
];

type Call = fn(&[u8], usize) -> Option<Fields>;

/// The two calls, each with its samples.
const CALLS: [(Call, &[Sample]); 2] = [(record, &RECORDS), (event, &EVENTS)];

/// What a sample is where it stands at an offset.
fn fields(sample: &Sample, offset: usize) -> Fields {
    let &(bytes, [first, second, third], number) = sample;
    Fields {
        kind: bytes[0],
        first,
        second,
        third,
        number,
        next: offset + bytes.len(),
    }
}

#[test]
fn every_kind_is_told_whole() {
    for (call, samples) in CALLS {
        for sample in samples {
            assert_eq!(call(sample.0, 0), Some(fields(sample, 0)));
        }
    }
}

/// What stands before and behind plays no part.
#[test]
fn every_kind_is_told_among_other_bytes() {
    for (call, samples) in CALLS {
        for sample in samples {
            let bytes = [&[0xEE; 5], sample.0, &[0xDD; 9]].concat();
            assert_eq!(call(&bytes, 5), Some(fields(sample, 5)));
        }
    }
}

#[test]
fn what_is_cut_is_not_told() {
    for (call, samples) in CALLS {
        for (bytes, ..) in samples {
            for length in 0..bytes.len() {
                assert_eq!(call(&bytes[..length], 0), None, "{bytes:?} cut to {length}");
            }
        }
    }
}

#[test]
fn other_kinds_are_not_told() {
    for (call, samples) in CALLS {
        for kind in 0..=255 {
            let mut bytes = [1; 16];
            bytes[0] = kind;
            let known = samples.iter().any(|sample| sample.0[0] == kind);
            assert_eq!(call(&bytes, 0).is_some(), known, "kind {kind}");
        }
    }
}

#[test]
fn nothing_is_told_past_the_end() {
    for (call, samples) in CALLS {
        for (bytes, ..) in samples.iter().chain([&(&[][..], [0; 3], 0)]) {
            let length = bytes.len();
            for offset in [length, length + 1, length + 8, usize::MAX / 2] {
                assert_eq!(call(bytes, offset), None);
            }
            for back in 0..10 {
                assert_eq!(call(bytes, usize::MAX - back), None);
            }
        }
    }
}

/// Offsets of what is told, each behind the one before; and where that ends.
fn walk(call: Call, bytes: &[u8]) -> (Vec<usize>, usize) {
    let (mut offsets, mut offset) = (vec![], 0);
    while let Some(fields) = call(bytes, offset) {
        assert!(fields.next > offset);
        offsets.push(offset);
        offset = fields.next;
    }
    (offsets, offset)
}

#[test]
fn book_a_and_its_events_are_walked() {
    let records = vec![0, 2, 3, 6, 14, 16, 19, 25];
    assert_eq!(walk(record, &BOOK_A), (records, 28));
    assert_eq!(walk(event, &FOUR_STEPS), (vec![0, 2, 4, 6], 8));
    assert_eq!(walk(record, &FOUR_STEPS), (vec![], 0));
    assert_eq!(walk(event, &BOOK_A), (vec![], 0));
}

/// The limits of books and lists are not asked for.
#[test]
fn long_bytes_are_walked_to_their_end() {
    let (offsets, end) = walk(record, &[0x10; 100_000]);
    assert_eq!((offsets.len(), end), (100_000, 100_000));
    let (offsets, end) = walk(event, &[0x50; 100_001]);
    assert_eq!((offsets.len(), end), (50_000, 100_000));
}
