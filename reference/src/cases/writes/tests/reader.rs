//! The writer beside the reader: of the bytes of sound rows the two say the same.

use super::super::fields::{Field, FIELDS};
use super::super::rows::{count, Table};
use super::*;
use crate::model::book::Refusal;

/// The record of a row; none if the kind is unknown, or a field is not 0 that it does not use.
fn record(tables: &Packed, table: Table, row: usize) -> Option<Vec<u8>> {
    let kind = table.kind(tables, row);
    let known = |entry: &&(Table, u8, usize, &[Field])| (entry.0, entry.1) == (table, kind);
    let &(_, _, first, fields) = FIELDS.iter().find(known)?;
    let bytes = &table.of(tables)[row * table.row()..][..table.row()];
    let mut record = vec![kind];
    for (&field, &byte) in fields.iter().zip(&bytes[first..]) {
        match field {
            Field::Spare if byte != 0 => return None,
            Field::Spare => {}
            _ => record.push(byte),
        }
    }
    match kind {
        32 | 64 => record.extend(&bytes[table.row() - 4..]),
        65.. if bytes[4..] != [0; 4] => return None,
        _ => {}
    }
    Some(record)
}

/// The bytes of the book; none where rows or counts are no tables of any bytes.
fn bytes(tables: &Packed) -> Option<Vec<u8>> {
    let mut bytes = vec![1, tables.c.min(255) as u8];
    for table in [Table::Shapes, Table::Cells] {
        for row in 0..table.count(tables) {
            bytes.extend(record(tables, table, row)?);
        }
    }
    let (mut next, steps) = (0, Table::Steps.count(tables));
    for row in 0..Table::Blocks.count(tables) {
        bytes.extend(record(tables, Table::Blocks, row)?);
        let end = next + count(tables, row) as usize;
        for row in next..end.min(steps) {
            bytes.extend(record(tables, Table::Steps, row)?);
        }
        next = end;
    }
    (next == steps).then_some(bytes)
}

#[test]
fn both_say_the_same() {
    let mut compared = BTreeMap::new();
    for case in chosen() {
        let Some(bytes) = bytes(&case.tables) else {
            continue;
        };
        let (written, out) = outcome(write, &case);
        let expected = match book::read(&bytes) {
            Ok(_) if case.length < bytes.len() => Err(Refusal {
                number: 13,
                place: 0,
            }),
            Ok(_) => Ok(bytes.len()),
            Err(refusal) => Err(refusal),
        };
        assert_eq!(written, expected, "{case:?}");
        if let Ok(length) = written {
            assert_eq!(out[..length], bytes);
        }
        let number = expected.err().map_or(0, |refusal| refusal.number);
        *compared.entry(number).or_insert(0) += 1;
    }
    for number in [0, 1, 3, 4, 5, 6, 13] {
        assert!(compared[&number] >= 20, "{compared:?}");
    }
}

/// What is beyond the output, and all of it after a refusal, is as it was.
#[test]
fn the_buffer_is_kept() {
    for case in chosen() {
        let (written, out) = outcome(write, &case);
        let kept = written.unwrap_or(0);
        let before = (kept..).map(super::super::before);
        assert!(out[kept..]
            .iter()
            .copied()
            .eq(before.take(out.len() - kept)));
    }
}
