//! Each cause of each refusal occurs, and alone in its record.

use super::super::fields::{Field, FIELDS};
use super::super::rows::{count, record_size, Table};
use super::*;
use std::collections::BTreeSet;

/// A refusal, and what causes it: the kind of the record, and the byte of the field in its row; the
/// number of a step is byte 4, and a value that does not exist is its value kind. 0 where there is
/// none.
type Cause = (u8, u8, usize);

/// The tables and rows in the order of their records, each with its offset. The kinds are known.
fn places(tables: &Packed) -> Vec<(usize, Table, usize)> {
    let mut order: Vec<(Table, usize)> = Vec::new();
    for table in [Table::Shapes, Table::Cells] {
        order.extend((0..table.count(tables)).map(|row| (table, row)));
    }
    let mut steps = 0..Table::Steps.count(tables);
    for row in 0..Table::Blocks.count(tables) {
        order.push((Table::Blocks, row));
        let its_own = steps.by_ref().take(count(tables, row) as usize);
        order.extend(its_own.map(|row| (Table::Steps, row)));
    }
    let mut place = 2;
    let mut placed = Vec::new();
    for (table, row) in order {
        placed.push((place, table, row));
        place += record_size(table.kind(tables, row));
    }
    placed
}

/// The fields of a row that refusal 5 may be for.
fn above(tables: &Packed, table: Table, row: usize) -> Vec<usize> {
    let kind = table.kind(tables, row);
    let bytes = &table.of(tables)[row * table.row()..][..table.row()];
    let fields = FIELDS
        .iter()
        .find(|entry| (entry.0, entry.1) == (table, kind));
    let &(_, _, first, fields) = fields.expect("the kinds are known");
    let limited = (first..).zip(fields);
    let too_high = limited.filter(|(byte, field)| {
        let limit = field.limit();
        limit.is_some_and(|limit| bytes[*byte] > limit)
    });
    let mut found: Vec<usize> = too_high.map(|(byte, _)| byte).collect();
    if kind > 64 && bytes[4..] != [0; 4] {
        found.push(4);
    }
    found
}

/// The cause of a refusal; none if it has two.
fn cause(tables: &Packed, refusal: Refusal) -> Option<Cause> {
    let Refusal { number, place } = refusal;
    let alone = (number, 0, 0);
    if [1, 3, 13].contains(&number) || place == 0 {
        return Some(alone);
    }
    let placed = places(tables);
    let here = placed.iter().find(|here| here.0 == place);
    let &(_, table, row) = here.expect("a record is at the place");
    let kind = table.kind(tables, row);
    match number {
        2 => Some((2, if table == Table::Shapes { 16 } else { 64 }, 0)),
        4 => Some((4, table as u8, 0)),
        5 => match above(tables, table, row)[..] {
            [byte] => Some((5, kind, byte)),
            _ => None,
        },
        _ => Some((6, kind, missing(tables, table, row))),
    }
}

/// Of a cell, its value kind if its shape is a cell shape.
fn missing(tables: &Packed, table: Table, row: usize) -> usize {
    if table != Table::Cells {
        return 0;
    }
    let bytes = &tables.cells[row * table.row()..];
    let shapes = Table::Shapes.rows(tables, 18);
    match shapes.contains(&bytes[0].into()) {
        true => bytes[2].into(),
        false => 0,
    }
}

/// All that there can be.
fn expected() -> BTreeSet<Cause> {
    let mut all = BTreeSet::from([(1, 0, 0), (2, 0, 0), (2, 16, 0), (2, 64, 0), (3, 0, 0)]);
    all.extend((0..4).map(|table| (4, table, 0)));
    all.insert((5, 0, 0));
    for (_, kind, first, fields) in FIELDS {
        for (byte, field) in (first..).zip(fields) {
            all.insert(match field.limit() {
                Some(_) => (5, kind, byte),
                None => (6, kind, 0),
            });
        }
        if kind > 64 {
            all.insert((5, kind, 4));
        }
    }
    all.extend([(6, 32, 1), (6, 32, 2), (13, 0, 0)]);
    all
}

#[test]
fn every_cause_occurs() {
    let mut found = BTreeSet::new();
    for case in chosen() {
        if let Err(refusal) = outcome(write, &case).0 {
            found.extend(cause(&case.tables, refusal));
        }
    }
    assert_eq!(found, expected());
}

/// Of two faults of refusal 5 in two records, one of them a field that is not used, the first counts.
#[test]
fn a_spare_field_stands_before_and_behind_a_limit() {
    let (mut before, mut behind) = (0, 0);
    for case in spare::tables().into_iter().map(Write::roomy) {
        let Err(Refusal { number: 5, place }) = outcome(write, &case).0 else {
            continue;
        };
        let placed = places(&case.tables).into_iter();
        let faulty = placed.filter(|&(_, table, row)| !above(&case.tables, table, row).is_empty());
        let faulty: Vec<_> = faulty.collect();
        assert_eq!(faulty[0].0, place);
        if let [one, other] = faulty[..] {
            let is_spare =
                |(_, table, row): (usize, Table, usize)| is_spare(&case.tables, table, row);
            before += usize::from(is_spare(one) && !is_spare(other));
            behind += usize::from(!is_spare(one) && is_spare(other));
        }
    }
    assert!(before >= 20 && behind >= 20, "{before} {behind}");
}

/// All that is at fault in the row are fields that are not used.
fn is_spare(tables: &Packed, table: Table, row: usize) -> bool {
    let kind = table.kind(tables, row);
    let entry = FIELDS
        .iter()
        .find(|entry| (entry.0, entry.1) == (table, kind));
    let &(_, _, first, fields) = entry.expect("the kinds are known");
    let unused = |byte: usize| byte == 4 || fields[byte - first] == Field::Spare;
    above(tables, table, row).into_iter().all(unused)
}
