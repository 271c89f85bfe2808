//! Refusal 2: shape rows and step rows of every kind.

use super::rows::{broad, small, step, with_byte, Table};
use crate::model::writer::Packed;

/// The tables that have kinds.
const WITH_KINDS: [Table; 2] = [Table::Shapes, Table::Steps];

pub fn tables() -> Vec<Packed> {
    let parts = [any_kind(), bare(), pairs()];
    parts.concat()
}

/// Every kind in the first, a middle and the last row, the fields as they are.
fn any_kind() -> Vec<Packed> {
    let broad = broad();
    let mut all = Vec::new();
    for table in WITH_KINDS {
        let count = table.count(&broad);
        for row in [0, count / 2, count - 1] {
            all.extend((0..=255).map(|kind| with_byte(&broad, table, row, 0, kind)));
        }
    }
    all
}

/// Every kind with fields of 0, and with fields of 1.
fn bare() -> Vec<Packed> {
    let mut all = Vec::new();
    for kind in 0..=255 {
        for fields in [0, 1] {
            let mut tables = small();
            tables.shapes[3..6].copy_from_slice(&[kind, fields, fields]);
            all.push(tables);
            let mut tables = small();
            tables.steps[..8].copy_from_slice(&step(kind, [fields; 3], 0));
            all.push(tables);
        }
    }
    all
}

/// Two rows of no kind, also kinds of other tables.
fn pairs() -> Vec<Packed> {
    let broad = broad();
    let rows = [
        (Table::Shapes, 0),
        (Table::Shapes, 8),
        (Table::Steps, 0),
        (Table::Steps, 12),
        (Table::Steps, 35),
    ];
    let mut all = Vec::new();
    for (one, other) in rows.iter().flat_map(|one| rows.map(|other| (one, other))) {
        for kind in [0, 1, 15, 19, 32, 48, 63, 76, 80, 255] {
            let changed = with_byte(&broad, one.0, one.1, 0, kind);
            let own = if other.0 == Table::Shapes { 64 } else { 16 };
            all.push(with_byte(&changed, other.0, other.1, 0, own));
        }
    }
    all
}
