//! Refusal 5: "A nonzero field that its kind doesn't use". It is of one stage with the limits, so
//! that of two faults the one at the earlier record counts.

use super::fields::{spots, Field, Spot};
use super::rows::{broad, with_number, Table};
use crate::model::writer::Packed;

pub fn tables() -> Vec<Packed> {
    let parts = [fields(), numbers(), pairs(), in_one_record()];
    parts.concat()
}

fn spare_spots(tables: &Packed) -> Vec<Spot> {
    let mut spots = spots(tables);
    spots.retain(|spot| spot.field == Field::Spare);
    spots
}

/// Every field of one byte that is not used.
fn fields() -> Vec<Packed> {
    let broad = broad();
    let mut all = Vec::new();
    for spot in spare_spots(&broad) {
        let values = [1, 2, 7, 8, 15, 16, 128, 255];
        all.extend(values.map(|value| spot.with(&broad, value)));
    }
    all
}

/// The number of every step: put alone uses it.
fn numbers() -> Vec<Packed> {
    let broad = broad();
    let mut all = Vec::new();
    for row in 0..Table::Steps.count(&broad) {
        for number in [1, 255, 256, 65_536, 1 << 24, 1 << 31, u32::MAX] {
            all.push(with_number(&broad, Table::Steps, row, number));
        }
    }
    all
}

/// A field that is not used before and behind one that is above its limit, or names nothing.
fn pairs() -> Vec<Packed> {
    let broad = broad();
    let (spare, others) = (spare_spots(&broad), spots(&broad));
    let mut all = Vec::new();
    for one in spare.iter().step_by(3) {
        let one = one.with(&broad, 1);
        let others = others.iter().filter(|spot| spot.field != Field::Spare);
        all.extend(others.step_by(5).map(|other| other.with(&one, 200)));
    }
    for row in [3, 20] {
        let one = with_number(&broad, Table::Steps, row, 9);
        all.extend(others.iter().step_by(2).map(|other| other.with(&one, 200)));
    }
    all
}

/// Two faults in one record.
fn in_one_record() -> Vec<Packed> {
    let broad = broad();
    let spots = spots(&broad);
    let mut all = Vec::new();
    for one in spare_spots(&broad) {
        let same = |other: &&Spot| (other.table, other.row) == (one.table, one.row);
        let with_one = one.with(&broad, 1);
        all.extend(
            spots
                .iter()
                .filter(same)
                .map(|other| other.with(&with_one, 255)),
        );
        if one.table == Table::Steps {
            all.push(with_number(&with_one, Table::Steps, one.row, 1));
        }
    }
    all
}
