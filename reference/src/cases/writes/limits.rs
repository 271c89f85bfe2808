//! Refusal 5: labels, bounds, trusts, C, registers and value kinds at their largest and above.

use super::fields::{spots, Field};
use super::rows::{broad, small};
use crate::model::writer::Packed;

pub fn tables() -> Vec<Packed> {
    let mut all: Vec<Packed> = high_c().collect();
    let broad = broad();
    for spot in spots(&broad)
        .iter()
        .filter(|spot| spot.field != Field::Spare)
    {
        let Some(limit) = spot.field.limit() else {
            continue;
        };
        for value in [0, limit, limit + 1, 2 * limit + 1, 128, 255] {
            all.push(spot.with(&broad, value));
        }
    }
    all
}

/// Every C of one byte, and those that are sound or not in their lowest byte.
fn high_c() -> impl Iterator<Item = Packed> {
    let longer = [
        256,
        256 + 3,
        256 + 14,
        511,
        65_536,
        1 << 31,
        u32::MAX - 3,
        u32::MAX,
    ];
    let all = (0..256).chain(longer);
    all.map(|c| Packed { c, ..small() })
}
