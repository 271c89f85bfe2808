//! Refusal 3: the order of the groups, C, and books without a block.

use super::records::{
    block, c, cell, cell_shape, code_shape, lower, plain_shape, small, specimen, start,
    with_inserted, with_record, Draft, KINDS,
};
use super::Bytes;

pub fn books() -> Vec<Bytes> {
    let parts = [
        inserted_everywhere(),
        permuted_groups(),
        no_block(),
        not_c_first(),
        pairs_of_faults(),
    ];
    parts.concat()
}

/// Every group with two records or more, the blocks with a step each.
fn two_of_each() -> [Draft; 4] {
    [
        vec![c(3)],
        vec![plain_shape(), cell_shape(0, 9), code_shape(4)],
        vec![cell(1, 9, 0, 5), cell(1, 3, 2, 1)],
        vec![block(12), lower(4), block(2), start(1)],
    ]
}

/// A record of every kind before every record: a second C, a step before the first block, every
/// pair of groups.
fn inserted_everywhere() -> Vec<Bytes> {
    let base = two_of_each().concat();
    let mut books = Vec::new();
    for kind in KINDS {
        for before in 0..=base.len() {
            books.push(with_inserted(&base, before, specimen(kind)));
        }
    }
    books
}

/// The groups in all 24 orders.
fn permuted_groups() -> Vec<Bytes> {
    let groups = two_of_each();
    let mut books = Vec::new();
    for number in 0..256 {
        let order = [number / 64, number / 16 % 4, number / 4 % 4, number % 4];
        if (0..4).all(|group| order.contains(&group)) {
            books.push(order.map(|group| groups[group].concat()).concat());
        }
    }
    books
}

/// Books that end before their first block; also with faults of later stages.
fn no_block() -> Vec<Bytes> {
    let drafts: [Draft; 8] = [
        vec![c(0)],
        vec![c(14)],
        vec![c(15)],
        vec![c(3), plain_shape()],
        vec![c(3), plain_shape(), cell_shape(0, 9)],
        vec![c(3), plain_shape(), cell_shape(0, 9), cell(1, 9, 0, 5)],
        vec![c(3), cell(7, 16, 3, 5)],
        [vec![c(3)], vec![plain_shape(); 33]].concat(),
    ];
    drafts.iter().map(|draft| draft.concat()).collect()
}

/// The first record missing or replaced.
fn not_c_first() -> Vec<Bytes> {
    let mut books = vec![small()[1..].concat()];
    for kind in KINDS {
        books.push(with_record(&small(), 0, specimen(kind)));
        books.push(specimen(kind));
    }
    books
}

/// Two faults of this stage: the first one counts, but "no block stands" comes last.
fn pairs_of_faults() -> Vec<Bytes> {
    let drafts: [Draft; 7] = [
        vec![c(3), c(3), plain_shape()],
        vec![c(3), cell_shape(0, 1), lower(3), c(3)],
        vec![c(3), lower(3), plain_shape(), block(3)],
        vec![c(3), block(3), c(3), plain_shape()],
        vec![c(3), block(3), lower(1), plain_shape(), cell(0, 0, 0, 0)],
        vec![c(3), cell(0, 0, 0, 0), plain_shape(), cell(0, 0, 0, 0)],
        vec![plain_shape(), c(3), block(3)],
    ];
    drafts.iter().map(|draft| draft.concat()).collect()
}
