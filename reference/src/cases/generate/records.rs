//! Records as bytes, and books as lists of records.

use super::Bytes;

/// A book as a list of records.
pub type Draft = Vec<Bytes>;

/// Every kind of record; choose, which 02, Four has brought, is the last.
pub const KINDS: [u8; 18] = [
    1, 16, 17, 18, 32, 48, 64, 65, 66, 67, 68, 69, 70, 71, 72, 73, 74, 75,
];

pub fn c(c: u8) -> Bytes {
    vec![1, c]
}

pub fn plain_shape() -> Bytes {
    vec![16]
}

pub fn code_shape(bound: u8) -> Bytes {
    vec![17, bound]
}

pub fn cell_shape(content: u8, trust: u8) -> Bytes {
    vec![18, content, trust]
}

pub fn cell(shape: u8, label: u8, value_kind: u8, number: u32) -> Bytes {
    [&[32, shape, label, value_kind], &number.to_le_bytes()[..]].concat()
}

pub fn block(bound: u8) -> Bytes {
    vec![48, bound]
}

pub fn put(r: u8, number: u32) -> Bytes {
    [&[64, r], &number.to_le_bytes()[..]].concat()
}

pub fn name(r: u8, cell: u8) -> Bytes {
    vec![65, r, cell]
}

pub fn code(r: u8, block: u8) -> Bytes {
    vec![66, r, block]
}

pub fn add(r: u8, a: u8, b: u8) -> Bytes {
    vec![67, r, a, b]
}

pub fn new(r: u8, shape: u8, a: u8) -> Bytes {
    vec![68, r, shape, a]
}

pub fn read(r: u8, w: u8) -> Bytes {
    vec![69, r, w]
}

pub fn write(w: u8, a: u8) -> Bytes {
    vec![70, w, a]
}

pub fn relabel(w: u8, label: u8) -> Bytes {
    vec![71, w, label]
}

pub fn lower(label: u8) -> Bytes {
    vec![72, label]
}

pub fn start(block: u8) -> Bytes {
    vec![73, block]
}

pub fn exec(w: u8) -> Bytes {
    vec![74, w]
}

pub fn choose(r: u8, first: u8, second: u8) -> Bytes {
    vec![75, r, first, second]
}

/// A record of this kind that is sound in a book whose shape 1 is a cell shape and which has a
/// cell; an unknown kind gets no body.
pub fn specimen(kind: u8) -> Bytes {
    match kind {
        1 => c(4),
        17 => code_shape(6),
        18 => cell_shape(0, 2),
        32 => cell(1, 7, 0, 300),
        48 => block(11),
        64 => put(6, 70_000),
        65 => name(5, 0),
        66 => code(4, 0),
        67 => add(3, 2, 1),
        68 => new(2, 1, 3),
        69 => read(1, 4),
        70 => write(7, 5),
        71 => relabel(0, 10),
        72 => lower(5),
        73 => start(0),
        74 => exec(3),
        75 => choose(2, 0, 0),
        _ => vec![kind],
    }
}

/// One step of every kind.
pub fn every_step() -> Draft {
    (64..=75).map(specimen).collect()
}

/// Every group, small: two shapes, a cell, and a block of two steps.
pub fn small() -> Draft {
    vec![
        c(3),
        plain_shape(),
        cell_shape(0, 9),
        cell(1, 9, 0, 5),
        block(12),
        name(0, 0),
        write(0, 1),
    ]
}

/// Three records of every kind except C and block: 9 shapes, 3 cells, 4 blocks of which block 1
/// is empty. The chooses stand last, so that whatever stands before them keeps its place.
pub fn broad() -> Draft {
    let head = vec![
        c(3),
        plain_shape(),
        cell_shape(0, 9),
        code_shape(5),
        cell_shape(2, 4),
        plain_shape(),
        code_shape(2),
        plain_shape(),
        code_shape(15),
        cell_shape(3, 0),
        cell(1, 9, 0, 5),
        cell(3, 15, 2, 3),
        cell(8, 0, 1, 2),
        block(12),
    ];
    let of_01 = every_step()[..11].to_vec();
    let empty_then = vec![block(0), block(15)];
    let parts = [
        head,
        of_01.clone(),
        empty_then,
        of_01.clone(),
        vec![block(3)],
        of_01,
        vec![specimen(75); 3],
    ];
    parts.concat()
}

/// As many shapes, cells and blocks as there may be; the last shape is a cell shape, and the
/// first, the middle and the last block have steps.
pub fn wide() -> Draft {
    let mut draft = vec![c(14), plain_shape()];
    draft.extend((0..31).map(|content| cell_shape(content, content % 16)));
    draft.extend((0..32).map(|number| cell(31 - number % 31, 15, 1, number.into())));
    for number in 0..64 {
        draft.push(block(number % 16));
        if [0, 31, 63].contains(&number) {
            draft.extend([name(0, 31), code(1, 63), start(63), new(2, 31, 0)]);
        }
    }
    draft
}

/// The records of a kind: the first, a middle and the last one.
pub fn places(draft: &Draft, kind: u8) -> Vec<usize> {
    let all: Vec<usize> = (0..draft.len())
        .filter(|&record| draft[record][0] == kind)
        .collect();
    let mut chosen = vec![all[0], all[all.len() / 2], all[all.len() - 1]];
    chosen.dedup();
    chosen
}

/// The book with one byte of one record changed.
pub fn with_byte(draft: &Draft, record: usize, byte: usize, value: u8) -> Bytes {
    let mut changed = draft.clone();
    changed[record][byte] = value;
    changed.concat()
}

/// The book with one record replaced.
pub fn with_record(draft: &Draft, record: usize, by: Bytes) -> Bytes {
    let mut changed = draft.clone();
    changed[record] = by;
    changed.concat()
}

/// The book with a record put in before the given one.
pub fn with_inserted(draft: &Draft, before: usize, record: Bytes) -> Bytes {
    let mut changed = draft.clone();
    changed.insert(before, record);
    changed.concat()
}

/// The book with a record added at its end.
pub fn with_last(draft: &Draft, record: Bytes) -> Bytes {
    with_inserted(draft, draft.len(), record)
}
