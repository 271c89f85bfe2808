//! Faults of several stages in one book: "a stage covers the whole book before the next begins".

use super::rows::{append_steps, broad, cell, count, lower, step, with_number, Table, PLAIN_SHAPE};
use super::Write;
use crate::model::writer::Packed;

/// A fault that is put into the tables, and the number of its refusal.
type Fault = (u8, fn(&mut Packed));

/// The faults of each stage. Those of a later stage are put in first, so that at the end of the
/// tables they stand before those of an earlier one.
const STAGES: [&[Fault]; 5] = [
    &[(6, early_name), (6, late_name)],
    &[
        (5, early_limit),
        (5, late_limit),
        (5, early_spare),
        (5, late_spare),
    ],
    &[(4, many_shapes), (4, many_steps)],
    &[(2, wrong_count), (2, early_kind), (2, late_kind)],
    &[(1, too_long)],
];

/// Without blocks. Steps are then no longer counted.
const BLOCKLESS: [&[Fault]; 5] = [
    &[(6, early_name), (6, cell_name)],
    &[(5, early_limit), (5, early_spare), (5, cell_label)],
    &[(4, many_shapes), (4, many_cells)],
    &[(2, early_kind), (2, uncounted)],
    &[(1, too_long)],
];

pub fn writes() -> Vec<Write> {
    numbered().into_iter().map(|(_, write)| write).collect()
}

/// Every choice of at most one fault of each stage, with and without blocks, and of a buffer that is
/// too short or not; with the number of the refusal, 0 for none.
pub fn numbered() -> Vec<(u8, Write)> {
    let with_blocks = (0, broad());
    let mut none = broad();
    (none.blocks, none.steps) = (vec![], vec![]);
    let all = [chosen(with_blocks, &STAGES), chosen((3, none), &BLOCKLESS)];
    all.into_iter().flatten().flat_map(buffers).collect()
}

/// The tables, with no fault and with each, stage by stage.
fn chosen(base: (u8, Packed), stages: &[&[Fault]]) -> Vec<(u8, Packed)> {
    let mut all = vec![base];
    for stage in stages {
        let faulty = |before: &(u8, Packed)| stage.iter().map(|fault| put(before, fault)).collect();
        let more: Vec<Vec<_>> = all.iter().map(faulty).collect();
        all.extend(more.concat());
    }
    all
}

fn put((before, tables): &(u8, Packed), (number, fault): &Fault) -> (u8, Packed) {
    let mut tables = tables.clone();
    fault(&mut tables);
    let number = match before {
        0 => *number,
        _ => *before.min(number),
    };
    (number, tables)
}

/// A buffer that is long enough, and none.
fn buffers((number, tables): (u8, Packed)) -> [(u8, Write); 2] {
    let short = if number == 0 { 13 } else { number };
    let roomy = Write::roomy(tables);
    let none = Write {
        length: 0,
        ..roomy.clone()
    };
    [(number, roomy), (short, none)]
}

fn early_name(tables: &mut Packed) {
    tables.shapes[4] = 200;
}

fn cell_name(tables: &mut Packed) {
    tables.cells[14] = 0;
}

fn late_name(tables: &mut Packed) {
    append_steps(tables, step(73, [255, 0, 0], 0), 1);
}

fn early_limit(tables: &mut Packed) {
    tables.c = 15;
}

fn cell_label(tables: &mut Packed) {
    tables.cells[1] = 16;
}

fn late_limit(tables: &mut Packed) {
    append_steps(tables, step(64, [8, 0, 0], 1), 1);
}

fn early_spare(tables: &mut Packed) {
    tables.shapes[1] = 1;
}

fn late_spare(tables: &mut Packed) {
    append_steps(tables, step(73, [0, 0, 0], 1 << 16), 1);
}

fn many_shapes(tables: &mut Packed) {
    tables.shapes.extend(PLAIN_SHAPE.repeat(24));
}

fn many_cells(tables: &mut Packed) {
    tables.cells.extend(cell(1, 9, 0, 5).repeat(30));
}

fn many_steps(tables: &mut Packed) {
    append_steps(tables, lower(2), 65);
}

fn wrong_count(tables: &mut Packed) {
    let more = count(tables, 1) + 1;
    *tables = with_number(tables, Table::Blocks, 1, more);
}

fn early_kind(tables: &mut Packed) {
    tables.shapes[6] = 64;
}

fn late_kind(tables: &mut Packed) {
    append_steps(tables, step(16, [0; 3], 0), 1);
}

fn uncounted(tables: &mut Packed) {
    tables.steps.extend(lower(2));
}

fn too_long(tables: &mut Packed) {
    tables.cells.extend(cell(1, 9, 0, 5).repeat(4_096));
}
