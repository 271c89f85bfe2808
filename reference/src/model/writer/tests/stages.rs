//! Each refusal, and which of two is tried first.

use super::*;

/// A row: kind, x, y, z, number.
fn step(kind: u8, fields: [u8; 3], number: u32) -> Vec<u8> {
    [&[kind], &fields[..], &number.to_le_bytes()].concat()
}

fn block(bound: u8, steps: u32) -> Vec<u8> {
    [&[bound], &steps.to_le_bytes()[..]].concat()
}

/// The tables of A, changed.
fn a_with(change: impl FnOnce(&mut Packed)) -> Packed {
    let mut tables = ROWS_OF_A.packed();
    change(&mut tables);
    tables
}

#[test]
fn refusal_1_counts_all_rows() {
    // 28 bytes of A, and plain shapes or steps that no block counts.
    let shapes = |count| a_with(|tables| tables.shapes.extend([16, 0, 0].repeat(count)));
    assert_refused(&shapes(32_740), 4, 2 + 4 + 30);
    assert_refused(&shapes(32_741), 1, 0);
    let steps = |count| a_with(|tables| tables.steps.extend(step(72, [0; 3], 0).repeat(count)));
    assert_refused(&steps(16_370), 2, 0);
    assert_refused(&steps(16_371), 1, 0);
}

#[test]
fn refusal_1_counts_a_row_of_an_unknown_kind_as_one_byte() {
    let shapes = |count| a_with(|tables| tables.shapes.extend([64, 0, 0].repeat(count)));
    assert_refused(&shapes(32_740), 2, 6);
    assert_refused(&shapes(32_741), 1, 0);
    let steps = |count| a_with(|tables| tables.steps.extend([16; 8].repeat(count)));
    assert_refused(&steps(32_740), 2, 0);
    assert_refused(&steps(32_741), 1, 0);
}

#[test]
fn refusal_2_is_for_counts_that_do_not_add_up() {
    for count in [0, 2, 4, u32::MAX] {
        assert_refused(&a_with(|tables| tables.blocks = block(12, count)), 2, 0);
    }
    // In 32 bits the sum would be 3, and 0.
    let pair = [block(12, u32::MAX), block(12, 4)].concat();
    assert_refused(&a_with(|tables| tables.blocks = pair), 2, 0);
    let pair = [block(12, u32::MAX), block(12, 1)].concat();
    let no_steps = a_with(|tables| (tables.blocks, tables.steps) = (pair, vec![]));
    assert_refused(&no_steps, 2, 0);
    assert_refused(&a_with(|tables| tables.blocks.clear()), 2, 0);
}

#[test]
fn refusal_2_is_at_the_first_row_of_an_unknown_kind() {
    for kind in (0..=255).filter(|kind| !(16..=18).contains(kind)) {
        assert_refused(&a_with(|tables| tables.shapes[3] = kind), 2, 3);
    }
    for kind in (0..=255).filter(|kind| !(64..=75).contains(kind)) {
        assert_refused(&a_with(|tables| tables.steps[8] = kind), 2, 19);
    }
    // A cell shape is two bytes longer than a plain one.
    let two = a_with(|tables| (tables.shapes[0], tables.steps[0]) = (18, 76));
    assert_refused(&two, 2, 18);
    let counts_too = a_with(|tables| (tables.shapes[0], tables.blocks[1]) = (76, 4));
    assert_refused(&counts_too, 2, 0);
}

#[test]
fn refusal_3_is_at_the_length() {
    let no_block = a_with(|tables| (tables.blocks, tables.steps) = (vec![], vec![]));
    assert_refused(&no_block, 3, 14);
    let mut later = no_block.clone();
    later.shapes.extend([16, 1, 0].repeat(31));
    assert_refused(&later, 3, 14 + 31);
    later.shapes[0] = 0;
    assert_refused(&later, 2, 2);
}

#[test]
fn refusal_4_is_at_the_record_beyond() {
    let shapes = a_with(|tables| tables.shapes.extend([16, 0, 0].repeat(31)));
    assert_refused(&shapes, 4, 6 + 30);
    let cells = a_with(|tables| tables.cells = hex(ROWS_OF_A.cells).repeat(33));
    assert_refused(&cells, 4, 6 + 32 * 8);
    let blocks = a_with(|tables| tables.blocks.extend(block(0, 0).repeat(64)));
    assert_refused(&blocks, 4, 28 + 63 * 2);
    let steps = |count: u32| {
        a_with(|tables| {
            tables.blocks = [block(12, 3), block(0, count), block(1, 0)].concat();
            tables
                .steps
                .extend(step(72, [15, 0, 0], 0).repeat(count as usize));
        })
    };
    assert!(written(&steps(64), 40_000).is_ok());
    assert_refused(&steps(65), 4, 30 + 64 * 2);
}

#[test]
fn refusal_4_comes_before_5() {
    let mut tables = a_with(|tables| tables.shapes.extend([16, 0, 0].repeat(31)));
    tables.shapes[1] = 1;
    tables.c = 15;
    assert_refused(&tables, 4, 6 + 30);
}

#[test]
fn refusal_5_is_a_field_above_its_limit_or_one_that_is_not_used() {
    let with_step = |row: Vec<u8>| a_with(|tables| tables.steps[8..16].copy_from_slice(&row));
    let sound = [
        step(64, [7, 0, 0], u32::MAX),
        step(65, [7, 0, 0], 0),
        step(68, [7, 1, 7], 0),
        step(71, [7, 15, 0], 0),
        step(73, [0, 0, 0], 0),
        step(75, [7, 0, 0], 0),
    ];
    for row in sound {
        assert!(written(&with_step(row.clone()), 40_000).is_ok(), "{row:?}");
    }
    let faulty = [
        step(64, [8, 0, 0], 0),
        step(64, [0, 1, 0], 0),
        step(64, [0, 0, 1], 0),
        step(65, [0, 0, 1], 0),
        step(65, [0, 0, 0], 1),
        step(67, [0, 0, 8], 0),
        step(67, [0, 0, 0], 1 << 24),
        step(71, [0, 16, 0], 0),
        step(72, [0, 1, 0], 0),
        step(73, [0, 0, 0], 256),
        step(74, [0, 0, 255], 0),
        step(75, [8, 0, 0], 0),
        step(75, [255, 1, 1], 0),
        step(75, [0, 0, 0], 1),
        step(75, [0, 0, 0], 1 << 24),
    ];
    for row in faulty {
        assert_refused(&with_step(row), 5, 19);
    }
}

#[test]
fn refusal_5_is_one_stage() {
    // A spare field before a label that is too high, and behind it.
    let before = a_with(|tables| (tables.shapes[2], tables.cells[1]) = (1, 16));
    assert_refused(&before, 5, 2);
    let behind = a_with(|tables| (tables.cells[1], tables.steps[3]) = (16, 1));
    assert_refused(&behind, 5, 6);
    let later = a_with(|tables| (tables.shapes[4], tables.steps[3]) = (1, 1));
    assert_refused(&later, 5, 16);
}

#[test]
fn a_cells_number_is_always_used() {
    let plain = a_with(|tables| tables.cells[3..].fill(255));
    assert!(written(&plain, 28).is_ok());
    for kind in [1, 2] {
        let value =
            |number: u8| a_with(|tables| (tables.cells[2], tables.cells[3]) = (kind, number));
        assert!(written(&value(0), 28).is_ok());
        assert_refused(&value(1), 6, 6);
    }
    assert_refused(&a_with(|tables| tables.cells[2] = 3), 5, 6);
}

#[test]
fn refusal_6_is_what_does_not_exist() {
    assert_refused(&a_with(|tables| tables.shapes[4] = 1), 6, 3);
    assert_refused(&a_with(|tables| tables.cells[0] = 0), 6, 6);
    assert_refused(&a_with(|tables| tables.cells[0] = 2), 6, 6);
    assert_refused(&a_with(|tables| tables.steps[2] = 1), 6, 16);
    let with_last = |row: Vec<u8>| a_with(|tables| tables.steps[16..].copy_from_slice(&row));
    assert_refused(&with_last(step(66, [0, 1, 0], 0)), 6, 25);
    assert_refused(&with_last(step(68, [0, 0, 0], 0)), 6, 25);
    assert_refused(&with_last(step(73, [1, 0, 0], 0)), 6, 25);
    for blocks in [[0, 1], [1, 0], [1, 1], [0, 255], [255, 0]] {
        let [first, second] = blocks;
        assert_refused(&with_last(step(75, [0, first, second], 0)), 6, 25);
    }
}
