//! Refusals 5 and 6.

use super::*;

#[test]
fn refusal_5_limits() {
    let head = "01 03 10 12 00 09 20 01 09 00 05 00 00 00 30 0C ";
    let pairs = [
        ("40 07 FF FF FF FF", "40 08 00 00 00 00"),
        ("41 07 00", "41 08 00"),
        ("42 07 00", "42 08 00"),
        ("43 07 07 07", "43 08 07 07"),
        ("43 07 07 07", "43 07 08 07"),
        ("43 07 07 07", "43 07 07 08"),
        ("44 07 01 07", "44 08 01 07"),
        ("44 07 01 07", "44 07 01 08"),
        ("45 07 07", "45 08 07"),
        ("45 07 07", "45 07 08"),
        ("46 07 07", "46 08 07"),
        ("46 07 07", "46 07 08"),
        ("47 07 0F", "47 08 0F"),
        ("47 07 0F", "47 07 10"),
        ("48 0F", "48 10"),
        ("4A 07", "4A 08"),
        ("4B 07 00 00", "4B 08 00 00"),
        ("4B 00 00 00", "4B FF 00 00"),
        ("30 0F", "30 10"),
    ];
    for (largest, above) in pairs {
        assert_readable(&[head, largest].concat());
        assert_refused(&[head, above].concat(), 5, 16);
    }
}

#[test]
fn refusal_5_limits_of_declarations() {
    assert_readable("01 0E 30 00");
    assert_refused("01 0F 30 00", 5, 0);
    assert_readable("01 03 11 0F 30 00");
    assert_refused("01 03 11 10 30 00", 5, 2);
    assert_readable("01 03 10 12 00 0F 30 00");
    assert_refused("01 03 10 12 00 10 30 00", 5, 3);
    assert_readable("01 03 10 12 00 09 20 01 0F 02 00 00 00 00 30 00");
    assert_refused("01 03 10 12 00 09 20 01 10 02 00 00 00 00 30 00", 5, 6);
    assert_refused("01 03 10 12 00 09 20 01 0F 03 00 00 00 00 30 00", 5, 6);
}

#[test]
fn refusal_6_content_shapes() {
    assert_refused("01 03 12 00 09 30 00", 6, 2);
    assert_readable("01 03 10 12 00 09 12 01 09 30 00");
    assert_refused("01 03 10 12 00 09 12 02 09 30 00", 6, 6);
    assert_refused("01 03 10 12 02 09 10 30 00", 6, 3);
    assert_refused("01 03 10 12 FF 09 10 30 00", 6, 3);
}

#[test]
fn refusal_6_a_cell_or_new_names_no_cell_shape() {
    // Shape 0 is plain, 1 a cell shape, 2 a code shape; 3 does not exist.
    let cell = |shape| format!("01 03 10 12 00 09 11 05 20 {shape} 09 00 00 00 00 00 30 00");
    let new = |shape| format!("01 03 10 12 00 09 11 05 30 00 44 00 {shape} 00");
    assert_readable(&cell("01"));
    assert_readable(&new("01"));
    for shape in ["00", "02", "03", "FF"] {
        assert_refused(&cell(shape), 6, 8);
        assert_refused(&new(shape), 6, 10);
    }
}

#[test]
fn refusal_6_declared_values() {
    // One cell, two blocks.
    let cell = |value| format!("01 03 10 12 00 09 20 01 09 {value} 30 00 30 00");
    assert_readable(&cell("00 FF FF FF FF"));
    assert_readable(&cell("01 00 00 00 00"));
    assert_readable(&cell("02 01 00 00 00"));
    for value in ["01 01 00 00 00", "02 02 00 00 00", "01 00 01 00 00"] {
        assert_refused(&cell(value), 6, 6);
    }
    for value in ["02 00 00 00 01", "02 FF FF FF FF", "01 00 00 00 80"] {
        assert_refused(&cell(value), 6, 6);
    }
    // A declared cell may name a later one.
    assert_readable("01 03 10 12 00 09 20 01 09 01 01 00 00 00 20 01 09 01 01 00 00 00 30 00");
}

#[test]
fn refusal_6_steps_that_name() {
    let head = "01 03 10 12 00 09 20 01 09 00 05 00 00 00 30 00 30 00 ";
    for step in ["41 00 00", "42 00 01", "49 01"] {
        assert_readable(&[head, step].concat());
    }
    for step in ["41 00 01", "42 00 02", "49 02", "41 00 FF", "49 FF"] {
        assert_refused(&[head, step].concat(), 6, 18);
    }
    // Of the two blocks of a choose the first, the second, or both.
    for step in ["4B 00 00 01", "4B 00 01 00", "4B 07 01 01"] {
        assert_readable(&[head, step].concat());
    }
    for step in ["4B 00 02 01", "4B 00 01 02", "4B 00 02 02", "4B 00 00 FF"] {
        assert_refused(&[head, step].concat(), 6, 18);
    }
    // A register that is too high comes first.
    assert_refused(&[head, "4B 08 02 02"].concat(), 5, 18);
}
