//! 02, Four: "With P above C, both bounds must be at least P, and r must be plain unless its effect is
//! low." The world is that of the other steps: blocks 1, 2 and 3 have the bounds 15, 11 and 12.

use super::steps::{breaks, goes_on, goes_on_low, passes};
use super::*;

#[test]
fn both_bounds_are_at_least_p() {
    for blocks in ["01 03", "03 01", "03 03", "01 01", "00 00", "00 01"] {
        goes_on(12, &["4B 00", blocks].join(" "));
    }
    for blocks in ["02 01", "01 02", "02 02", "02 00", "00 02"] {
        breaks(12, &["4B 00", blocks].join(" "), 0);
    }
    // Bound 12 is one above P, at it, and one below; the other bound is 15.
    for blocks in ["03 01", "01 03"] {
        let step = ["4B 00", blocks].join(" ");
        goes_on(11, &step);
        goes_on(12, &step);
        breaks(13, &step, 0);
    }
}

#[test]
fn p_counts_and_not_the_bound_of_the_block() {
    for blocks in ["02 01", "01 02", "02 02"] {
        goes_on(12, &["48 0B 4B 00", blocks].join(" "));
        breaks(12, &["48 0C 4B 00", blocks].join(" "), 2);
    }
}

/// C is 3. Block 0 of this bound chooses between blocks of these bounds.
fn between(p: u8, first: u8, second: u8) -> String {
    format!("01 03 30 {p:02X} 4B 00 01 02 30 {first:02X} 30 {second:02X}")
}

#[test]
fn just_above_c_the_bounds_are_above_c() {
    assert_accepted(&between(4, 4, 4));
    assert_refused(&between(4, 3, 4), 8, 4);
    assert_refused(&between(4, 4, 3), 8, 4);
    assert_refused(&between(4, 0, 0), 8, 4);
    assert_accepted(&between(15, 15, 15));
    assert_refused(&between(15, 14, 15), 8, 4);
    assert_refused(&between(15, 15, 14), 8, 4);
}

#[test]
fn r_is_plain_if_its_effect_is_high() {
    goes_on(12, "4B 07 01 03");
    goes_on(12, "40 05 09 00 00 00 4B 05 01 03");
    goes_on(12, "43 02 00 01 4B 02 01 03");
    // Read from the plain cell of trust 9.
    goes_on(12, "41 00 00 45 01 00 4B 01 01 03");
    // The names of a high and of a low cell, and code.
    breaks(12, "41 00 00 4B 00 01 03", 3);
    breaks(12, "41 00 01 4B 00 01 03", 3);
    breaks(12, "42 00 01 4B 00 01 03", 3);
    // Another register may be what it likes.
    goes_on(12, "41 00 00 42 01 01 4B 02 01 03");
    // Code and a cell that were read, and a cell that was made.
    breaks(12, "41 00 02 45 01 00 4B 01 01 03", 6);
    breaks(12, "41 00 03 45 01 00 4B 01 01 03", 6);
    breaks(12, "44 01 02 00 4B 01 01 03", 4);
}

#[test]
fn r_of_low_effect_may_be_anything() {
    // Read from the low cells, of plain and of cells.
    goes_on(12, "41 00 01 45 00 00 4B 00 01 03");
    goes_on(12, "41 00 04 45 00 00 4B 00 01 03");
    // Read through what was read, and a sum with it.
    goes_on(12, "41 00 04 45 00 00 45 01 00 4B 01 01 03");
    goes_on(12, "41 00 01 45 00 00 43 02 00 01 4B 02 01 03");
    // The bounds are asked for all the same.
    breaks(12, "41 00 01 45 00 00 4B 00 02 01", 6);
    breaks(12, "41 00 01 45 00 00 4B 00 01 02", 6);
}

#[test]
fn at_low_p_it_passes() {
    for p in [0, 2, 3] {
        for bounds in [(0, 0), (0, 15), (15, 0), (1, 1)] {
            assert_accepted(&between(p, bounds.0, bounds.1));
        }
        for r in ["", "41 00 00", "41 00 01", "42 00 02"] {
            goes_on_low(p, &[r, "4B 00 02 02"].join(" "));
        }
    }
    goes_on_low(12, "41 00 00 48 03 4B 00 02 02");
    goes_on_low(12, "48 03 42 00 01 4B 00 02 02");
    assert_accepted(&between(12, 0, 0).replace("4B", "48 03 42 00 01 4B"));
}

#[test]
fn it_passes_behind_a_stuck_step() {
    passes(12, "48 0D 4B 00 02 02");
    passes(12, "48 0D 41 00 00 4B 00 01 03");
    passes(8, "41 00 00 46 00 01 4B 00 02 02 42 00 01 4B 00 02 02");
}

#[test]
fn it_leaves_p_the_registers_and_the_need_of_a_lower() {
    goes_on(12, "41 00 00 4B 01 01 03 46 00 01");
    goes_on(12, "4B 00 01 03 4B 00 01 03 49 03");
    breaks(12, "4B 00 01 03 49 02", 4);
    breaks(12, "4B 00 01 03 44 02 01 00", 4);
    goes_on(12, "48 0C 4B 00 01 03 44 02 01 00");
}
