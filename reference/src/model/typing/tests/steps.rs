//! The rule of each step.

use super::*;

/// C is 3. Shapes: 0 plain; 1 plain cell of trust 9; 2 plain cell of trust 3; 3 code 12; 4 cell
/// of 3, trust 12; 5 cell of 1, trust 9; 6 cell of 1, trust 2; 7 plain cell of trust 12. Cells 0
/// to 5 are of shapes 1, 2, 4, 5, 6, 7.
const WORLD: &str = "01 03  10  12 00 09  12 00 03  11 0C  12 03 0C  12 01 09  12 01 02  12 00 0C
    20 01 0F 00 00 00 00 00  20 02 00 00 00 00 00 00  20 04 0C 02 01 00 00 00
    20 05 09 01 00 00 00 00  20 06 00 01 00 00 00 00  20 07 0C 00 00 00 00 00";

/// Where the steps of the world's block 0 begin.
const STEPS: usize = 73;

/// Block 0 with these steps; blocks 1, 2 and 3 have the bounds 15, 11 and 12.
fn world(bound: u8, steps: &str) -> String {
    format!("{WORLD} 30 {bound:02X} {steps} 30 0F 30 0B 30 0C")
}

pub fn passes(bound: u8, steps: &str) {
    assert_accepted(&world(bound, steps));
}

/// The step at this offset in the steps breaks its rule.
pub fn breaks(bound: u8, steps: &str, at: usize) {
    assert_refused(&world(bound, steps), 8, STEPS + at);
}

/// The steps pass and are not stuck: a read through a plain register behind them breaks.
pub fn goes_on(bound: u8, steps: &str) {
    passes(bound, steps);
    let behind = hex(steps).len();
    breaks(bound, &[steps, "45 06 07"].join(" "), behind);
}

/// The last step is stuck: what would break behind it passes.
fn sticks(bound: u8, steps: &str) {
    passes(bound, steps);
    passes(
        bound,
        &[steps, "45 06 07 4A 07 44 06 01 07 49 00"].join(" "),
    );
}

/// As `goes_on` for P at or below C, where only new of high trust breaks.
pub fn goes_on_low(bound: u8, steps: &str) {
    passes(bound, steps);
    let behind = hex(steps).len();
    breaks(bound, &[steps, "44 06 01 07"].join(" "), behind);
}

#[test]
fn add_asks_for_plain_operands_of_high_effect() {
    goes_on(12, "43 02 00 01");
    breaks(12, "41 00 00 43 02 00 01", 3);
    breaks(12, "41 00 00 43 02 01 00", 3);
    breaks(12, "42 00 01 43 02 00 01", 3);
    breaks(12, "42 00 01 43 02 01 00", 3);
    // Register 0 is read from the low cell.
    goes_on(12, "41 00 01 45 00 00 43 02 00 01");
    goes_on(12, "41 00 01 45 00 00 43 02 01 00");
    goes_on(12, "41 00 01 45 00 00 43 02 00 00");
    breaks(12, "41 00 01 45 00 00 41 01 00 43 02 00 01", 9);
    breaks(12, "41 00 01 45 00 00 41 01 00 43 02 01 00", 9);
}

#[test]
fn add_gives_the_least_effect() {
    // Register 1 is read from a cell of trust 9, register 4 names that cell, 5 one of trust 12.
    let head = "41 04 00 45 01 04 41 05 05 ";
    goes_on(12, &[head, "43 02 01 00 46 04 02"].concat());
    breaks(12, &[head, "43 02 01 00 46 05 02"].concat(), 13);
    breaks(12, &[head, "43 02 00 01 46 05 02"].concat(), 13);
    goes_on(12, &[head, "43 02 00 00 46 05 02"].concat());
    // A low operand makes the sum low.
    let low = "41 04 00 41 05 01 45 01 05 43 02 ";
    breaks(12, &[low, "01 00 46 04 02"].concat(), 13);
    breaks(12, &[low, "00 01 46 04 02"].concat(), 13);
}

#[test]
fn lower_at_every_p() {
    goes_on(12, "48 0C");
    goes_on(12, "48 04");
    sticks(12, "48 0D");
    sticks(4, "48 05");
    goes_on_low(12, "48 03");
    goes_on_low(3, "48 03");
    goes_on_low(2, "48 03");
    goes_on_low(0, "48 02 48 01 48 03");
    sticks(3, "48 04");
    sticks(0, "48 0F");
    sticks(12, "48 03 48 04");
    sticks(12, "48 09 48 0A");
    goes_on(12, "48 09 48 09 48 08");
}

#[test]
fn new_asks_for_an_earlier_lower() {
    breaks(12, "44 02 01 00", 0);
    goes_on(12, "48 0C 44 02 01 00");
    goes_on(12, "48 0C 40 00 00 00 00 00 44 02 01 00");
    breaks(12, "44 02 01 00 48 0C", 0);
    goes_on(12, "48 0C 44 02 01 00 44 02 01 00");
    // Low trust passes, whatever the content.
    goes_on(12, "44 02 02 00");
    goes_on(12, "42 00 01 44 02 02 00");
    goes_on(12, "41 00 00 44 02 06 01");
}

#[test]
fn new_asks_for_a_fitting_content_of_enough_effect() {
    goes_on(12, "48 09 44 02 01 00");
    breaks(12, "48 08 44 02 01 00", 2);
    goes_on(12, "48 0C 44 02 07 00");
    breaks(12, "48 0B 44 02 07 00", 2);
    // Read from the cell of trust 9: enough for trust 9, not for 12.
    goes_on(12, "48 0C 41 00 00 45 01 00 44 02 01 01");
    breaks(12, "48 0C 41 00 00 45 01 00 44 02 07 01", 8);
    breaks(12, "48 0C 41 00 01 45 01 00 44 02 01 01", 8);
    breaks(12, "48 0C 42 00 01 44 02 01 00", 5);
    breaks(12, "48 0C 41 00 00 44 02 01 00", 5);
    goes_on(12, "48 0C 41 00 00 44 02 05 00");
    breaks(12, "48 0C 41 00 05 44 02 05 00", 5);
    // Blocks 1, 2 and 3 have bounds 15, 11 and 12, the content 12.
    goes_on(12, "48 0C 42 00 01 44 02 04 00");
    goes_on(12, "48 0C 42 00 03 44 02 04 00");
    breaks(12, "48 0C 42 00 02 44 02 04 00", 5);
}

#[test]
fn new_gives_a_cell_of_effect_p() {
    // A cell of trust 9 made at P 12 is stored in a cell of trust 9, and used.
    goes_on(12, "48 0C 44 02 01 00 41 03 03 46 03 02");
    goes_on(12, "48 0C 44 02 01 00 46 02 00 47 02 0A");
    // One of low trust may be written through.
    goes_on(12, "44 02 02 00 46 02 00");
    goes_on(12, "44 02 02 00 47 02 00");
    breaks(12, "44 02 02 00 43 03 02 00", 4);
    // Made at P 8, it is no content for trust 9.
    breaks(12, "48 08 44 02 02 00 44 03 05 02", 6);
}

#[test]
fn new_at_low_p() {
    breaks(3, "44 02 01 00", 0);
    breaks(3, "48 03 44 02 01 00", 2);
    breaks(12, "48 03 44 02 01 00", 2);
    goes_on_low(3, "44 02 02 00");
    goes_on_low(3, "44 02 06 00");
    goes_on_low(12, "48 03 44 02 02 00");
    passes(3, "48 04 44 02 01 00");
}

#[test]
fn every_other_step_passes_at_low_p() {
    let steps = "40 00 01 00 00 00  41 01 00  42 02 01  43 03 01 02  45 04 01  45 04 07  46 01 02
        46 07 07  47 01 0F  47 01 00  47 07 0F  49 02  4A 01  4A 07  4B 01 02 02";
    for bound in [0, 2, 3] {
        goes_on_low(bound, steps);
    }
    goes_on_low(12, &["48 03", steps].join(" "));
    breaks(4, steps, 12);
}

#[test]
fn read_asks_for_a_cell_unless_the_effect_is_low() {
    goes_on(12, "41 00 00 45 01 00");
    breaks(12, "45 01 00", 0);
    breaks(12, "42 00 01 45 01 00", 3);
    // Out of a low cell comes a low value, and out of that another.
    goes_on(12, "41 00 01 45 01 00 45 02 01");
    goes_on(12, "41 00 04 45 01 00 45 02 01");
}

#[test]
fn read_gives_the_content_shape_and_the_smaller_of_s_and_p() {
    goes_on(12, "41 00 00 45 01 00 46 00 01");
    breaks(12, "41 00 00 45 01 00 41 02 05 46 02 01", 9);
    goes_on(12, "41 00 05 45 01 00 46 00 01");
    // A cell within a cell.
    goes_on(12, "41 00 03 45 01 00 45 02 01 46 01 02");
    goes_on(12, "41 00 03 45 01 00 46 00 01");
    breaks(12, "41 00 03 45 01 00 43 02 01 07", 6);
    // Code.
    goes_on(12, "41 00 02 45 01 00 46 00 01");
    breaks(12, "41 00 02 45 01 00 43 02 01 07", 6);
    // After the lower to 8, what is read has effect 8.
    breaks(12, "48 08 41 00 05 45 01 00 44 02 01 01", 8);
}

#[test]
fn the_effect_of_the_register_read_through_does_not_enter() {
    // Cell 1 is of trust 4 and holds the name of cell 0, of trust 9; cell 2 is of trust 9.
    let head = "01 03 10 12 00 09 12 01 04 20 01 0F 00 00 00 00 00 20 02 0F 01 00 00 00 00 30 0C ";
    let steps = "41 00 01 45 01 00 45 02 01 41 03 00 46 03 02";
    assert_accepted(&[head, steps].concat());
    // With trust 3 the name is low, and so is what is read through it.
    let low = [head, steps].concat().replace("12 01 04", "12 01 03");
    assert_refused(&low, 8, 27 + 12);
}

#[test]
fn write_relabel_and_exec_need_a_cell_of_high_effect() {
    for step in ["46 00 01", "47 00 0F", "47 00 09", "4A 00"] {
        breaks(12, step, 0);
        breaks(12, &["42 00 01", step].join(" "), 3);
        breaks(12, &["41 00 01 45 00 00", step].join(" "), 6);
        breaks(12, &["41 00 04 45 00 00", step].join(" "), 6);
    }
}

#[test]
fn write_is_stuck_below_s() {
    sticks(8, "41 00 00 46 00 01");
    sticks(8, "41 00 00 46 00 00");
    goes_on(9, "41 00 00 46 00 01");
    breaks(9, "41 00 00 46 00 00", 3);
    sticks(12, "41 00 00 48 08 46 00 01");
    goes_on(12, "41 00 00 48 09 46 00 01");
    sticks(4, "41 00 00 46 00 01");
    goes_on_low(3, "41 00 00 46 00 01");
}

#[test]
fn write_asks_for_a_fitting_value_of_enough_effect() {
    goes_on(4, "41 00 01 46 00 01");
    goes_on(4, "41 00 01 46 00 00");
    goes_on(12, "41 00 01 45 01 00 46 00 01");
    breaks(12, "41 00 00 42 01 01 46 00 01", 6);
    breaks(12, "41 00 00 41 02 01 45 01 02 46 00 01", 9);
    breaks(12, "41 00 05 41 02 00 45 01 02 46 00 01", 9);
    goes_on(12, "41 00 00 41 02 05 45 01 02 46 00 01");
    goes_on(12, "41 00 02 42 01 01 46 00 01");
    goes_on(12, "41 00 02 42 01 03 46 00 01");
    breaks(12, "41 00 02 42 01 02 46 00 01", 6);
    goes_on(12, "41 00 03 41 01 00 46 00 01");
    breaks(12, "41 00 03 41 01 05 46 00 01", 6);
    breaks(12, "41 00 03 41 01 01 46 00 01", 6);
}

#[test]
fn relabel_is_stuck_below_s_or_o() {
    sticks(8, "41 00 00 47 00 09");
    sticks(8, "41 00 00 47 00 08");
    sticks(8, "41 00 00 47 00 00");
    goes_on(9, "41 00 00 47 00 09");
    sticks(9, "41 00 00 47 00 0A");
    breaks(9, "41 00 00 47 00 08", 3);
    goes_on(12, "41 00 00 47 00 0C");
    sticks(12, "41 00 00 47 00 0D");
    breaks(12, "41 00 00 47 00 03", 3);
    // Low S counts as 0.
    goes_on(12, "41 00 01 47 00 00");
    goes_on(12, "41 00 01 47 00 0C");
    sticks(12, "41 00 01 47 00 0D");
    goes_on_low(3, "41 00 00 47 00 0F");
}

#[test]
fn exec_asks_for_code_of_bound_and_trust_at_least_p() {
    // The content's bound and the trust are 12.
    goes_on(12, "41 00 02 4A 00");
    goes_on(4, "41 00 02 4A 00");
    breaks(13, "41 00 02 4A 00", 3);
    goes_on(13, "41 00 02 48 0C 4A 00");
    breaks(9, "41 00 00 4A 00", 3);
    breaks(9, "41 00 03 4A 00", 3);
    let with = |bound: &str, trust: &str| {
        let shapes = format!("01 03 11 {bound} 12 00 {trust}");
        format!("{shapes} 20 01 0F 02 01 00 00 00 30 09 41 00 00 4A 00 30 0F")
    };
    assert_accepted(&with("09", "09"));
    assert_accepted(&with("0F", "0F"));
    assert_refused(&with("08", "09"), 8, 20);
    assert_refused(&with("09", "08"), 8, 20);
    assert_refused(&with("09", "03"), 8, 20);
}

#[test]
fn start_asks_for_a_bound_at_least_p() {
    goes_on(12, "49 01");
    goes_on(12, "49 03");
    breaks(12, "49 02", 0);
    goes_on(11, "49 02");
    goes_on(12, "48 0B 49 02");
    goes_on(12, "49 00");
    goes_on_low(3, "49 02");
}
