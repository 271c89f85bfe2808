//! Job 0's launch label, with one and without.

use super::*;

/// A run of block 0 with this C, bound, launch label and steps, of which job 0 is asked for so
/// many. Shape 1 is a plain cell of trust 0. Cells 0 and 1 are of it and of label 0: plain 5, and
/// block 1, which has no steps.
fn launched(c: u8, bound: u8, launch: Launch, steps: &str, count: usize) -> After {
    let cells = "20 01 00 00 05 00 00 00 20 01 00 02 01 00 00 00";
    let book = format!("01 {c:02X} 10 12 00 00 {cells} 30 {bound:02X} {steps} 30 00");
    let events = hex("50 00").repeat(count);
    launch_both(&hex(&book), launch, &events, [CELLS_SIZE, JOBS_SIZE, count])
}

/// Job 0 alone has run nothing yet: its label and source are these, and its registers' sources too.
fn assert_fresh(ran: &After, label: u8) {
    assert_eq!(ran.in_use(), (2, 1));
    assert_eq!(ran.job(0), [0, 0, label, label]);
    for register in 0..8 {
        assert_eq!(ran.register(0, register), (0, 0, label));
    }
}

#[test]
fn without_a_label_it_is_the_smaller_of_c_plus_1_and_the_bound() {
    let labels = [
        // The bound is above C plus 1, equal to it, at C, and below C.
        (3, 12, 4),
        (3, 5, 4),
        (3, 4, 4),
        (3, 3, 3),
        (3, 2, 2),
        (3, 0, 0),
        // The least C and the greatest.
        (0, 0, 0),
        (0, 1, 1),
        (0, 15, 1),
        (14, 15, 15),
        (14, 14, 14),
        (14, 13, 13),
        (13, 15, 14),
    ];
    for (c, bound, label) in labels {
        assert_fresh(&launched(c, bound, None, "", 0), label);
    }
}

#[test]
fn a_label_up_to_the_bound_is_job_0s_and_its_history() {
    for c in [0, 3, 14] {
        for bound in 0..16 {
            for label in 0..=bound {
                let ran = launched(c, bound, Some(label.into()), "", 0);
                assert_fresh(&ran, label);
            }
        }
    }
}

#[test]
fn all_that_job_0_does_has_the_launch_label() {
    // put, name, add of two fresh registers, write, new, start, exec.
    let steps = "40 00 07 00 00 00 41 01 00 43 02 03 04 46 01 00 44 05 01 06 49 01 41 07 01 4A 07";
    for (launch, label) in [(None, 4), (Some(0), 0), (Some(9), 9), (Some(12), 12)] {
        let ran = launched(3, 12, launch, steps, 8);
        assert_eq!(ran.answers, [0; 8]);
        assert_eq!(ran.register(0, 0), (0, 7, label));
        assert_eq!(ran.register(0, 1), (1, 0, label));
        assert_eq!(ran.register(0, 2), (0, 0, label));
        assert_eq!(ran.cell(0), (0, (0, 7, label)));
        assert_eq!(ran.cell(2), (label, (0, 0, label)));
        assert_eq!(ran.job(1), [1, 0, label, label]);
        // The cell with the code has label 0.
        assert_eq!(ran.job(2), [1, 0, 0, 0]);
    }
}

#[test]
fn a_lower_is_held_against_the_launch_label() {
    for (launch, asked, answer) in [(4, 4, 0), (4, 5, 1), (4, 12, 1), (12, 12, 0), (0, 1, 1)] {
        let ran = launched(3, 12, Some(launch), &format!("48 {asked:02X}"), 1);
        assert_eq!(ran.answers, [answer], "{launch}, {asked}");
    }
    assert_eq!(launched(3, 12, None, "48 04", 1).answers, [0]);
    assert_eq!(launched(3, 12, None, "48 05", 1).answers, [1]);
}

#[test]
fn book_a_is_blocked_at_the_default_and_done_at_the_bound() {
    let go = |launch| launch_both(&hex(A), launch, &hex("50 00").repeat(4), [576, 3_328, 4]);
    // C is 3, so that the default is 4, and cell 0 has label 9.
    for launch in [None, Some(4), Some(8)] {
        assert_eq!(go(launch).answers, [0, 0, 1, 1]);
        assert_eq!(go(launch).cell(0), (9, (0, 5, 15)));
    }
    for (launch, label) in [(9, 9), (12, 12)] {
        assert_eq!(go(Some(launch)).answers, [0, 0, 0, 2]);
        assert_eq!(go(Some(launch)).cell(0), (9, (0, 7, label)));
    }
}
