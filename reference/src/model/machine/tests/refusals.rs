//! Refusals 1 to 6, 9, 10, 11 and 14, and their order.

use super::*;

const RIGHT: [usize; 3] = [CELLS_SIZE, JOBS_SIZE, 9];

/// Refused so by both machines, at the bound and with a launch label above every bound. All lent
/// memory is untouched.
fn assert_refused(book: &[u8], events: &[u8], lengths: [usize; 3], number: u8, place: usize) {
    let refusal = Refusal { number, place };
    assert_untouched(run_both(book, events, lengths), refusal);
    assert_untouched(launch_both(book, Some(16), events, lengths), refusal);
}

fn assert_untouched(ran: After, refusal: Refusal) {
    assert_eq!(ran.outcome, Err(refusal));
    let lent = [ran.cells, ran.jobs, ran.answers].concat();
    assert!(lent.iter().all(|&byte| byte == BEFORE));
}

fn assert_runs(events: &[u8], lengths: [usize; 3]) {
    assert!(run_both(&hex(A), events, lengths).outcome.is_ok());
}

#[test]
fn refusals_1_to_6_are_those_of_reading() {
    let books = [
        (vec![0; 32_769], 1, 0),
        (hex("01 03 30 00 4C"), 2, 4),
        (hex("01 03 30 00 4B 00 00"), 2, 4),
        (hex("01 03"), 3, 2),
        (hex(&["01 03 30 00", &" 48 00".repeat(65)].concat()), 4, 132),
        (hex("01 03 30 10"), 5, 2),
        (hex("01 03 30 00 49 01"), 6, 4),
        (hex("01 03 30 00 4B 08 00 00"), 5, 4),
        (hex("01 03 30 00 4B 00 00 01"), 6, 4),
    ];
    for (book, number, place) in books {
        assert_refused(&book, &[], RIGHT, number, place);
        // The list, the tables and the answer buffer come later.
        assert_refused(&book, &[0], [0, 0, 0], number, place);
    }
}

#[test]
fn refusals_7_and_8_do_not_hinder_a_run() {
    for (old, new) in [("20 01 09", "20 01 08"), ("46 00 01", "47 00 08")] {
        let book = hex(&A.replace(old, new));
        assert!(run_both(&book, &[], RIGHT).outcome.is_ok());
    }
}

#[test]
fn refusal_9_the_list_is_too_long() {
    let lengths = [CELLS_SIZE, JOBS_SIZE, 32_768];
    let full = hex("50 00").repeat(32_768);
    assert_runs(&full, lengths);
    assert_refused(&hex(A), &[&full[..], &[80]].concat(), lengths, 9, 0);
    assert_refused(&hex(A), &[7; 65_537], lengths, 9, 0);
    assert_refused(&hex(A), &[7; 65_536], lengths, 9, 0);
    let last_unknown = [&full[..65_534], &[86, 0]].concat();
    assert_refused(&hex(A), &last_unknown, lengths, 9, 65_534);
    let last_cut = [&full[..65_534], &[85, 0]].concat();
    assert_refused(&hex(A), &last_cut, lengths, 9, 65_534);
}

#[test]
fn refusal_9_unknown_kinds() {
    for kind in (0..80).chain(86..=255) {
        let events = [&hex("50 00 55 00 00")[..], &[kind; 9]].concat();
        assert_refused(&hex(A), &events, RIGHT, 9, 5);
    }
}

#[test]
fn refusal_9_cut_bodies() {
    let sizes = [(80, 2), (81, 8), (82, 4), (83, 8), (84, 3), (85, 3)];
    for (kind, size) in sizes {
        let event = [&[kind][..], &[0; 7]].concat();
        assert_runs(&event[..size], RIGHT);
        for cut in 1..size {
            assert_refused(&hex(A), &event[..cut], RIGHT, 9, 0);
            let second = [&hex("54 00 00")[..], &event[..cut]].concat();
            assert_refused(&hex(A), &second, RIGHT, 9, 3);
        }
    }
    // The first event at fault counts.
    assert_refused(&hex(A), &hex("50 00 56 50 00 50"), RIGHT, 9, 2);
}

#[test]
fn refusal_10_asks_for_exactly_64_entries() {
    for cells in [0, 567, 575, 577, 585] {
        assert_refused(&hex(A), &[], [cells, JOBS_SIZE, 9], 10, 0);
    }
    for jobs in [0, 3_276, 3_327, 3_329, 3_380] {
        assert_refused(&hex(A), &[], [CELLS_SIZE, jobs, 9], 10, 0);
    }
    assert_runs(&[], [576, 3_328, 0]);
    assert_refused(&hex(A), &hex("50"), [0, 0, 9], 9, 0);
    assert_refused(&hex(A), &hex("50 00"), [0, 0, 0], 10, 0);
}

#[test]
fn refusal_11_asks_for_an_answer_byte_for_each_event() {
    let events = hex("50 00 55 00 00 50 00");
    assert_refused(&hex(A), &events, [CELLS_SIZE, JOBS_SIZE, 0], 11, 0);
    assert_refused(&hex(A), &events, [CELLS_SIZE, JOBS_SIZE, 2], 11, 0);
    assert_runs(&events, [CELLS_SIZE, JOBS_SIZE, 3]);
    assert_runs(&events, [CELLS_SIZE, JOBS_SIZE, 4]);
    assert_runs(&[], [CELLS_SIZE, JOBS_SIZE, 0]);
}

/// A of this bound, with this launch label.
fn launched(bound: u8, launch: u32, lengths: [usize; 3]) -> After {
    let book = A.replace("30 0C", &format!("30 {bound:02X}"));
    launch_both(&hex(&book), Some(launch), &hex("50 00"), lengths)
}

const ABOVE: Refusal = Refusal {
    number: 14,
    place: 0,
};

#[test]
fn refusal_14_the_launch_label_is_above_the_bound() {
    for bound in 0..16 {
        for label in 0..=u32::from(bound) {
            assert!(launched(bound, label, RIGHT).outcome.is_ok());
        }
        // Numbers whose low byte is a label up to the bound are above it all the same.
        let above = [16, 255, 256, 300, 65_536, 0x0100_0005, u32::MAX - 1];
        for label in (u32::from(bound) + 1..16).chain(above) {
            assert_untouched(launched(bound, label, RIGHT), ABOVE);
        }
    }
}

#[test]
fn refusal_14_is_of_block_0_alone_and_of_a_label_that_is_given() {
    // C is 3. Other blocks have higher bounds, and lower ones.
    let book = hex("01 03 30 05 30 0F 30 00");
    for (launch, outcome) in [(5, None), (6, Some(ABOVE)), (15, Some(ABOVE))] {
        let ran = launch_both(&book, Some(launch), &[], RIGHT);
        assert_eq!(ran.outcome.err(), outcome);
    }
    for bound in 0..16 {
        let ran = launch_both(&[1, 3, 48, bound], None, &[], RIGHT);
        assert!(ran.outcome.is_ok());
    }
}

#[test]
fn refusal_14_comes_after_9_10_and_11() {
    assert_untouched(launched(12, 13, RIGHT), ABOVE);
    assert_untouched(launched(12, 13, [CELLS_SIZE, JOBS_SIZE, 1]), ABOVE);
    assert_refused(&hex(A), &hex("50 00"), [CELLS_SIZE, JOBS_SIZE, 0], 11, 0);
    assert_refused(&hex(A), &hex("50 00"), [CELLS_SIZE, 0, 0], 10, 0);
    assert_refused(&hex(A), &hex("50 00 56"), [0, 0, 0], 9, 2);
}
