//! Refusals of a round and their order: 1 to 6, 10, 11, 14, 15.

use super::*;

/// All lent memory is untouched.
fn assert_refused(book: &str, launch: Launch, turns: u32, lengths: [usize; 3], number: u8) {
    let round = both(&hex(book), launch, turns, lengths);
    let refusal = round.rounded.unwrap_err();
    assert_eq!(refusal.number, number, "{launch:?} {turns} {lengths:?}");
    if number > 6 {
        assert_eq!(refusal.place, 0);
    }
    let After {
        cells,
        jobs,
        answers,
        ..
    } = round.after;
    let lent = [cells, jobs, answers].concat();
    assert!(lent.iter().all(|&byte| byte == BEFORE));
}

#[test]
fn refusal_15_the_turns_exceed_4096() {
    for turns in [0, 1, 4_095, 4_096] {
        assert_eq!(turned(A, turns).turns(), turns.min(3) as usize);
    }
    for turns in [4_097, 4_098, 5_000, 65_535, 65_536, 65_539] {
        let lengths = [CELLS_SIZE, JOBS_SIZE, turns as usize];
        assert_refused(A, None, turns, lengths, 15);
        assert_refused(A, Some(12), turns, [CELLS_SIZE, JOBS_SIZE, 70_000], 15);
        // 14 comes first.
        assert_refused(A, Some(13), turns, lengths, 14);
        assert_refused(A, Some(300), turns, lengths, 14);
    }
}

#[test]
fn refusal_11_asks_for_an_answer_byte_for_each_turn() {
    // Book A uses three.
    for turns in [4, 100, 4_096] {
        let lengths = |answers: u32| [CELLS_SIZE, JOBS_SIZE, answers as usize];
        assert_refused(A, Some(12), turns, lengths(turns - 1), 11);
        assert_refused(A, Some(12), turns, lengths(3), 11);
        let round = both(&hex(A), Some(12), turns, lengths(turns));
        assert_eq!(round.turns(), 3);
        let round = both(&hex(A), Some(12), turns, lengths(turns + 1));
        assert_eq!(round.answers(), [0, 0, 0]);
        // 11 comes ahead of 14.
        assert_refused(A, Some(13), turns, lengths(turns - 1), 11);
    }
    // And ahead of 15, however many turns.
    for (turns, answers) in [
        (5_000, 4_999),
        (4_097, 4_096),
        (65_536, 0),
        (u32::MAX, 5_000),
    ] {
        assert_refused(A, None, turns, [CELLS_SIZE, JOBS_SIZE, answers], 11);
        assert_refused(A, Some(13), turns, [CELLS_SIZE, JOBS_SIZE, answers], 11);
    }
    assert_eq!(both(&hex(A), None, 0, [576, 3_328, 0]).turns(), 0);
}

#[test]
fn refusal_10_comes_ahead_of_11_14_and_15() {
    for (cells, jobs) in [
        (575, 3_328),
        (577, 3_328),
        (576, 3_327),
        (576, 3_380),
        (0, 0),
    ] {
        for (launch, turns, answers) in [
            (None, 3, 3),
            (None, 3, 2),
            (Some(13), 3, 3),
            (None, 4_097, 4_097),
            (Some(13), 4_097, 4_096),
        ] {
            assert_refused(A, launch, turns, [cells, jobs, answers], 10);
        }
    }
}

#[test]
fn refusals_1_to_6_come_first() {
    let overlong = "00 ".repeat(32_769);
    let many = ["01 03 30 00", &" 48 00".repeat(65)].concat();
    let books = [
        (&overlong[..], 1),
        ("01 03 30 00 4C", 2),
        ("01 03", 3),
        (&many, 4),
        ("01 03 30 10", 5),
        ("01 03 30 00 49 01", 6),
    ];
    for (book, number) in books {
        assert_refused(book, None, 2, [CELLS_SIZE, JOBS_SIZE, 2], number);
        assert_refused(book, Some(16), 5_000, [0, 0, 0], number);
    }
}

#[test]
fn refusals_7_and_8_do_not_hinder_a_round() {
    for (old, new) in [("20 01 09", "20 01 08"), ("46 00 01", "47 00 08")] {
        assert_eq!(turned(&A.replace(old, new), 9).turns(), 3);
    }
}
