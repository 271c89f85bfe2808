//! Acts of outsiders, and every cause of answer 3.

use super::*;

#[test]
fn an_outsider_writes_up_to_its_label() {
    assert_answer(12, "", "51 00 01 00 08 00 00 00", 0);
    let ran = after(12, "", "51 03 01 00 08 00 00 01");
    assert_eq!(ran.cell(1), (0, (0, 0x0100_0008, 3)));
    assert_answer(12, "", "51 01 02 00 00 00 00 00", 1);
    assert_answer(12, "", "51 02 02 00 00 00 00 00", 0);
    assert_answer(12, "", "51 03 00 00 00 00 00 00", 1);
}

#[test]
fn an_outsider_brings_a_value_with_its_own_history() {
    let ran = after(12, "", "51 02 01 01 03 00 00 00 51 03 02 02 02 00 00 00");
    assert_eq!(ran.cell(1), (0, (1, 3, 2)));
    assert_eq!(ran.cell(2), (2, (2, 2, 3)));
}

#[test]
fn an_outsider_relabels_up_to_its_label() {
    let ran = after(12, "", "52 02 01 02");
    assert_eq!(ran.cell(1), (2, (0, 6, 15)));
    assert_answer(12, "", "52 02 01 03", 1);
    assert_answer(12, "", "52 02 01 0F", 1);
    assert_answer(12, "", "52 02 01 10", 3);
    assert_answer(12, "", "52 02 01 FF", 3);
    assert_answer(12, "", "52 01 02 00", 1);
    assert_answer(12, "", "52 02 02 00", 0);
    // Answer 3 comes before the labels are compared.
    assert_answer(12, "", "52 01 02 10", 3);
}

#[test]
fn an_outsider_makes_cells_of_low_trust() {
    let ran = after(12, "", "53 02 02 00 07 00 00 00 53 03 04 01 04 00 00 00");
    assert_eq!(ran.in_use(), (6, 1));
    assert_eq!(&ran.cells[36..45], &[2, 3, 2, 0, 7, 0, 0, 0, 2]);
    assert_eq!(&ran.cells[45..54], &[4, 2, 3, 1, 4, 0, 0, 0, 3]);
    for shape in ["00", "01", "03", "05", "20", "FF"] {
        assert_answer(12, "", &format!("53 03 {shape} 00 00 00 00 00"), 3);
    }
}

#[test]
fn a_value_names_what_exists() {
    for act in ["51 03 01", "53 03 02"] {
        let answer = |value: &str, answer| {
            assert_answer(12, "", &[act, value].join(" "), answer);
        };
        answer("00 FF FF FF FF", 0);
        answer("01 03 00 00 00", 0);
        answer("01 04 00 00 00", 3);
        answer("01 00 01 00 00", 3);
        answer("01 00 00 00 01", 3);
        answer("02 02 00 00 00", 0);
        answer("02 03 00 00 00", 3);
        answer("02 00 01 00 00", 3);
        answer("02 00 00 00 80", 3);
        answer("03 00 00 00 00", 3);
        answer("FF 00 00 00 00", 3);
    }
    // The cell just made is there for the next event.
    let make = "53 03 02 01 04 00 00 00";
    assert_eq!(after(12, "", make).answers, [3]);
    let first = "53 03 02 00 00 00 00 00";
    assert_eq!(after(12, "", &[first, make].join(" ")).answers, [0, 0]);
}

#[test]
fn an_outsider_executes_at_the_lower_label() {
    assert_eq!(after(12, "", "54 03 02").job(1), [1, 0, 2, 2]);
    assert_eq!(after(12, "", "54 01 02").job(1), [1, 0, 1, 1]);
    assert_eq!(after(12, "", "54 01 02").register(1, 5), (0, 0, 1));
    assert_answer(12, "", "54 03 00", 1);
    assert_answer(12, "", "54 03 01", 1);
    assert_answer(12, "", "54 03 03", 1);
    assert_answer(12, "", "54 03 04", 3);
    // The code's history is in the job's.
    let ran = after(
        12,
        "",
        "52 02 02 00 51 00 02 02 02 00 00 00 52 03 02 03 54 03 02",
    );
    assert_eq!(ran.job(1), [2, 0, 3, 0]);
}

#[test]
fn an_outsider_starts_any_block_at_its_label() {
    let ran = after(2, "", "55 03 01 55 00 00");
    assert_eq!((ran.job(1), ran.job(2)), ([1, 0, 3, 3], [0, 0, 0, 0]));
    assert_eq!(ran.register(1, 0), (0, 0, 3));
    assert_answer(12, "", "55 03 02", 0);
    assert_answer(12, "", "55 03 03", 3);
    assert_answer(12, "", "55 03 FF", 3);
}

#[test]
fn q_above_c_is_no_such() {
    for event in ["01 00 00 00 00 00", "02 00 00 00 00 00", "02", "01"] {
        let kinds: &[u8] = match event.len() {
            17 => &[81, 83],
            _ => &[84, 85],
        };
        for kind in kinds {
            for q in ["04", "0F", "10", "FF"] {
                assert_answer(12, "", &format!("{kind:02X} {q} {event}"), 3);
            }
        }
    }
    for q in ["04", "0F", "10", "FF"] {
        assert_answer(12, "", &format!("52 {q} 01 00"), 3);
    }
}

#[test]
fn cells_that_do_not_exist() {
    for cell in ["04", "40", "FF"] {
        assert_answer(12, "", &format!("51 03 {cell} 00 00 00 00 00"), 3);
        assert_answer(12, "", &format!("52 03 {cell} 00"), 3);
        assert_answer(12, "", &format!("54 03 {cell}"), 3);
    }
}

#[test]
fn answer_3_comes_before_a_full_table() {
    let cells = "53 03 02 00 00 00 00 00 ".repeat(60);
    assert_answer_after(12, "", &cells, "53 03 02 00 00 00 00 00", 1);
    for event in ["04 02 00", "03 01 00", "03 05 00", "03 02 03"] {
        assert_answer_after(12, "", &cells, &format!("53 {event} 00 00 00 00"), 3);
    }
    assert_answer_after(12, "", &cells, "53 03 02 01 3F 00 00 00", 1);
    assert_answer_after(12, "", &cells, "53 03 02 01 40 00 00 00", 3);
    let jobs = "55 00 02 ".repeat(63);
    assert_answer_after(12, "", &jobs, "54 04 02", 3);
    assert_answer_after(12, "", &jobs, "54 03 04", 3);
    assert_answer_after(12, "", &jobs, "55 03 03", 3);
    assert_answer_after(12, "", &jobs, "50 40", 3);
}
