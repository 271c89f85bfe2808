//! The rule of each step.

use super::*;

#[test]
fn a_step_of_no_job_a_finished_job_and_an_empty_block() {
    assert_answer(12, "48 0C", "50 01", 3);
    assert_answer(12, "48 0C", "50 FF", 3);
    assert_answer_after(12, "48 0C", "50 00", "50 00", 2);
    assert_answer(12, "", "50 00", 2);
    assert_eq!(stepped(12, "48 0C", 1).job(0), [0, 1, 12, 12]);
}

#[test]
fn put_name_and_code_have_the_history_of_the_job() {
    let ran = stepped(
        12,
        "40 00 01 02 03 FF 41 01 03 48 05 42 02 02 40 03 00 00 00 80",
        5,
    );
    assert_eq!(ran.register(0, 0), (0, 0xFF03_0201, 12));
    assert_eq!(ran.register(0, 1), (1, 3, 12));
    assert_eq!(ran.register(0, 2), (2, 2, 5));
    assert_eq!(ran.register(0, 3), (0, 0x8000_0000, 5));
    assert_eq!(ran.register(0, 4), (0, 0, 12));
    assert_eq!(ran.job(0), [0, 5, 5, 5]);
}

/// Register 1 is one number, register 2 another, and r their sum.
fn sum_of(one: &str, two: &str, r: &str) -> String {
    format!("40 01 {one} 40 02 {two} 43 {r} 01 02")
}

#[test]
fn add_gives_a_sum_that_fits() {
    // 3,000,000,000 and 1,294,967,295; 2,147,483,647 and 2,147,483,648; 4,294,967,295 and 0; then
    // 4,294,967,294 and 1. All are 4,294,967,295.
    let pairs = [
        ("00 5E D0 B2", "FF A1 2F 4D"),
        ("FF FF FF 7F", "00 00 00 80"),
        ("FF FF FF FF", "00 00 00 00"),
        ("FE FF FF FF", "01 00 00 00"),
    ];
    for (one, two) in pairs {
        for (one, two) in [(one, two), (two, one)] {
            let ran = stepped(12, &sum_of(one, two, "00"), 3);
            assert_eq!(ran.register(0, 0), (0, 4_294_967_295, 12));
        }
    }
    let ran = stepped(12, &sum_of("FF FF FF 7F", "FF FF FF 7F", "00"), 3);
    assert_eq!(ran.register(0, 0), (0, 4_294_967_294, 12));
}

#[test]
fn add_is_blocked_when_the_sum_passes_the_top() {
    // 3,000,000,000 and 1,294,967,296; 2,147,483,648 twice; 4,294,967,295 and 1; 4,294,967,294 and
    // 2: all 4,294,967,296. The last two are more.
    let pairs = [
        ("00 5E D0 B2", "00 A2 2F 4D"),
        ("00 00 00 80", "00 00 00 80"),
        ("FF FF FF FF", "01 00 00 00"),
        ("FE FF FF FF", "02 00 00 00"),
        ("FF FF FF FF", "03 00 00 00"),
        ("FF FF FF FF", "FF FF FF FF"),
    ];
    for (one, two) in pairs {
        for r in ["00", "01", "02"] {
            assert_answer_after(12, &sum_of(one, two, r), "50 00 50 00", "50 00", 1);
            assert_answer_after(12, &sum_of(two, one, r), "50 00 50 00 50 00", "50 00", 1);
        }
    }
}

#[test]
fn add_asks_for_plain_operands() {
    for value in ["41 01 00", "42 01 00"] {
        for operands in ["01 00", "00 01", "01 01"] {
            let steps = [value, "43 02", operands].join(" ");
            assert_answer_after(12, &steps, "50 00", "50 00", 1);
        }
    }
}

/// An outsider at 1 has written 8 into cell 1. Register 3 is that cell, register 1 what is read.
const TOUCHED: &str = "51 01 01 00 08 00 00 00 50 00 50 00";
const GET: &str = "41 03 01 45 01 03";

/// These steps behind `GET`, so many, after the outsider's write; all are done.
fn touched(bound: u8, steps: &str, count: usize) -> After {
    let events = [TOUCHED, &" 50 00".repeat(count)].concat();
    let ran = after(bound, &[GET, steps].join(" "), &events);
    assert!(ran.answers.iter().all(|&answer| answer == 0), "{steps}");
    ran
}

#[test]
fn add_keeps_the_histories_of_both_operands_and_of_the_job() {
    for operands in ["01 02", "02 01", "01 01"] {
        let ran = touched(12, &["43 00", operands].join(" "), 1);
        assert_eq!(ran.register(0, 0).2, 1);
    }
    let ran = touched(12, "43 00 02 02", 1);
    assert_eq!(ran.register(0, 0), (0, 0, 12));
    let ran = touched(12, "48 06 43 00 02 02", 2);
    assert_eq!(ran.register(0, 0).2, 6);
}

#[test]
fn add_reads_its_operands_before_it_stores() {
    let ran = stepped(12, "40 00 05 00 00 00 43 00 00 00 43 00 00 00", 3);
    assert_eq!(ran.register(0, 0), (0, 20, 12));
}

#[test]
fn new_makes_a_cell_and_names_it() {
    let ran = stepped(12, "40 01 07 00 00 00 48 05 44 02 02 01", 3);
    assert_eq!(ran.in_use(), (5, 1));
    assert_eq!(&ran.cells[36..45], &[2, 3, 5, 0, 7, 0, 0, 0, 5]);
    assert_eq!(ran.register(0, 2), (1, 4, 5));
    // The content keeps its history; the name has the job's.
    let ran = touched(12, "44 01 02 01", 1);
    assert_eq!(ran.cell(4), (12, (0, 8, 1)));
    assert_eq!(ran.register(0, 1), (1, 4, 12));
}

#[test]
fn new_is_blocked_when_64_cells_exist() {
    let fill = "53 03 02 00 00 00 00 00 ".repeat(59);
    let steps = "44 02 02 01 44 02 02 01";
    let ran = after(12, steps, &[&fill[..], "50 00"].concat());
    assert_eq!(ran.in_use(), (64, 1));
    assert_eq!(ran.register(0, 2), (1, 63, 12));
    assert_answer_after(12, steps, &[&fill[..], "50 00"].concat(), "50 00", 1);
    assert_answer_after(
        12,
        "",
        &[&fill[..], &fill[..24]].concat(),
        "53 03 02 00 00 00 00 00",
        1,
    );
}

#[test]
fn read_asks_for_a_cell_and_gives_its_content() {
    assert_answer(12, "45 01 00", "50 00", 1);
    assert_answer_after(12, "42 00 01 45 01 00", "50 00", "50 00", 1);
    let ran = stepped(12, "41 00 03 45 01 00 45 02 01", 3);
    assert_eq!(ran.register(0, 1), (1, 0, 12));
    assert_eq!(ran.register(0, 2), (0, 5, 12));
    // Any job may read any cell; the register read through leaves no mark.
    assert_eq!(stepped(0, "41 00 00 45 01 00", 2).register(0, 1), (0, 5, 0));
    assert_eq!(touched(12, "", 0).register(0, 1), (0, 8, 1));
    let ran = after(
        12,
        "41 00 01 45 01 00 45 02 01",
        "51 01 01 01 00 00 00 00 50 00 50 00 50 00",
    );
    assert_eq!(ran.register(0, 1), (1, 0, 1));
    assert_eq!(ran.register(0, 2), (0, 5, 12));
}

#[test]
fn write_asks_for_a_cell_with_label_at_most_the_jobs() {
    assert_answer(12, "46 00 01", "50 00", 1);
    assert_answer_after(12, "42 00 01 46 00 01", "50 00", "50 00", 1);
    assert_answer_after(8, "41 00 00 46 00 01", "50 00", "50 00", 1);
    assert_eq!(stepped(9, "41 00 00 46 00 01", 2).cell(0), (9, (0, 0, 9)));
    assert_eq!(stepped(9, "41 00 01 46 00 00", 2).cell(1), (0, (1, 1, 9)));
    assert_eq!(touched(12, "41 00 00 46 00 01", 2).cell(0), (9, (0, 8, 1)));
    let ran = stepped(15, "40 01 07 00 00 00 48 0A 41 00 00 46 00 01", 4);
    assert_eq!(ran.cell(0), (9, (0, 7, 10)));
}

#[test]
fn relabel_asks_for_old_and_new_label_at_most_the_jobs() {
    assert_answer(12, "47 00 00", "50 00", 1);
    assert_answer_after(12, "42 00 01 47 00 00", "50 00", "50 00", 1);
    assert_answer_after(8, "41 00 00 47 00 08", "50 00", "50 00", 1);
    assert_answer_after(9, "41 00 00 47 00 0A", "50 00", "50 00", 1);
    assert_eq!(stepped(9, "41 00 00 47 00 09", 2).cell(0), (9, (0, 5, 15)));
    assert_eq!(stepped(9, "41 00 00 47 00 00", 2).cell(0), (0, (0, 5, 15)));
    assert_eq!(
        stepped(15, "41 00 00 47 00 0F", 2).cell(0),
        (15, (0, 5, 15))
    );
}

#[test]
fn lower_never_raises() {
    assert_answer(8, "48 09", "50 00", 1);
    assert_eq!(stepped(8, "48 08", 1).job(0), [0, 1, 8, 8]);
    assert_eq!(stepped(8, "48 00", 1).job(0), [0, 1, 0, 0]);
    // The label falls, the registers keep what they have.
    assert_eq!(stepped(8, "48 02", 1).register(0, 0), (0, 0, 8));
    assert_answer_after(8, "48 02 48 03", "50 00", "50 00", 1);
}

#[test]
fn start_makes_a_job_with_this_label_and_history() {
    let ran = stepped(12, "48 05 49 01 49 00", 3);
    assert_eq!(ran.in_use(), (4, 3));
    assert_eq!((ran.job(1), ran.job(2)), ([1, 0, 5, 5], [0, 0, 5, 5]));
    assert_eq!(ran.register(1, 7), (0, 0, 5));
}

#[test]
fn exec_asks_for_a_cell_that_holds_code() {
    assert_answer(12, "4A 00", "50 00", 1);
    assert_answer_after(12, "42 00 01 4A 00", "50 00", "50 00", 1);
    assert_answer_after(12, "41 00 00 4A 00", "50 00", "50 00", 1);
    assert_answer_after(12, "41 00 03 4A 00", "50 00", "50 00", 1);
    let ran = stepped(12, "41 00 02 4A 00", 2);
    assert_eq!(ran.job(1), [1, 0, 2, 2]);
    assert_eq!(ran.register(1, 0), (0, 0, 2));
}

/// exec of cell 2 after these events.
fn executed(bound: u8, steps: &str, before: &str, count: usize) -> After {
    let steps = [steps, "41 00 02 4A 00"].join(" ");
    after(bound, &steps, &[before, &" 50 00".repeat(count)].concat())
}

#[test]
fn exec_joins_the_callers_and_the_codes_history_and_the_new_label() {
    // The new label is the cell's.
    assert_eq!(executed(12, "", "", 2).job(1), [1, 0, 2, 2]);
    // The code's history: label 2, an outsider at 2 is refused at 1, one at 3 may write.
    let written = executed(12, "", "52 02 02 01 51 01 02 02 02 00 00 00", 2);
    assert_eq!(written.job(1), [2, 0, 1, 1]);
    assert_eq!(written.register(1, 3), (0, 0, 1));
    // The code's history alone is lower than both labels: block 0 raises the label again.
    let low = "52 02 02 00 51 00 02 02 01 00 00 00";
    let raised = executed(12, "41 00 02 47 00 0B", low, 4);
    assert_eq!(raised.job(1), [1, 0, 11, 0]);
    // The caller's history is lower than its label where it ran low code itself.
    let called = after(12, "41 00 02 4A 00", "55 01 00 50 01 50 01");
    assert_eq!(called.job(2), [1, 0, 1, 1]);
}

#[test]
fn the_callers_history_passes_on() {
    // Code from an outsider at 0 in a cell raised to 11: the job's source is 0, its label 11. It
    // runs block 0 in its turn, and its exec and start pass the 0 on.
    let steps = "41 00 02 47 00 0B 4A 00 49 01 44 03 02 07";
    let low = "52 02 02 00 51 00 02 02 00 00 00 00 50 00 50 00 50 00";
    let clean = "51 03 02 02 01 00 00 00";
    let ran = after(12, steps, &[low, "50 01 50 01 50 01 50 01 50 01"].join(" "));
    assert_eq!(ran.job(1), [0, 5, 11, 0]);
    assert_eq!(ran.job(2), [0, 0, 11, 0]);
    assert_eq!(ran.job(3), [1, 0, 11, 0]);
    assert_eq!(ran.cell(4), (11, (0, 0, 0)));
    assert_eq!(ran.register(1, 3), (1, 4, 0));
    // An outsider at 3 cannot write over it then.
    assert_eq!(after(12, steps, &[low, clean].join(" ")).answers[5], 1);
}

#[test]
fn start_and_exec_are_blocked_when_64_jobs_exist() {
    let fill = "55 00 02 ".repeat(62);
    let steps = "41 00 02 49 01 4A 00 49 01";
    let first = [&fill[..], "50 00 50 00"].concat();
    assert_eq!(after(12, steps, &first).in_use(), (4, 64));
    assert_answer_after(12, steps, &first, "50 00", 1);
    assert_answer_after(12, "49 01", &[&fill[..], "55 00 00"].concat(), "50 00", 1);
    assert_answer_after(
        12,
        "",
        &first.replace("50 00 50 00", "55 00 00"),
        "54 03 02",
        1,
    );
    assert_answer_after(
        12,
        "",
        &first.replace("50 00 50 00", "55 00 00"),
        "55 03 02",
        1,
    );
}

#[test]
fn a_blocked_job_may_be_stepped_again() {
    // Job 0 cannot write cell 0 until its label has fallen; a job at 12 lowers it.
    let book = "01 03 10 12 00 09 20 01 09 00 05 00 00 00
        30 0C 49 01 41 00 00 47 00 02 30 0C 48 08 41 00 00 46 00 01";
    let events = "50 00 50 01 50 01 50 01 50 01 50 00 50 00 50 01 50 01";
    let ran = runs(book, events);
    assert_eq!(ran.answers, [0, 0, 0, 1, 1, 0, 0, 0, 2]);
    assert_eq!(ran.cell(0), (2, (0, 0, 8)));
    assert_eq!(ran.job(1), [1, 3, 8, 8]);
}
