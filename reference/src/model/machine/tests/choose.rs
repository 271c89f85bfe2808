//! 02, Four: "it starts the first block if r is plain and not 0, the second if r is plain 0, and is
//! blocked otherwise or when no job fits."

use super::*;

/// Job 0 at 12 puts this number into the register and chooses between blocks 1 and 2.
fn chosen(register: u8, number: &str) -> After {
    let steps = format!("40 {register:02X} {number} 4B {register:02X} 01 02");
    stepped(12, &steps, 2)
}

#[test]
fn the_first_block_if_r_is_not_0() {
    let numbers = [
        "01 00 00 00",
        "00 01 00 00",
        "00 00 01 00",
        "00 00 00 01",
        "00 00 00 80",
        "FF FF FF FF",
    ];
    for number in numbers {
        let ran = chosen(0, number);
        assert_eq!(ran.in_use(), (4, 2));
        assert_eq!((ran.job(0), ran.job(1)), ([0, 2, 12, 12], [1, 0, 12, 12]));
    }
}

#[test]
fn the_second_block_if_r_is_0() {
    let ran = chosen(0, "00 00 00 00");
    assert_eq!(ran.in_use(), (4, 2));
    assert_eq!((ran.job(0), ran.job(1)), ([0, 2, 12, 12], [2, 0, 12, 12]));
    // A register that nobody has set.
    assert_eq!(stepped(12, "4B 05 01 02", 1).job(1), [2, 0, 12, 12]);
}

#[test]
fn r_alone_is_looked_at() {
    for register in 0..8 {
        assert_eq!(chosen(register, "01 00 00 00").job(1)[0], 1);
        let other = (register + 1) % 8;
        let steps = format!("40 {other:02X} 01 00 00 00 4B {register:02X} 01 02");
        assert_eq!(stepped(12, &steps, 2).job(1)[0], 2);
    }
}

#[test]
fn blocks_in_either_order_the_same_twice_and_its_own() {
    let blocks = [("01 02", 1, 2), ("02 01", 2, 1), ("01 01", 1, 1)];
    for (blocks, first, second) in blocks {
        let steps = |number: &str| format!("40 00 {number} 00 00 00 4B 00 {blocks}");
        assert_eq!(stepped(12, &steps("09"), 2).job(1), [first, 0, 12, 12]);
        assert_eq!(stepped(12, &steps("00"), 2).job(1), [second, 0, 12, 12]);
    }
    // Each job of block 0 starts another, whose registers are 0 again.
    let ran = after(12, "4B 00 01 00", "50 00 50 01 50 02 50 00");
    assert_eq!(ran.answers, [0, 0, 0, 2]);
    assert_eq!(ran.in_use(), (4, 4));
    assert_eq!((ran.job(2), ran.job(3)), ([0, 1, 12, 12], [0, 0, 12, 12]));
}

#[test]
fn what_is_started_goes_its_own_steps() {
    let ran = after(
        12,
        "40 03 07 00 00 00 4B 03 01 02",
        "50 00 50 00 50 01 50 01",
    );
    assert_eq!(ran.answers, [0, 0, 0, 2]);
    assert_eq!(ran.job(1), [1, 1, 12, 12]);
    assert_eq!(ran.register(1, 0), (0, 1, 12));
    assert_eq!(ran.register(1, 3), (0, 0, 12));
    assert_eq!(ran.register(0, 3), (0, 7, 12));
}

#[test]
fn a_cell_or_code_blocks_it() {
    // Cells 0 and 3, blocks 0 and 2, and cell 3 read, which is cell 0.
    let values = ["41 00 00", "41 00 03", "42 00 00", "42 00 02"];
    for value in values {
        let steps = [value, "4B 00 01 02"].join(" ");
        assert_answer_after(12, &steps, "50 00", "50 00", 1);
        assert_answer_after(12, &steps, "50 00 50 00 50 00", "50 00", 1);
    }
    let read = "41 00 03 45 00 00 4B 00 01 02";
    assert_answer_after(12, read, "50 00 50 00", "50 00", 1);
}

#[test]
fn a_blocked_chooser_stays_and_others_go_on() {
    let steps = "41 00 00 4B 00 01 02 40 00 01 00 00 00";
    let ran = after(12, steps, "50 00 50 00 55 03 01 50 00 50 01 50 00");
    assert_eq!(ran.answers, [0, 1, 0, 1, 0, 1]);
    assert_eq!(ran.job(0), [0, 1, 12, 12]);
    assert_eq!(ran.register(0, 0), (1, 0, 12));
    assert_eq!(ran.in_use(), (4, 2));
}

#[test]
fn it_is_blocked_when_64_jobs_exist() {
    let fill = "55 00 02 ".repeat(62);
    let first = [&fill[..], "50 00 50 00"].concat();
    for number in ["00", "01"] {
        let steps = format!("40 00 {number} 00 00 00 4B 00 01 02 4B 00 01 02");
        let ran = after(12, &steps, &first);
        assert_eq!(ran.in_use(), (4, 64));
        assert_eq!(ran.job(63)[0], if number == "00" { 2 } else { 1 });
        assert_answer_after(12, &steps, &first, "50 00", 1);
        assert_answer_after(12, &steps, &[&first[..], " 50 00"].concat(), "50 00", 1);
    }
    // Nor does a full table help a register that is not plain.
    let full = [&fill[..], "55 00 02 50 00"].concat();
    assert_answer_after(12, "41 00 00 4B 00 01 02", &full, "50 00", 1);
}

#[test]
fn the_label_is_the_choosers() {
    // The bounds are 7 and 1, below the chooser's label and above it.
    for (label, blocks) in [(12, "01 01"), (12, "02 02"), (0, "01 01"), (0, "02 02")] {
        let steps = format!("48 {label:02X} 4B 00 {blocks}");
        let ran = stepped(12, &steps, 2);
        assert_eq!(ran.job(1)[2..], [label, label]);
    }
    // It has lowered itself twice, and its registers are older than that.
    let ran = stepped(12, "48 09 48 05 4B 00 01 02", 3);
    assert_eq!((ran.job(0), ran.job(1)), ([0, 3, 5, 5], [2, 0, 5, 5]));
    assert_eq!(ran.register(0, 0), (0, 0, 12));
    for register in 0..8 {
        assert_eq!(ran.register(1, register), (0, 0, 5));
    }
}

/// An outsider at 1 writes this number into cell 1. Job 0 reads it into register 1 and chooses.
fn touched(number: &str, steps: &str, count: usize) -> After {
    let events = format!("51 01 01 00 {number} 00 00 00 50 00 50 00");
    let events = [&events[..], &" 50 00".repeat(count)].concat();
    let ran = after(12, &["41 03 01 45 01 03", steps].join(" "), &events);
    assert!(ran.answers.iter().all(|&answer| answer == 0));
    ran
}

#[test]
fn the_history_is_the_choosers_alone() {
    for (number, block) in [("08", 1), ("00", 2)] {
        let ran = touched(number, "4B 01 01 02", 1);
        assert_eq!(ran.register(0, 1).2, 1);
        assert_eq!(
            (ran.job(0), ran.job(1)),
            ([0, 3, 12, 12], [block, 0, 12, 12])
        );
        for register in 0..8 {
            assert_eq!(ran.register(1, register), (0, 0, 12));
        }
        let ran = touched(number, "48 06 4B 01 01 02", 2);
        assert_eq!(ran.job(1), [block, 0, 6, 6]);
    }
}

#[test]
fn all_of_the_choosers_history_passes_on() {
    // Code from an outsider at 0 in a cell raised to 11: job 1 has the label 11 and the source 0. It
    // executes the cell in its turn, job 2, and chooses, job 3.
    let steps = "41 00 02 47 00 0B 4A 00 4B 07 01 02";
    let low = "52 02 02 00 51 00 02 02 00 00 00 00 50 00 50 00 50 00";
    let ran = after(12, steps, &[low, "50 01 50 01 50 01 50 01"].join(" "));
    assert_eq!((ran.job(0), ran.job(1)), ([0, 3, 12, 12], [0, 4, 11, 0]));
    assert_eq!((ran.job(2), ran.job(3)), ([0, 0, 11, 0], [2, 0, 11, 0]));
    assert_eq!(ran.register(3, 4), (0, 0, 0));
    // Job 0 is not touched, and what it chooses neither.
    let ran = after(12, steps, &[low, "50 00"].join(" "));
    assert_eq!(ran.job(2), [2, 0, 12, 12]);
}

#[test]
fn an_outsiders_job_chooses_too() {
    let ran = after(12, "4B 00 01 02", "55 02 00 50 01 50 02");
    assert_eq!(ran.answers, [0, 0, 2]);
    assert_eq!((ran.job(1), ran.job(2)), ([0, 1, 2, 2], [2, 0, 2, 2]));
}
