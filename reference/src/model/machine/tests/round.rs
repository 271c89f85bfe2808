//! 02, Six: rounds, their order by hand.

mod refusals;

use super::*;

/// A round by both machines: what it gives, the jobs it chose, and what it leaves.
struct Made {
    rounded: RoundOutcome,
    chosen: Vec<u8>,
    after: After,
}

/// With buffers of these lengths.
fn made(chooser: Chooser, book: &[u8], launch: Launch, turns: u32, lengths: [usize; 3]) -> Made {
    let mut lent = lengths.map(|length| vec![BEFORE; length]);
    let given = chooser(book, launch, turns, &mut lent);
    let [cells, jobs, answers] = lent;
    let (rounded, chosen) = match given {
        Ok((rounded, chosen)) => (Ok(rounded), chosen),
        Err(refusal) => (Err(refusal), vec![]),
    };
    let outcome = rounded.map(|Rounded { cells, jobs, .. }| Ran { cells, jobs });
    let after = After {
        outcome,
        cells,
        jobs,
        answers,
    };
    Made {
        rounded,
        chosen,
        after,
    }
}

fn both(book: &[u8], launch: Launch, turns: u32, lengths: [usize; 3]) -> Made {
    let one = made(chosen, book, launch, turns, lengths);
    let other = made(fast::chosen, book, launch, turns, lengths);
    assert_eq!(
        (one.rounded, &one.chosen, &one.after),
        (other.rounded, &other.chosen, &other.after)
    );
    one
}

/// At the bound, with an answer byte for each turn.
fn turned(book: &str, turns: u32) -> Made {
    let book = hex(book);
    let bound = book::bound(&book).map(u32::from);
    both(&book, bound, turns, [CELLS_SIZE, JOBS_SIZE, turns as usize])
}

impl Made {
    fn turns(&self) -> usize {
        self.rounded.unwrap().turns
    }

    /// The answers of the turns used. Those beyond them are kept.
    fn answers(&self) -> &[u8] {
        let (used, beyond) = self.after.answers.split_at(self.turns());
        assert!(beyond.iter().all(|&byte| byte == BEFORE));
        used
    }
}

/// C is 3 and all bounds are 12. Cell 0, of trust and label 0, holds block 1, or 0 where that is
/// alone.
fn blocks(steps: &[&str]) -> String {
    let code = usize::from(steps.len() > 1);
    let head = format!("01 03 10 12 00 00 20 01 00 02 0{code} 00 00 00");
    let blocks = steps.iter().map(|steps| format!(" 30 0C {steps}"));
    std::iter::once(head).chain(blocks).collect()
}

/// A step that is always done, and one that is always blocked: register 7 is plain.
const PUT: &str = " 40 06 09 00 00 00";
const STUCK: &str = " 4A 07";

fn starts(block: u8) -> String {
    format!(" 49 {block:02X}")
}

/// Asserts that with turns to spare the round chooses these jobs, and that every step is done. With
/// fewer turns it chooses the first of them.
fn assert_chosen(book: &str, jobs: &[u8]) {
    let count = jobs.len();
    for turns in (0..=count + 3).chain([100, 4_096]) {
        let round = turned(book, turns as u32);
        let used = turns.min(count);
        assert_eq!(round.chosen, jobs[..used], "{turns}");
        assert_eq!(round.turns(), used);
        assert_eq!(round.answers(), vec![0; used]);
    }
}

#[test]
fn book_a_has_three_turns_at_the_bound() {
    let round = turned(A, 5);
    assert_eq!(round.chosen, [0, 0, 0]);
    assert_eq!(round.answers(), [0, 0, 0]);
    assert_eq!(
        round.rounded,
        Ok(Rounded {
            cells: 1,
            jobs: 1,
            turns: 3
        })
    );
    assert_eq!(round.after.cell(0), (9, (0, 7, 12)));
    assert_chosen(A, &[0, 0, 0]);
}

/// C is 3, so that the default is 4, and cell 0 has label 9.
#[test]
fn book_a_is_blocked_without_a_launch_label() {
    let round = both(&hex(A), None, 5, [576, 3_328, 5]);
    assert_eq!(round.answers(), [0, 0, 1, 1, 1]);
    assert_eq!(round.after.cell(0), (9, (0, 5, 15)));
    assert_eq!(round.after.job(0), [0, 2, 4, 4]);
    let round = both(&hex(A), Some(9), 5, [576, 3_328, 5]);
    assert_eq!(round.answers(), [0, 0, 0]);
    assert_eq!(round.after.cell(0), (9, (0, 7, 9)));
}

#[test]
fn a_block_without_steps_has_no_turn() {
    assert_chosen("01 03 30 0C", &[]);
    let round = turned("01 03 30 0C", 4_096);
    assert_eq!(
        round.rounded,
        Ok(Rounded {
            cells: 0,
            jobs: 1,
            turns: 0
        })
    );
    assert_eq!(round.after.job(0), [0, 0, 12, 12]);
    // Job 0 starts jobs that have none.
    let book = blocks(&[&[&starts(1), &starts(1), PUT].concat(), ""]);
    assert_chosen(&book, &[0, 0, 0]);
    assert_eq!(turned(&book, 9).after.in_use(), (1, 3));
}

#[test]
fn the_scan_begins_after_the_last_stepped() {
    // Job 0 starts job 1, job 1 puts, job 0 starts job 2, job 1 puts its last, job 2 puts, job 0
    // puts its last, job 2 puts its last.
    let two = PUT.repeat(2);
    let book = blocks(&[&[&starts(1), &starts(1), PUT].concat(), &two]);
    assert_chosen(&book, &[0, 1, 0, 1, 2, 0, 2]);
}

#[test]
fn a_job_that_the_last_of_the_table_starts_is_next() {
    let first = [&starts(1), PUT].concat();
    let second = [&starts(2), PUT].concat();
    assert_chosen(&blocks(&[&first, &second, PUT]), &[0, 1, 2, 0, 1]);
    // By exec of cell 0, which holds block 1, and by choose, of the first and of the second block.
    let exec = [" 41 00 00 4A 00", PUT].concat();
    let other = " 4B 00 00 02";
    let chooses = [PUT, " 4B 06 02 00", PUT].concat();
    assert_chosen(&blocks(&[&exec, &second, PUT]), &[0, 0, 1, 2, 0, 1]);
    assert_chosen(&blocks(&[&chooses, PUT, &two_puts()]), &[0, 0, 1, 0, 1]);
    assert_chosen(&blocks(&[other, PUT, PUT]), &[0, 1]);
}

fn two_puts() -> String {
    PUT.repeat(2)
}

#[test]
fn a_job_that_another_starts_waits_for_those_before_it() {
    // Jobs 1 and 2 are there when job 0 starts job 3.
    let first = [starts(1), starts(1), starts(2)].concat();
    let book = blocks(&[&first, &PUT.repeat(3), PUT]);
    assert_chosen(&book, &[0, 1, 0, 1, 2, 0, 1, 2, 3, 2]);
    // Job 1 starts job 3 when job 2 is there: job 2 comes first.
    let second = [PUT, &starts(2)].concat();
    let book = blocks(&[&[starts(1), starts(2)].concat(), &second, &two_puts()]);
    assert_chosen(&book, &[0, 1, 0, 1, 2, 3, 2, 3]);
}

#[test]
fn a_job_that_alone_has_steps_left_is_found_again_and_again() {
    let puts = PUT.repeat(5);
    // Job 0 alone, from the beginning, and when job 1 has none left.
    assert_chosen(&blocks(&[&puts]), &[0; 5]);
    let book = blocks(&[&[&starts(1), &puts[..]].concat(), PUT]);
    assert_chosen(&book, &[0, 1, 0, 0, 0, 0, 0]);
    // The last of the table, and one in the middle.
    let book = blocks(&[&starts(1), &puts]);
    assert_chosen(&book, &[0, 1, 1, 1, 1, 1]);
    let book = blocks(&[&[starts(1), starts(2)].concat(), &puts, ""]);
    assert_chosen(&book, &[0, 1, 0, 1, 1, 1, 1]);
}

#[test]
fn a_blocked_step_uses_a_turn() {
    // Job 0 starts job 1 and is blocked then; job 1 puts twice.
    let book = blocks(&[&[&starts(1), STUCK].concat(), &two_puts()]);
    let round = turned(&book, 8);
    assert_eq!(round.chosen, [0, 1, 0, 1, 0, 0, 0, 0]);
    assert_eq!(round.answers(), [0, 0, 1, 0, 1, 1, 1, 1]);
    assert_eq!(round.after.job(0), [0, 1, 12, 12]);
    assert_eq!(round.after.job(1), [1, 2, 12, 12]);
}

#[test]
fn a_blocked_job_goes_on_when_it_can() {
    // Cell 0 has label 9. Job 0 starts job 1, is lowered to 4, and writes; job 1 relabels it to 4.
    let book = "01 03 10 12 00 00 20 01 09 00 05 00 00 00
        30 0C 49 01 48 04 41 00 00 46 00 06
        30 0C 40 06 09 00 00 00 40 06 09 00 00 00 40 06 09 00 00 00 41 00 00 47 00 04";
    let round = turned(book, 50);
    assert_eq!(round.chosen, [0, 1, 0, 1, 0, 1, 0, 1, 0, 1, 0]);
    assert_eq!(round.answers(), [0, 0, 0, 0, 0, 0, 1, 0, 1, 0, 0]);
    assert_eq!(round.after.cell(0), (4, (0, 0, 4)));
}

#[test]
fn a_round_whose_jobs_are_all_blocked_goes_on_to_its_last_turn() {
    for turns in [1, 2, 3, 64, 100, 4_095, 4_096] {
        let round = turned(&blocks(&[STUCK]), turns);
        assert_eq!(round.chosen, vec![0; turns as usize]);
        assert_eq!(round.answers(), vec![1; turns as usize]);
    }
    let round = turned(&blocks(&[&[&starts(1), STUCK].concat(), STUCK]), 4_096);
    assert_eq!(round.turns(), 4_096);
    let jobs = round.chosen.iter();
    assert!(jobs
        .enumerate()
        .all(|(turn, &job)| usize::from(job) == turn % 2));
    assert_eq!(round.answers()[0], 0);
    assert_eq!(round.answers()[1..], [1; 4_095]);
}

/// Block 0 starts block 1 63 times and puts once; block 1 puts 64 times. The jobs up to K have a turn
/// each behind the start of job K.
fn all_jobs() -> String {
    let first = [&starts(1).repeat(63), PUT].concat();
    blocks(&[&first, &PUT.repeat(64)])
}

#[test]
fn sixty_four_jobs_take_turns() {
    let round = turned(&all_jobs(), 4_096);
    let mut expected: Vec<u8> = (1..64).flat_map(|last| 0..=last).collect();
    assert_eq!(expected.len(), 2 + (3 + 64) * 62 / 2);
    // Then job 0 has its put, and every other job goes on until it has had 64 turns, the first of
    // them in the pass of its start.
    expected.extend(0..64);
    for pass in 65..=126 {
        expected.extend(pass - 63..64);
    }
    assert_eq!(expected.len(), 64 * 64);
    assert_eq!(round.chosen, expected);
    assert_eq!(round.answers(), [0; 4_096]);
    assert_eq!(round.after.in_use(), (1, 64));
    // Between two turns of job 0 each of the 63 others has one.
    assert_eq!((round.chosen[2_015], round.chosen[2_079]), (0, 0));
    assert_eq!(round.chosen[2_016..2_079], (1..64).collect::<Vec<u8>>());
    // One turn fewer leaves the last job a step.
    let round = turned(&all_jobs(), 4_095);
    assert_eq!(round.turns(), 4_095);
    assert_eq!(round.after.job(63), [1, 63, 12, 12]);
}

#[test]
fn a_start_is_blocked_when_64_jobs_exist() {
    // Job J starts job J + 1; job 63 is blocked, and finds itself alone.
    let round = turned(&blocks(&[&starts(0)]), 70);
    let expected: Vec<u8> = (0..64).chain([63; 6]).collect();
    assert_eq!(round.chosen, expected);
    assert_eq!(round.answers()[..63], [0; 63]);
    assert_eq!(round.answers()[63..], [1; 7]);
    assert_eq!(round.after.in_use(), (1, 64));
}
