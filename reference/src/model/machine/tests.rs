//! Expectations derived by hand from document 01, and from 02 where it amends the machine.

mod choose;
mod events;
mod launch;
mod refusals;
mod round;
mod steps;

use super::*;
use crate::model::book::tests::{hex, A};

/// What the lent buffers hold before a run.
const BEFORE: u8 = 0xA5;

/// The answers and tables of a run, and what it gives.
#[derive(Debug, PartialEq, Eq)]
struct After {
    outcome: Outcome,
    cells: Vec<u8>,
    jobs: Vec<u8>,
    answers: Vec<u8>,
}

/// A launch label, or none.
type Launch = Option<u32>;

/// A run with buffers of these lengths: cells, jobs, answers.
fn run_with(run: Runner, book: &[u8], launch: Launch, events: &[u8], lengths: [usize; 3]) -> After {
    let mut lent = lengths.map(|length| vec![BEFORE; length]);
    let outcome = run(book, launch, events, &mut lent);
    let [cells, jobs, answers] = lent;
    After {
        outcome,
        cells,
        jobs,
        answers,
    }
}

/// The same of both machines.
fn launch_both(book: &[u8], launch: Launch, events: &[u8], lengths: [usize; 3]) -> After {
    let after = run_with(run, book, launch, events, lengths);
    assert_eq!(after, run_with(fast::run, book, launch, events, lengths));
    after
}

/// The same with block 0's bound as the launch label, as a run was before 02, Three.
fn run_both(book: &[u8], events: &[u8], lengths: [usize; 3]) -> After {
    let bound = book::bound(book).map(u32::from);
    launch_both(book, bound, events, lengths)
}

/// Runs at the bound with an answer buffer of the right length.
fn runs(book: &str, events: &str) -> After {
    let (book, events) = (hex(book), hex(events));
    let count = event::split(&events).unwrap().len();
    run_both(&book, &events, [CELLS_SIZE, JOBS_SIZE, count])
}

/// Kind, number, source.
type Stored = (u8, u32, u8);

fn stored(field: &[u8]) -> Stored {
    let number = [field[1], field[2], field[3], field[4]];
    (field[0], u32::from_le_bytes(number), field[5])
}

impl After {
    /// The label and the value of a cell.
    fn cell(&self, number: usize) -> (u8, Stored) {
        let record = &self.cells[number * CELL_SIZE..][..CELL_SIZE];
        (record[2], stored(&record[3..]))
    }

    /// Block, position, label, source.
    fn job(&self, number: usize) -> [u8; 4] {
        self.jobs[number * JOB_SIZE..][..4].try_into().unwrap()
    }

    fn register(&self, job: usize, number: usize) -> Stored {
        let record = &self.jobs[job * JOB_SIZE..][..JOB_SIZE];
        stored(&record[4 + 6 * number..][..6])
    }

    /// The cells and jobs in use.
    fn in_use(&self) -> (usize, usize) {
        let ran = self.outcome.unwrap();
        (ran.cells, ran.jobs)
    }
}

/// C is 3. Shapes: 0 plain; 1 plain cell of trust 9; 2 plain cell of trust 3; 3 code 12; 4 cell of
/// 3, trust 2. Cell 0 of shape 1, label 9, is plain 5; cell 1 of shape 2, label 0, is plain 6;
/// cell 2 of shape 4, label 2, is block 1; cell 3 of shape 2, label 12, is cell 0.
const WORLD: &str = "01 03  10  12 00 09  12 00 03  11 0C  12 03 02
    20 01 09 00 05 00 00 00  20 02 00 00 06 00 00 00
    20 04 02 02 01 00 00 00  20 02 0C 01 00 00 00 00";

/// Block 0 with these steps; block 1 of bound 7 puts 1 into register 0, block 2 is empty.
fn world(bound: u8, steps: &str) -> String {
    format!("{WORLD} 30 {bound:02X} {steps} 30 07 40 00 01 00 00 00 30 01")
}

/// A world's run.
fn after(bound: u8, steps: &str, events: &str) -> After {
    runs(&world(bound, steps), events)
}

/// Job 0 takes so many steps, all of them done.
fn stepped(bound: u8, steps: &str, count: usize) -> After {
    let after = after(bound, steps, &"50 00 ".repeat(count));
    assert_eq!(after.answers, vec![0; count], "{steps}");
    after
}

/// An event alone is answered so, and answers 1 to 3 change nothing.
fn assert_answer(bound: u8, steps: &str, event: &str, answer: u8) {
    assert_answer_after(bound, steps, "", event, answer);
}

/// The same after other events.
fn assert_answer_after(bound: u8, steps: &str, before: &str, event: &str, answer: u8) {
    let first = after(bound, steps, before);
    let both = after(bound, steps, &[before, event].join(" "));
    assert_eq!(both.answers.last(), Some(&answer), "{before}, {event}");
    let same = both.cells == first.cells && both.jobs == first.jobs;
    assert_eq!(same, answer != 0, "{before}, {event}");
}

#[test]
fn samples() {
    let four = "50 00 50 00 50 00 50 00";
    let ran = runs(A, four);
    assert_eq!(ran.answers, [0, 0, 0, 2]);
    assert_eq!(ran.cell(0), (9, (0, 7, 12)));
    let ran = runs(&A.replace("30 0C", "30 08"), four);
    assert_eq!(ran.answers, [0, 0, 1, 1]);
    assert_eq!(ran.cell(0), (9, (0, 5, 15)));
    assert_eq!(runs(A, "51 03 00 00 07 00 00 00").answers, [1]);
    assert_eq!(runs(A, "51 04 00 00 07 00 00 00").answers, [3]);
}

#[test]
fn a_run_begins_fresh() {
    let ran = after(12, "", "");
    assert_eq!(ran.in_use(), (4, 1));
    assert_eq!(ran.job(0), [0, 0, 12, 12]);
    for register in 0..8 {
        assert_eq!(ran.register(0, register), (0, 0, 12));
    }
    assert_eq!(ran.cell(0), (9, (0, 5, 15)));
    assert_eq!(ran.cell(1), (0, (0, 6, 15)));
    assert_eq!(ran.cell(2), (2, (2, 1, 15)));
    assert_eq!(ran.cell(3), (12, (1, 0, 15)));
}

#[test]
fn records_have_their_layout_and_unused_entries_are_zero() {
    let ran = runs(A, "50 00 50 00");
    assert_eq!(&ran.cells[..9], &[1, 9, 9, 0, 5, 0, 0, 0, 15]);
    assert!(ran.cells[9..].iter().all(|&byte| byte == 0));
    let mut job = vec![0, 2, 12, 12, 1, 0, 0, 0, 0, 12, 0, 7, 0, 0, 0, 12];
    for _ in 2..8 {
        job.extend([0, 0, 0, 0, 0, 12]);
    }
    assert_eq!(&ran.jobs[..JOB_SIZE], job);
    assert!(ran.jobs[JOB_SIZE..].iter().all(|&byte| byte == 0));
}

#[test]
fn the_trust_stored_is_the_byte_in_the_book() {
    let ran = after(12, "", "");
    let trusts = [0, 1, 2, 3].map(|cell| ran.cells[cell * CELL_SIZE + 1]);
    assert_eq!(trusts, [9, 3, 2, 3]);
}

#[test]
fn answers_beyond_the_events_are_kept() {
    let lengths = [CELLS_SIZE, JOBS_SIZE, 5];
    let ran = run_both(&hex(A), &hex("50 00 50 01"), lengths);
    assert_eq!(ran.answers, [0, 3, BEFORE, BEFORE, BEFORE]);
}

#[test]
fn unaccepted_books_run() {
    // The declared cell breaks its rule, the step too.
    let book = "01 03 10 12 00 09 20 01 00 00 05 00 00 00 30 0C 4A 00";
    assert_eq!(runs(book, "50 00").answers, [1]);
}

#[test]
fn a_doubling_is_blocked_at_its_32nd_time() {
    // 1 doubled 31 times is 2,147,483,648, and once more would be 4,294,967,296. The put and 31
    // doublings are done, 32 steps; whoever asks again is answered 1 again.
    let steps = ["40 03 01 00 00 00", &" 43 03 03 03".repeat(40)].concat();
    let ran = after(12, &steps, &"50 00 ".repeat(35));
    assert_eq!(ran.answers[..32], [0; 32]);
    assert_eq!(ran.answers[32..], [1, 1, 1]);
    assert_eq!(ran.job(0), [0, 32, 12, 12]);
    assert_eq!(ran.register(0, 3), (0, 2_147_483_648, 12));
    // The last that is done doubles 1,073,741,824.
    let ran = after(12, &steps, &"50 00 ".repeat(31));
    assert_eq!(ran.register(0, 3), (0, 1_073_741_824, 12));
}
