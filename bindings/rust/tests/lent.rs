//! What a run does to the memory that it is lent.

mod common;

use common::{at_bound, BOOK_A, FOUR_STEPS};
use xemdulba::{run, run_into, Answer, Refusal, Tables, CELLS_SIZE, JOBS_SIZE, TABLE};

/// What the memory holds before.
const BEFORE: u8 = 0xA5;

/// Memory of these lengths: the cell table, the job table, the answers.
fn lend(lengths: [usize; 3]) -> [Vec<u8>; 3] {
    lengths.map(|length| vec![BEFORE; length])
}

/// A refused run: the refusal, once it is seen that nothing was written.
fn refused(book: &[u8], events: &[u8], lengths: [usize; 3]) -> (u32, usize) {
    let [mut cells, mut jobs, mut answers] = lend(lengths);
    let outcome = run_into(
        book,
        events,
        at_bound(book),
        &mut cells,
        &mut jobs,
        &mut answers,
    );
    let Refusal { number, place } = outcome.expect_err("the run is refused");
    assert_eq!([cells, jobs, answers], lend(lengths));
    (number, place)
}

#[test]
fn a_refused_run_writes_nothing() {
    let lengths = [CELLS_SIZE, JOBS_SIZE, 4];
    assert_eq!(refused(&[], &FOUR_STEPS, lengths), (3, 0));
    assert_eq!(refused(&BOOK_A[..27], &FOUR_STEPS, lengths), (2, 25));
    assert_eq!(refused(&BOOK_A, &FOUR_STEPS[..7], lengths), (9, 6));
    assert_eq!(refused(&BOOK_A, &[0x50, 0x00, 0x4F], lengths), (9, 2));
}

#[test]
fn tables_of_another_length_are_refused() {
    for (cells, jobs) in [
        (0, 0),
        (CELLS_SIZE - 1, JOBS_SIZE),
        (CELLS_SIZE, JOBS_SIZE + 1),
    ] {
        assert_eq!(refused(&BOOK_A, &FOUR_STEPS, [cells, jobs, 4]), (10, 0));
    }
    let short = [CELLS_SIZE, JOBS_SIZE, 3];
    assert_eq!(refused(&BOOK_A, &FOUR_STEPS, short), (11, 0));
    assert_eq!(refused(&BOOK_A, &FOUR_STEPS, [0, 0, 0]), (10, 0));
}

#[test]
fn long_books_and_lists_are_refused() {
    let lengths = [CELLS_SIZE, JOBS_SIZE, 32_769];
    assert_eq!(refused(&[1; 32_769], &[], lengths), (1, 0));
    assert_eq!(refused(&BOOK_A, &[80; 65_537], lengths), (9, 0));
    let refusal = run(&BOOK_A, &[80; 65_537], at_bound(&BOOK_A)).unwrap_err();
    assert_eq!((refusal.number, refusal.place), (9, 0));
}

/// Book A on four steps, at the bound, in lent memory.
fn four_steps([cells, jobs, answers]: &mut [Vec<u8>; 3]) -> Tables<'_> {
    let settings = at_bound(&BOOK_A);
    run_into(&BOOK_A, &FOUR_STEPS, settings, cells, jobs, answers).unwrap()
}

#[test]
fn spare_answers_are_kept_and_unused_entries_cleared() {
    let mut lent = lend([CELLS_SIZE, JOBS_SIZE, 6]);
    let tables = four_steps(&mut lent);
    assert_eq!((tables.cells.len(), tables.jobs.len()), (1, 1));
    let [cells, jobs, answers] = lent;
    assert_eq!(answers, [0, 0, 0, 2, BEFORE, BEFORE]);
    assert!(cells[9..].iter().all(|&byte| byte == 0));
    assert!(jobs[52..].iter().all(|&byte| byte == 0));
}

#[test]
fn the_views_are_what_an_owned_run_has() {
    let mut lent = lend([CELLS_SIZE, JOBS_SIZE, 4]);
    let tables = four_steps(&mut lent);
    let owned = run(&BOOK_A, &FOUR_STEPS, at_bound(&BOOK_A)).unwrap();
    assert_eq!(tables.cells.iter().collect::<Vec<_>>(), owned.cells);
    assert_eq!(tables.jobs.iter().collect::<Vec<_>>(), owned.jobs);
    assert_eq!(tables.jobs.get(0), Some(owned.jobs[0]));
    assert_eq!(tables.jobs.get(1), None);
}

/// Book A with a cell shape of trust 3, of which an outsider makes 64 cells.
#[test]
fn full_tables_are_read_to_their_end() {
    let book = [&BOOK_A[..6], &[0x12, 0x00, 0x03], &BOOK_A[6..]].concat();
    let make = [0x53, 0x03, 0x02, 0x00, 0x2A, 0x00, 0x00, 0x00];
    let start = [0x55, 0x03, 0x00];
    let events = [make.repeat(TABLE), start.repeat(TABLE)].concat();
    let run = run(&book, &events, at_bound(&book)).unwrap();
    assert_eq!((run.cells.len(), run.jobs.len()), (TABLE, TABLE));
    assert_eq!(run.cells[TABLE - 1].value.number, 42);
    let blocked = |answer: &&Answer| **answer == Answer::Blocked;
    assert_eq!(run.answers.iter().filter(blocked).count(), 2);
    assert_eq!(run.answers.len(), 2 * TABLE);
}

#[test]
fn the_longest_list_has_an_answer_for_each_event() {
    let run = run(&BOOK_A, &[0x50, 0x00].repeat(32_768), at_bound(&BOOK_A)).unwrap();
    assert_eq!(run.answers.len(), 32_768);
    assert_eq!(run.answers[32_767], Answer::NoStepLeft);
}
