//! The label that job 0 is launched at, by request three of document 02.

mod common;

use common::{at_bound, BOOK_A, FOUR_STEPS};
use xemdulba::{
    bound, run, run_into, Kind, Label, Refusal, Run, Settings, Value, CELLS_SIZE, JOBS_SIZE,
};

fn at(label: u8) -> Settings {
    Settings::default().launch(Label(label))
}

/// Book A on four steps.
fn four_steps(settings: Settings) -> Run {
    run(&BOOK_A, &FOUR_STEPS, settings).unwrap()
}

fn answers(run: &Run) -> Vec<u8> {
    run.answers.iter().map(|answer| answer.byte()).collect()
}

/// A book of this C and a block of this bound, with no steps.
fn least(c: u8, bound: u8) -> [u8; 4] {
    [0x01, c, 0x30, bound]
}

fn refusal(number: u32, place: usize) -> Refusal {
    Refusal { number, place }
}

/// C is 3 and the bound 12, so that job 0 is at 4: the cell's label 9 is above it, and the third
/// step is blocked, twice.
#[test]
fn book_a_is_launched_low() {
    let low = four_steps(Settings::default());
    assert_eq!(answers(&low), [0, 0, 1, 1]);
    let value = |kind, number, label| Value {
        kind,
        number,
        source: Label(label),
    };
    assert_eq!(low.cells[0].value, value(Kind::Plain, 5, 15));
    let job = low.jobs[0];
    assert_eq!((job.block, job.position), (0, 2));
    assert_eq!((job.label, job.source), (Label(4), Label(4)));
    assert_eq!(job.registers[0], value(Kind::Cell, 0, 4));
    assert_eq!(job.registers[1], value(Kind::Plain, 7, 4));
    assert_eq!(job.registers[2..], [value(Kind::Plain, 0, 4); 6]);
}

/// The cell's label is 9: from there on the third step is done, and leaves the job's history.
#[test]
fn book_a_at_every_label_up_to_the_bound() {
    assert_eq!(at_bound(&BOOK_A), at(12));
    for label in 0..=12 {
        let run = four_steps(at(label));
        let (expected, source) = match label {
            ..=8 => ([0, 0, 1, 1], 15),
            _ => ([0, 0, 0, 2], label),
        };
        assert_eq!(answers(&run), expected, "at {label}");
        assert_eq!(run.cells[0].value.source, Label(source), "at {label}");
        let job = run.jobs[0];
        assert_eq!((job.label, job.source), (Label(label), Label(label)));
    }
    assert_eq!(four_steps(Settings::default()), four_steps(at(4)));
}

#[test]
fn by_default_it_is_the_smaller_of_c_plus_1_and_the_bound() {
    for c in 0..=14 {
        for bound in 0..=15 {
            let book = least(c, bound);
            let low = run(&book, &[], Settings::default()).unwrap();
            let label = Label(bound.min(c + 1));
            assert_eq!((low.jobs[0].label, low.jobs[0].source), (label, label));
        }
    }
}

/// "with a bound at or below C the default is the bound", and the first above it.
#[test]
fn by_default_a_low_bound_is_the_label() {
    for (bound, label) in [(0, 0), (2, 2), (3, 3), (4, 4), (5, 4), (15, 4)] {
        let low = run(&least(3, bound), &[], Settings::default()).unwrap();
        assert_eq!(low.jobs[0].label, Label(label), "bound {bound}");
    }
}

#[test]
fn a_label_above_the_bound_is_refused() {
    let refused = |book: &[u8], label| run(book, &FOUR_STEPS, at(label)).err();
    for label in [13, 15, 16, 254, 255] {
        assert_eq!(refused(&BOOK_A, label), Some(refusal(14, 0)), "at {label}");
    }
    for (bound, label) in [(0, 1), (3, 4), (14, 15), (15, 16), (15, 255)] {
        assert_eq!(refused(&least(3, bound), bound), None);
        assert_eq!(refused(&least(3, bound), label), Some(refusal(14, 0)));
    }
}

/// What the memory holds before.
const BEFORE: u8 = 0xA5;

/// A run at a label on lent memory of these lengths, cells, jobs and answers. It is refused, and
/// writes nothing.
fn refused(book: &[u8], events: &[u8], label: u8, lengths: [usize; 3]) -> (u32, usize) {
    let lend = || lengths.map(|length| vec![BEFORE; length]);
    let [mut cells, mut jobs, mut answers] = lend();
    let outcome = run_into(book, events, at(label), &mut cells, &mut jobs, &mut answers);
    let Refusal { number, place } = outcome.expect_err("the run is refused");
    assert_eq!([cells, jobs, answers], lend());
    (number, place)
}

#[test]
fn a_refused_launch_writes_nothing() {
    for label in [13, 16, 255] {
        let lengths = [CELLS_SIZE, JOBS_SIZE, 6];
        assert_eq!(refused(&BOOK_A, &FOUR_STEPS, label, lengths), (14, 0));
        assert_eq!(refused(&BOOK_A, &[], label, lengths), (14, 0));
    }
}

#[test]
fn other_refusals_come_first() {
    let right = [CELLS_SIZE, JOBS_SIZE, 4];
    let unread = [0x01, 0x0F, 0x30, 0x00];
    assert_eq!(refused(&unread, &[0x09], 13, [0, 0, 0]), (5, 0));
    let cut = &FOUR_STEPS[..7];
    assert_eq!(refused(&BOOK_A, cut, 13, [0, 0, 0]), (9, 6));
    let short_table = [CELLS_SIZE, JOBS_SIZE - 1, 3];
    assert_eq!(refused(&BOOK_A, &FOUR_STEPS, 13, short_table), (10, 0));
    let few_answers = [CELLS_SIZE, JOBS_SIZE, 3];
    assert_eq!(refused(&BOOK_A, &FOUR_STEPS, 13, few_answers), (11, 0));
    assert_eq!(refused(&BOOK_A, &FOUR_STEPS, 13, right), (14, 0));
}

/// A run asks for no check: A6, which check refuses, is refused for its launch alone.
#[test]
fn a_book_that_is_not_accepted_is_launched() {
    let a6 = [&BOOK_A[..25], &[0x47, 0x00, 0x08]].concat();
    assert_eq!(bound(&a6), Ok(Label(12)));
    assert_eq!(run(&a6, &[], at(13)), Err(refusal(14, 0)));
    assert!(run(&a6, &[], at_bound(&a6)).is_ok());
}

#[test]
fn the_bound_is_that_of_block_0() {
    assert_eq!(bound(&BOOK_A), Ok(Label(12)));
    assert_eq!(bound(&BOOK_A[..16]), Ok(Label(12)));
    for label in 0..=15 {
        assert_eq!(bound(&least(3, label)), Ok(Label(label)));
        let two_blocks = [0x01, 0x03, 0x30, label, 0x48, 0x00, 0x30, 0x05];
        assert_eq!(bound(&two_blocks), Ok(Label(label)));
    }
}

#[test]
fn a_book_that_cannot_be_read_has_no_bound() {
    let unnamed = [0x01, 0x03, 0x30, 0x0C, 0x49, 0x01];
    let many_shapes = [&[0x01, 0x03][..], &[0x10; 33], &[0x30, 0x0C]].concat();
    for (book, expected) in [
        (&[0x01; 32_769][..], refusal(1, 0)),
        (&BOOK_A[..27], refusal(2, 25)),
        (&[], refusal(3, 0)),
        (&[0x01, 0x03], refusal(3, 2)),
        (&many_shapes, refusal(4, 2 + 32)),
        (&least(15, 0), refusal(5, 0)),
        (&least(3, 16), refusal(5, 2)),
        (&unnamed, refusal(6, 4)),
    ] {
        assert_eq!(bound(book), Err(expected));
        assert_eq!(run(book, &[], Settings::default()), Err(expected));
        assert_eq!(run(book, &[], at(0)), Err(expected));
    }
}
