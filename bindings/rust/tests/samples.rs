//! The sample books and runs of document 01.

mod common;

use common::{at_bound, BOOK_A, FOUR_STEPS};
use xemdulba::{check, run, stretch, stretch_range, Answer, Counts, Kind, Label, Refusal, Trust};

/// "A6 last step 47 00 08".
fn book_a6() -> Vec<u8> {
    [&BOOK_A[..25], &[0x47, 0x00, 0x08]].concat()
}

/// "A2 bound 08".
fn book_a2() -> Vec<u8> {
    let mut book = BOOK_A.to_vec();
    book[15] = 0x08;
    book
}

/// An outsider at a label writes plain 7 to cell 0.
fn write_at(label: u8) -> [u8; 8] {
    [0x51, label, 0x00, 0x00, 0x07, 0x00, 0x00, 0x00]
}

fn refusal(number: u32, place: usize) -> Refusal {
    Refusal { number, place }
}

#[test]
fn book_a_is_accepted_with_its_counts() {
    let counts = Counts {
        shapes: 2,
        cells: 1,
        blocks: 1,
        steps: 3,
    };
    assert_eq!(check(&BOOK_A), Ok(counts));
    let words = "accepted shapes 2 cells 1 blocks 1 steps 3";
    assert_eq!(counts.to_string(), words);
}

#[test]
fn a6_is_refused_at_its_last_step() {
    assert_eq!(check(&book_a6()), Err(refusal(8, 25)));
    let error: Box<dyn std::error::Error> = refusal(8, 25).into();
    assert_eq!(error.to_string(), "refused 8 at 25");
}

#[test]
fn books_without_a_block_are_refused() {
    assert_eq!(check(&[]), Err(refusal(3, 0)));
    assert_eq!(check(&[0x01, 0x0F]), Err(refusal(3, 2)));
    assert_eq!(run(&[], &[], at_bound(&[])), Err(refusal(3, 0)));
    assert_eq!(stretch(&[], 0), Err(refusal(3, 0)));
}

#[test]
fn a_stretch_is_the_steps_of_its_block() {
    assert_eq!(stretch(&BOOK_A, 0), Ok(&BOOK_A[16..]));
    assert_eq!(stretch_range(&BOOK_A, 0), Ok(16..28));
    assert_eq!(stretch(&BOOK_A, 1), Err(refusal(12, 0)));
    assert_eq!(stretch(&BOOK_A, u32::MAX), Err(refusal(12, 0)));
    assert_eq!(stretch(&[1, 3, 48, 12], 0), Ok(&[][..]));
}

#[test]
fn four_steps_of_book_a() {
    let run = run(&BOOK_A, &FOUR_STEPS, at_bound(&BOOK_A)).unwrap();
    let [done, none_left] = [Answer::Done, Answer::NoStepLeft];
    assert_eq!(run.answers, [done, done, done, none_left]);
    let [cell] = run.cells[..] else {
        panic!("one cell is in use");
    };
    assert_eq!(
        (cell.shape, cell.trust, cell.label),
        (1, Trust(9), Label(9))
    );
    assert_eq!((cell.value.kind, cell.value.number), (Kind::Plain, 7));
    assert_eq!(cell.value.source, Label(12));
    assert!(cell.trust.is_met(cell.value.source));
}

#[test]
fn the_job_of_book_a() {
    let run = run(&BOOK_A, &FOUR_STEPS, at_bound(&BOOK_A)).unwrap();
    let [job] = run.jobs[..] else {
        panic!("one job is in use");
    };
    assert_eq!((job.block, job.position), (0, 3));
    assert_eq!((job.label, job.source), (Label(12), Label(12)));
    let registers = job.registers.map(|value| (value.kind, value.number));
    assert_eq!(registers[..2], [(Kind::Cell, 0), (Kind::Plain, 7)]);
    assert_eq!(registers[2..], [(Kind::Plain, 0); 6]);
    assert!(job.registers.iter().all(|value| value.source == Label(12)));
}

#[test]
fn four_steps_with_bound_8() {
    let run = run(&book_a2(), &FOUR_STEPS, at_bound(&book_a2())).unwrap();
    let [done, blocked] = [Answer::Done, Answer::Blocked];
    assert_eq!(run.answers, [done, done, blocked, blocked]);
    assert_eq!(run.cells[0].value.number, 5);
    assert_eq!(run.jobs[0].position, 2);
}

#[test]
fn an_outsider_is_blocked_or_above_c() {
    for (label, answer) in [(3, Answer::Blocked), (4, Answer::NoSuch)] {
        let run = run(&BOOK_A, &write_at(label), at_bound(&BOOK_A)).unwrap();
        assert_eq!(run.answers, [answer]);
        assert_eq!(run.cells[0].value.number, 5);
        assert_eq!(run.cells[0].value.source, Label(15));
    }
}

#[test]
fn answers_are_the_bytes_0_to_3() {
    let bytes = (0..4).map(|byte| Answer::of(byte).map(Answer::byte));
    assert_eq!(bytes.collect::<Vec<_>>(), [0, 1, 2, 3].map(Some));
    assert_eq!(Answer::of(4), None);
}
