//! A step that chooses, by request four of document 02.

use xemdulba::{bound, check, run, Job, Kind, Label, Refusal, Run, Settings, Value};

/// C is 3. Cell 0 is official, of trust 9, and cell 1 scratch, of trust 2; both are plain.
const DECLARED: [u8; 25] = [
    0x01, 0x03, 0x10, 0x12, 0x00, 0x09, 0x12, 0x00, 0x02, 0x20, 0x01, 0x09, 0x00, 0x05, 0x00, 0x00,
    0x00, 0x20, 0x02, 0x02, 0x00, 0x00, 0x00, 0x00, 0x00,
];

/// Block 0 of a bound with these steps, from 27 on, and blocks 1 and 2 of these bounds with none.
fn book_of(bound: u8, steps: &[u8], others: [u8; 2]) -> Vec<u8> {
    let [one, two] = others;
    [
        &DECLARED[..],
        &[0x30, bound],
        steps,
        &[0x30, one, 0x30, two],
    ]
    .concat()
}

/// The three blocks have the bound 12.
fn book(steps: &[u8]) -> Vec<u8> {
    book_of(12, steps, [12, 12])
}

/// The book of these steps, launched at its bound, on these events.
fn run_on(steps: &[u8], events: &[u8]) -> Run {
    let book = book(steps);
    let at_bound = Settings::default().launch(bound(&book).unwrap());
    run(&book, events, at_bound).unwrap()
}

fn answers(run: &Run) -> Vec<u8> {
    run.answers.iter().map(|answer| answer.byte()).collect()
}

/// Block, position, label and source.
fn stands(job: &Job) -> [u8; 4] {
    [job.block, job.position, job.label.0, job.source.0]
}

fn plain(number: u32, source: u8) -> Value {
    Value {
        kind: Kind::Plain,
        number,
        source: Label(source),
    }
}

const STEP: [u8; 2] = [0x50, 0x00];

/// "it starts the first block if r is plain and not 0, the second if r is plain 0"
#[test]
fn one_of_two_blocks_is_started() {
    let chosen = |number: u32| {
        let steps = [&[0x40, 0x03], &number.to_le_bytes()[..], &[0x4B, 3, 1, 2]].concat();
        run_on(&steps, &STEP.repeat(3))
    };
    for number in [0, 1, 2, 0x100, 0x1_0000, 0x100_0000, 0x8000_0000, u32::MAX] {
        let run = chosen(number);
        assert_eq!(answers(&run), [0, 0, 2]);
        let block = if number == 0 { 2 } else { 1 };
        let jobs: Vec<_> = run.jobs.iter().map(stands).collect();
        assert_eq!(jobs, [[0, 2, 12, 12], [block, 0, 12, 12]]);
        assert_eq!(run.jobs[1].registers, [plain(0, 12); 8]);
    }
}

/// "and is blocked otherwise": by the name of a cell, and by code.
#[test]
fn what_is_not_plain_blocks() {
    for value in [[0x41, 0, 0], [0x42, 0, 1]] {
        let run = run_on(&[&value[..], &[0x4B, 0, 1, 2]].concat(), &STEP.repeat(3));
        assert_eq!(answers(&run), [0, 1, 1]);
        let jobs: Vec<_> = run.jobs.iter().map(stands).collect();
        assert_eq!(jobs, [[0, 1, 12, 12]]);
    }
}

/// "or when no job fits": an outsider starts 62 jobs, the chooser one more.
#[test]
fn the_65th_job_is_blocked() {
    let events = [[0x55, 0x00, 0x01].repeat(62), STEP.repeat(3)].concat();
    let run = run_on(&[0x4B, 0, 1, 2, 0x4B, 0, 1, 2], &events);
    assert_eq!(answers(&run)[62..], [0, 1, 1]);
    assert_eq!(run.jobs.len(), 64);
    assert_eq!(stands(&run.jobs[63]), [2, 0, 12, 12]);
    assert_eq!(stands(&run.jobs[0]), [0, 1, 12, 12]);
}

/// "The started job has the chooser's label, and its history is the chooser's alone". An outsider
/// at 2 writes a number; job 0 reads it, lowers itself to 8, and chooses by it.
#[test]
fn the_job_has_the_choosers_label_and_history() {
    let steps = [0x41, 0, 1, 0x45, 0, 0, 0x48, 8, 0x4B, 0, 1, 2];
    let write = [0x51, 2, 1, 0, 7, 0, 0, 0];
    let run = run_on(&steps, &[&write[..], &STEP.repeat(4)].concat());
    assert_eq!(answers(&run), [0; 5]);
    assert_eq!(run.jobs[0].registers[0], plain(7, 2));
    assert_eq!(stands(&run.jobs[0]), [0, 4, 8, 8]);
    assert_eq!(stands(&run.jobs[1]), [1, 0, 8, 8]);
    assert_eq!(run.jobs[1].registers, [plain(0, 8); 8]);
}

fn refusal(book: &[u8]) -> Option<(u32, usize)> {
    let Refusal { number, place } = check(book).err()?;
    Some((number, place))
}

/// "With P above C, both bounds must be at least P, and r must be plain unless its effect is low."
#[test]
fn books_that_choose_are_typed() {
    let choose = [0x4B, 0, 1, 2];
    assert_eq!(refusal(&book(&choose)), None);
    assert_eq!(refusal(&book_of(12, &choose, [15, 12])), None);
    for others in [[11, 12], [12, 11], [11, 11]] {
        assert_eq!(refusal(&book_of(12, &choose, others)), Some((8, 27)));
        let lowered = [0x48, 11, 0x4B, 0, 1, 2];
        assert_eq!(refusal(&book_of(12, &lowered, others)), None);
    }
    // A name, code; a number from the official cell, and one from the scratch cell.
    assert_eq!(refusal(&book(&[0x41, 0, 0, 0x4B, 0, 1, 2])), Some((8, 30)));
    assert_eq!(refusal(&book(&[0x42, 0, 0, 0x4B, 0, 1, 2])), Some((8, 30)));
    for cell in [0, 1] {
        let read = [0x41, 0, cell, 0x45, 0, 0, 0x4B, 0, 1, 2];
        assert_eq!(refusal(&book(&read)), None);
    }
    // P at C.
    let low = [0x41, 0, 0, 0x4B, 0, 1, 2];
    assert_eq!(refusal(&book_of(3, &low, [0, 0])), None);
    assert_eq!(refusal(&book_of(4, &low, [4, 4])), Some((8, 30)));
}

#[test]
fn books_that_cannot_be_read() {
    for length in 1..4 {
        let cut = [&[0x01, 3, 0x30, 12], &[0x4B, 0, 0, 0][..length]].concat();
        assert_eq!(refusal(&cut), Some((2, 4)));
    }
    assert_eq!(refusal(&[0x01, 3, 0x30, 12, 0x4C, 0, 0, 0]), Some((2, 4)));
    assert_eq!(refusal(&[0x01, 3, 0x4B, 0, 0, 0, 0x30, 12]), Some((3, 2)));
    let many = |count| [&[0x01, 3, 0x30, 12][..], &[0x4B, 0, 0, 0].repeat(count)].concat();
    assert_eq!(refusal(&many(64)), None);
    assert_eq!(refusal(&many(65)), Some((4, 4 + 64 * 4)));
    assert_eq!(refusal(&book(&[0x4B, 8, 3, 3])), Some((5, 27)));
    for step in [[0x4B, 7, 3, 2], [0x4B, 7, 2, 3], [0x4B, 7, 255, 255]] {
        assert_eq!(refusal(&book(&step)), Some((6, 27)));
    }
}
