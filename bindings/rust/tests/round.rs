//! A fair round, by request six of document 02. What the books here give was reckoned by hand.

mod common;

use common::{at_bound, BOOK_A};
use xemdulba::{
    round, round_into, run, tables, Job, Label, Refusal, Run, Settings, CELLS_SIZE, JOBS_SIZE,
    MOST_TURNS, TABLE,
};

/// A book of C 3 and blocks of bound 12 with these steps.
fn book_of(blocks: &[&[u8]]) -> Vec<u8> {
    let mut book = vec![0x01, 0x03];
    for steps in blocks {
        book.extend([0x30, 0x0C]);
        book.extend(*steps);
    }
    book
}

/// Lowers a job to 9. Any job from 9 up does it, and one below is blocked.
const LOWER: [u8; 2] = [0x48, 0x09];

/// Reads by a register that is plain, which is blocked.
const STUCK: [u8; 3] = [0x45, 0x00, 0x00];

/// Block 0 starts blocks 1 and 2, and then stays blocked. Block 1 has two steps, block 2 three.
fn stuck_book() -> Vec<u8> {
    let starts = [&[0x49, 0x01, 0x49, 0x02][..], &STUCK].concat();
    book_of(&[&starts, &LOWER.repeat(2), &LOWER.repeat(3)])
}

/// Job 0 starts job 1; job 1; job 0 starts job 2; job 1, its last; job 2; job 0 is blocked; job 2;
/// job 0; job 2, its last; then job 0 alone.
const STUCK_JOBS: [u8; 12] = [0, 1, 0, 1, 2, 0, 2, 0, 2, 0, 0, 0];
const STUCK_ANSWERS: [u8; 12] = [0, 0, 0, 0, 0, 1, 0, 1, 0, 1, 1, 1];

/// Block 0 starts block 1 and has two more steps. Block 1 starts block 2, which has one step.
fn finishing_book() -> Vec<u8> {
    let first = [&[0x49, 0x01][..], &LOWER.repeat(2)].concat();
    book_of(&[&first, &[0x49, 0x02], &LOWER])
}

/// Job 0 starts job 1, which starts job 2; that is next; then job 0 twice.
const FINISHING_JOBS: [u8; 5] = [0, 1, 2, 0, 0];

/// A step of each of these jobs.
fn steps_of(jobs: &[u8]) -> Vec<u8> {
    jobs.iter().flat_map(|&job| [0x50, job]).collect()
}

/// The round at the bound.
fn round_of(book: &[u8], turns: u32) -> Run {
    round(book, turns, at_bound(book)).unwrap()
}

fn answers(run: &Run) -> Vec<u8> {
    run.answers.iter().map(|answer| answer.byte()).collect()
}

/// Block, position, label and source.
fn stands(job: &Job) -> [u8; 4] {
    [job.block, job.position, job.label.0, job.source.0]
}

fn refusal(number: u32, place: usize) -> Refusal {
    Refusal { number, place }
}

/// "A blocked step uses a turn."
#[test]
fn a_job_that_stays_blocked_has_its_turns() {
    let round = round_of(&stuck_book(), 12);
    assert_eq!(answers(&round), STUCK_ANSWERS);
    let jobs: Vec<_> = round.jobs.iter().map(stands).collect();
    assert_eq!(jobs, [[0, 2, 12, 12], [1, 2, 9, 9], [2, 3, 9, 9]]);
    assert_eq!(round.cells, []);
}

/// "The round equals the run on the list of steps that it chose."
#[test]
fn it_is_the_run_on_the_steps_that_it_chose() {
    for (book, jobs) in [
        (stuck_book(), &STUCK_JOBS[..]),
        (finishing_book(), &FINISHING_JOBS),
        (BOOK_A.to_vec(), &[0, 0, 0]),
    ] {
        for turns in 0..=jobs.len() {
            let run = run(&book, &steps_of(&jobs[..turns]), at_bound(&book)).unwrap();
            assert_eq!(round_of(&book, turns as u32), run, "{turns} turns");
        }
    }
}

/// "The call ends early only when no job has a step left"
#[test]
fn it_ends_when_no_job_has_a_step_left() {
    for turns in [5, 6, 100, MOST_TURNS] {
        let round = round_of(&finishing_book(), turns);
        assert_eq!(answers(&round), [0; 5]);
        assert_eq!(round.jobs.len(), 3);
    }
    let none = book_of(&[&[], &LOWER]);
    assert_eq!(answers(&round_of(&none, 9)), []);
}

#[test]
fn so_many_turns() {
    let book = stuck_book();
    let none = round_of(&book, 0);
    assert_eq!((none.answers.len(), none.jobs.len()), (0, 1));
    assert_eq!(stands(&none.jobs[0]), [0, 0, 12, 12]);
    let one = round_of(&book, 1);
    assert_eq!((answers(&one), one.jobs.len()), (vec![0], 2));
    let most = round_of(&book, MOST_TURNS);
    assert_eq!(most.answers.len(), 4_096);
    assert_eq!(answers(&most)[..12], STUCK_ANSWERS);
    assert_eq!(answers(&most)[12..], [1; 4_084]);
    for turns in [4_097, 5_000, u32::MAX] {
        let refused = round(&book, turns, at_bound(&book));
        assert_eq!(refused, Err(refusal(15, 0)), "{turns} turns");
    }
}

/// At 4, as by default, every lower to 9 is blocked: nothing but the two starts is done.
#[test]
fn it_is_launched_as_a_run_is() {
    let book = stuck_book();
    let low = round(&book, 12, Settings::default()).unwrap();
    assert_eq!(answers(&low), [0, 1, 0, 1, 1, 1, 1, 1, 1, 1, 1, 1]);
    let jobs: Vec<_> = low.jobs.iter().map(stands).collect();
    assert_eq!(jobs, [[0, 2, 4, 4], [1, 0, 4, 4], [2, 0, 4, 4]]);
    let at = |label| round(&book, 12, Settings::default().launch(Label(label)));
    assert_eq!(at(4), Ok(low));
    assert_eq!(at(12), Ok(round_of(&book, 12)));
    for label in [13, 16, 255] {
        assert_eq!(at(label), Err(refusal(14, 0)));
    }
}

#[test]
fn a_book_that_is_not_accepted_has_a_round() {
    let a6 = [&BOOK_A[..25], &[0x47, 0x00, 0x08]].concat();
    assert_eq!(answers(&round_of(&a6, 9)), [0; 3]);
    assert_eq!(round(&BOOK_A[..27], 9, at_bound(&[])), Err(refusal(2, 25)));
}

/// What the memory holds before.
const BEFORE: u8 = 0xA5;

fn lend(lengths: [usize; 3]) -> [Vec<u8>; 3] {
    lengths.map(|length| vec![BEFORE; length])
}

#[test]
fn lent_memory() {
    let book = stuck_book();
    let [mut cells, mut jobs, mut bytes] = lend([CELLS_SIZE, JOBS_SIZE, 14]);
    let settings = at_bound(&book);
    let rounded = round_into(&book, 12, settings, &mut cells, &mut jobs, &mut bytes).unwrap();
    assert_eq!(rounded.turns, 12);
    assert_eq!(bytes[..12], STUCK_ANSWERS);
    assert_eq!(bytes[12..], [BEFORE; 2]);
    let owned = round_of(&book, 12);
    assert_eq!(rounded.tables.jobs.iter().collect::<Vec<_>>(), owned.jobs);
    assert!(rounded.tables.cells.is_empty());
    assert_eq!(cells, [0; CELLS_SIZE]);
    assert!(jobs[3 * 52..].iter().all(|&byte| byte == 0));
}

/// "bytes beyond the turns used": those between them and the turns asked for are kept too.
#[test]
fn answers_beyond_an_early_end_are_kept() {
    let book = finishing_book();
    let [mut cells, mut jobs, mut bytes] = lend([CELLS_SIZE, JOBS_SIZE, 9]);
    let settings = at_bound(&book);
    let rounded = round_into(&book, 9, settings, &mut cells, &mut jobs, &mut bytes).unwrap();
    assert_eq!(rounded.turns, 5);
    let expected = [[0; 5].as_slice(), &[BEFORE; 4]].concat();
    assert_eq!(bytes, expected);
}

/// A refused round at a label, once it is seen that nothing was written.
fn refused(book: &[u8], turns: u32, label: u8, lengths: [usize; 3]) -> (u32, usize) {
    let [mut cells, mut jobs, mut bytes] = lend(lengths);
    let settings = Settings::default().launch(Label(label));
    let outcome = round_into(book, turns, settings, &mut cells, &mut jobs, &mut bytes);
    let Refusal { number, place } = outcome.expect_err("the round is refused");
    assert_eq!([cells, jobs, bytes], lend(lengths));
    (number, place)
}

/// 10, 11, 14, 15, behind those of the book.
#[test]
fn refusals_and_their_order() {
    let book = finishing_book();
    let right = |answers| [CELLS_SIZE, JOBS_SIZE, answers];
    assert_eq!(refused(&book[..3], 4_097, 13, [0, 0, 0]), (2, 2));
    assert_eq!(refused(&book, 4_097, 13, [0, 0, 0]), (10, 0));
    for (cells, jobs) in [
        (CELLS_SIZE - 1, JOBS_SIZE),
        (CELLS_SIZE, JOBS_SIZE - 1),
        (CELLS_SIZE, JOBS_SIZE + 1),
    ] {
        assert_eq!(refused(&book, 4_097, 13, [cells, jobs, 0]), (10, 0));
    }
    // Five turns are used, and the bytes are for all that are asked for.
    assert_eq!(refused(&book, 6, 12, right(5)), (11, 0));
    assert_eq!(refused(&book, 1, 12, right(0)), (11, 0));
    assert_eq!(refused(&book, 4_097, 13, right(4_096)), (11, 0));
    assert_eq!(refused(&book, u32::MAX, 12, right(4_097)), (11, 0));
    assert_eq!(refused(&book, 4_097, 13, right(4_097)), (14, 0));
    assert_eq!(refused(&book, 9, 13, right(9)), (14, 0));
    assert_eq!(refused(&book, 4_097, 12, right(4_097)), (15, 0));
}

/// The jobs of a round by 02's words, each turn from the tables that `run` leaves after those before.
fn chosen(book: &[u8], turns: usize) -> Vec<u8> {
    let blocks = tables(book).unwrap().blocks;
    let mut chosen: Vec<u8> = vec![];
    while chosen.len() < turns {
        let jobs = run(book, &steps_of(&chosen), at_bound(book)).unwrap().jobs;
        let has_step = |&job: &usize| {
            let Job {
                block, position, ..
            } = jobs[job];
            u32::from(position) < blocks[usize::from(block)].steps
        };
        // "from the one after the last stepped, wrapping at the jobs in use; job 0 is looked at first"
        let first = chosen.last().map_or(0, |&last| usize::from(last) + 1);
        let Some(job) = (first..jobs.len()).chain(0..first).find(has_step) else {
            break;
        };
        chosen.push(job as u8);
    }
    chosen
}

/// The longest wait of a job between two of its turns.
fn longest_wait(jobs: &[u8]) -> usize {
    let turns_of = |job| {
        let at = jobs.iter().enumerate().filter(move |(_, &of)| of == job);
        at.map(|(turn, _)| turn).collect::<Vec<_>>()
    };
    let waits = (0..TABLE as u8).flat_map(|job| {
        let turns = turns_of(job);
        let waits = turns.windows(2).map(|two| two[1] - two[0] - 1);
        waits.collect::<Vec<_>>()
    });
    waits.max().unwrap_or(0)
}

/// "A job with a step left waits through at most 63 turns of others before its next." Job 0 starts 63
/// jobs, and one in vain.
#[test]
fn sixty_four_jobs_wait_through_63_turns() {
    let book = book_of(&[&[0x49, 0x01].repeat(64), &LOWER.repeat(64)]);
    let round = round_of(&book, 3_000);
    assert_eq!(round.jobs.len(), TABLE);
    assert_eq!((round.jobs[0].position, answers(&round)[2_999]), (63, 0));
    let jobs = chosen(&book, 3_000);
    assert_eq!(longest_wait(&jobs), 63);
    let run = run(&book, &steps_of(&jobs), at_bound(&book)).unwrap();
    assert_eq!(round, run);
}

/// Jobs that start jobs, that finish early and late, and that are blocked.
#[test]
fn rounds_of_other_books() {
    let all = [&[0x49, 0x01, 0x49, 0x02, 0x49, 0x01][..], &LOWER].concat();
    let more = [&LOWER[..], &[0x49, 0x02], &LOWER, &LOWER].concat();
    for book in [
        book_of(&[&all, &more, &STUCK]),
        book_of(&[&all, &[], &more]),
        book_of(&[&[0x49, 0x00].repeat(3)]),
        book_of(&[&[0x4B, 0x00, 0x01, 0x02].repeat(2), &LOWER, &more]),
    ] {
        let jobs = chosen(&book, 300);
        assert!(longest_wait(&jobs) <= 63);
        let run = run(&book, &steps_of(&jobs), at_bound(&book)).unwrap();
        assert_eq!(round_of(&book, 300), run);
    }
}
