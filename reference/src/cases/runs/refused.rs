//! Runs refused 1 to 6, 9, 10 and 11, each at its boundary, and which refusal comes first. For 14
//! see `launch`.

use super::events::{exec, new, plain, relabel, start, step, write};
use super::Run;
use crate::cases::generate::{self, samples, Bytes};
use crate::model::book::{self, Refusal};
use crate::model::machine::{CELLS_SIZE, JOBS_SIZE};

pub fn runs() -> Vec<Run> {
    let parts = [
        books(),
        kinds(),
        cuts(),
        tables(),
        answers(),
        two_faults(),
        overlong_book(),
    ];
    parts.concat()
}

fn a() -> Bytes {
    samples::books().swap_remove(0)
}

/// An event of each kind, whole.
fn every_event() -> [Bytes; 6] {
    [
        step(0),
        write(0, 0, plain(7)),
        relabel(0, 0, 0),
        new(0, 1, plain(7)),
        exec(0, 0),
        start(0, 0),
    ]
}

/// How many books of each refusal, and how long they may be.
const EACH: usize = 24;
const SMALL: usize = 150;

const CHOOSE: u8 = 75;

/// The books for reading with refusals 2 to 6, with a sound list and sound buffers or not. Those
/// with a choose at fault are none of them.
pub fn books() -> Vec<Run> {
    let all = generate::books();
    let mut runs = Vec::new();
    for number in 2..=6 {
        let fits = |book: &&Bytes| book.len() <= SMALL && refused(book, number);
        for (turn, book) in all.iter().filter(fits).take(EACH).enumerate() {
            let sound = Run::new(book.clone(), step(0).repeat(turn % 4));
            runs.push(match turn % 4 {
                0 => Run::new(book.clone(), vec![86]),
                1 => sound.with([0, 0, 0]),
                _ => sound,
            });
        }
    }
    runs
}

fn refused(book: &[u8], asked: u8) -> bool {
    let chooses = |place: usize| book.get(place) == Some(&CHOOSE);
    matches!(book::read(book), Err(Refusal { number, place }) if number == asked && !chooses(place))
}

/// A book one byte too long, and one just not.
pub fn overlong_book() -> Vec<Run> {
    let filled = |length: usize| [&a()[..], &[0x48, 3].repeat(length)].concat();
    let most = filled((32_768 - a().len()) / 2);
    let beyond = [&most[..], &[0x48]].concat();
    assert_eq!((most.len(), beyond.len()), (32_768, 32_769));
    vec![Run::new(most, step(0)), Run::new(beyond, step(0))]
}

/// Every kind byte, first and behind other events.
fn kinds() -> Vec<Run> {
    let mut runs = Vec::new();
    for kind in 0..=255 {
        let body = [kind, 0, 0, 0, 0, 0, 0, 0];
        runs.push(Run::new(a(), body.to_vec()));
        if !(76..90).contains(&kind) && kind % 16 > 0 {
            continue;
        }
        for first in every_event() {
            runs.push(Run::new(a(), [&first[..], &body].concat()));
        }
    }
    runs
}

/// Every event cut at every byte, alone and behind another; every start of a list of all kinds.
fn cuts() -> Vec<Run> {
    let mut lists = Vec::new();
    for event in every_event() {
        for length in 1..=event.len() {
            lists.push(event[..length].to_vec());
            lists.push([&start(3, 0)[..], &event[..length]].concat());
            // A later fault, and one more cut event.
            lists.push([&event[..length], &[0x56], &event[..length]].concat());
        }
    }
    let whole = every_event().concat();
    lists.extend((0..=whole.len()).map(|length| whole[..length].to_vec()));
    lists.into_iter().map(|list| Run::new(a(), list)).collect()
}

const CELL_LENGTHS: [usize; 9] = [0, 1, 9, 567, 575, 576, 577, 585, 1_024];
const JOB_LENGTHS: [usize; 9] = [0, 1, 52, 3_276, 3_327, 3_328, 3_329, 3_380, 4_096];

fn tables() -> Vec<Run> {
    let run = Run::new(a(), step(0).repeat(2));
    let mut runs = Vec::new();
    for cells in CELL_LENGTHS {
        runs.extend(JOB_LENGTHS.map(|jobs| run.with([cells, jobs, 2])));
    }
    // The lengths of both tables changed for one another.
    runs.push(run.with([JOBS_SIZE.min(1_024), CELLS_SIZE, 2]));
    runs
}

/// Answer buffers around the number of events, for lists with events of other lengths.
fn answers() -> Vec<Run> {
    let mut runs = Vec::new();
    for count in 0..=6 {
        let list = every_event()[..count].concat();
        let run = Run::new(a(), list);
        for length in [0, 1, 2, 3, 4, 5, 6, 7, 30, 255, 256, 257] {
            runs.push(run.with([CELLS_SIZE, JOBS_SIZE, length]));
        }
    }
    let many = Run::new(a(), step(0).repeat(300));
    let around = [0, 44, 255, 256, 299, 300, 301, 600, 32_800];
    runs.extend(around.map(|length| many.with([CELLS_SIZE, JOBS_SIZE, length])));
    runs
}

/// Faults of two or three stages at once.
pub fn two_faults() -> Vec<Run> {
    let unreadable = vec![1, 3];
    let mut runs = Vec::new();
    for book in [a(), unreadable] {
        for list in [step(0).repeat(3), vec![80], vec![80, 0, 79]] {
            let run = Run::new(book.clone(), list);
            for cells in [575, 576] {
                for jobs in [3_327, 3_328] {
                    runs.extend([0, 2, 3].map(|answers| run.with([cells, jobs, answers])));
                }
            }
        }
    }
    runs
}
