//! Launch labels of job 0, refusal 14, and runs without one: "it is the smaller of C plus 1 and the
//! bound".

use super::chance::{any_book, events};
use super::events::{start as start_by, steps};
use super::lively::Most;
use super::{labels, refused, samples, Run};
use crate::cases::check_books::scene::{levels, Scene, Value, COMPROMISED};
use crate::cases::generate::dice::Dice;
use crate::cases::generate::records::{
    add, code, exec, lower, name, new, put, read, relabel, start, write, Draft,
};
use crate::cases::generate::{samples as books, Bytes};

/// Numbers that are no label. The low byte of some is one.
const ODD: [u32; 6] = [255, 256, 300, 65_536, 0x0100_0005, u32::MAX - 1];

pub fn runs() -> Vec<Run> {
    let parts = [
        every_label(),
        probes(),
        sample_books(),
        other_bounds(),
        compared_labels(),
        order(),
        chance(),
    ];
    parts.concat()
}

/// None, every label, the number above all of them, and the odd ones.
pub fn launches() -> Vec<Option<u32>> {
    let given = (0..=16).chain(ODD).map(Some);
    std::iter::once(None).chain(given).collect()
}

/// None, and every label up to a bound.
fn up_to(bound: u8) -> Vec<Option<u32>> {
    let given = (0..=bound.into()).map(Some);
    std::iter::once(None).chain(given).collect()
}

/// A run with each launch.
fn with_each(run: &Run, launches: &[Option<u32>]) -> Vec<Run> {
    let with = |&launch| run.with_launch(launch);
    launches.iter().map(with).collect()
}

/// Cells of low trust: plain ones of label 0, just above C, and the top; and two that hold block 1.
const LOW: u8 = 0;
const ABOVE_C: u8 = 1;
const TOP: u8 = 2;
const LOW_CODE: u8 = 3;
const TOP_CODE: u8 = 4;

const PLAIN_SHAPE: u8 = 1;

/// These cells, and block 0; block 1, of bound 15, writes the low cell and the one just above C.
fn book(c: u8, bound: u8, block: &[Bytes]) -> Bytes {
    let mut scene = Scene::new(c);
    scene.plain_cell(0);
    let content = scene.code(15);
    let code_shape = scene.cell_of(content, 0);
    for label in [0, c + 1, 15] {
        scene.declare(PLAIN_SHAPE, label, Value::Plain);
    }
    for label in [0, 15] {
        scene.declare(code_shape, label, Value::Code(1));
    }
    let other = [name(0, LOW), write(0, 1), name(2, ABOVE_C), write(2, 3)];
    scene.with_block(bound, block).with_block(15, &other).book()
}

/// Job 0 goes these steps and is asked for one more; the jobs that it starts go theirs.
fn going(c: u8, bound: u8, block: &[Bytes]) -> Run {
    let go = [steps(0, block.len() + 1), steps(1, 5), steps(2, 5)];
    Run::new(book(c, bound, block), go.concat())
}

/// Steps that are done at every label: what they leave has the label of job 0, or its history.
fn done_at_every_label() -> Draft {
    vec![
        put(0, 7),
        name(1, LOW),
        write(1, 0),
        add(2, 3, 4),
        new(5, PLAIN_SHAPE, 6),
        start(1),
        name(7, TOP_CODE),
        exec(7),
    ]
}

/// Every launch with each C, and bounds about it.
pub fn every_label() -> Vec<Run> {
    let mut runs = Vec::new();
    for c in COMPROMISED {
        for bound in levels(c) {
            let run = going(c, bound, &done_at_every_label());
            runs.extend(with_each(&run, &launches()));
        }
    }
    runs
}

/// Each kind of step alone, with every label up to the bound.
fn probes() -> Vec<Run> {
    let mut runs = Vec::new();
    for (c, bound) in [(0, 15), (3, 12), (14, 15)] {
        for block in blocks(c, bound) {
            runs.extend(with_each(&going(c, bound, &block), &up_to(bound)));
        }
    }
    runs
}

fn blocks(c: u8, bound: u8) -> Vec<Draft> {
    let mut blocks = vec![
        vec![put(0, 7), name(1, LOW), write(1, 0)],
        vec![name(0, LOW), write(0, 1)],
        vec![name(0, ABOVE_C), write(0, 1)],
        vec![name(0, TOP), write(0, 1)],
        vec![name(0, TOP), read(1, 0), add(2, 1, 3)],
        vec![add(0, 1, 2), code(3, 1)],
        vec![new(0, PLAIN_SHAPE, 1), write(0, 0)],
        vec![start(1)],
        vec![name(0, TOP_CODE), exec(0)],
        vec![name(0, LOW_CODE), exec(0)],
        vec![name(0, ABOVE_C), relabel(0, 0)],
    ];
    for label in [0, c, c + 1, bound] {
        blocks.push(vec![lower(label), start(1)]);
        blocks.push(vec![name(0, LOW), relabel(0, label)]);
    }
    blocks
}

/// "Existing tools and 01's sample runs relied on the bound": the books with other launches.
fn sample_books() -> Vec<Run> {
    let mut runs = Vec::new();
    for book in books::books() {
        let run = Run::new(book, steps(0, 5));
        runs.extend(with_each(&run, &launches()));
    }
    let lists = samples::lists().into_iter();
    runs.extend(lists.map(|list| Run::new(books::books().swap_remove(0), list).with_launch(None)));
    runs
}

/// Block 0's bound counts, and none of the others.
pub fn other_bounds() -> Vec<Run> {
    let mut runs = Vec::new();
    for (bound, others) in [(5, [15, 15]), (5, [0, 0]), (15, [5, 5]), (0, [15, 4])] {
        let scene = Scene::new(3).with_block(bound, &[start(1), start(2)]);
        let book = scene.with_block(others[0], &[]).with_block(others[1], &[]);
        let run = Run::new(book.book(), steps(0, 3));
        runs.extend(with_each(&run, &launches()));
    }
    runs
}

/// Where two labels are compared, one of them from the launch.
fn compared_labels() -> Vec<Run> {
    let runs = labels::sixteen_jobs_each(15);
    let launched = runs.iter().map(|run| with_each(run, &up_to(15)));
    launched.collect::<Vec<_>>().concat()
}

/// 14 beside another refusal, which comes first.
fn order() -> Vec<Run> {
    let mut runs = Vec::new();
    for launch in [13, 255, 0x0100_0005] {
        let two = refused::two_faults();
        runs.extend(two.iter().map(|run| run.with_launch(Some(launch))));
    }
    let mut unreadable = refused::books();
    unreadable.extend(refused::overlong_book());
    for (turn, run) in unreadable.iter().enumerate() {
        let launch = [16, 300, u32::MAX - 1, 0][turn % 4];
        runs.push(run.with_launch(Some(launch)));
    }
    runs
}

const SMALL: Most = Most::new(5, 4, 12);

/// Books by chance with every label up to the bound, one above it, and none: on the same events,
/// and on events of its own.
fn chance() -> Vec<Run> {
    let mut dice = Dice::new(0x5EED_0060);
    let mut runs = Vec::new();
    for number in 0..40 {
        let book = any_book(&mut dice, number, SMALL);
        let list = [start_by(0, 0), events(&mut dice, &book, None, 30)].concat();
        let run = Run::new(book.clone(), list);
        let bound = run.launch.unwrap_or_default();
        runs.push(run.with_launch(Some(bound + 1)));
        for launch in up_to(bound as u8) {
            let own = Run::new(book.clone(), events(&mut dice, &book, launch, 30));
            runs.push(run.with_launch(launch));
            runs.push(own.with_launch(launch));
        }
    }
    runs
}
