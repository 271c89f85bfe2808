//! 02, Four: "it starts the first block if r is plain and not 0, the second if r is plain 0, and is
//! blocked otherwise or when no job fits." What is started has the chooser's label and history alone.

mod hands;
pub mod needed;

use super::chance::{any_book, events as drawn};
use super::events::{self, plain, steps, Brought};
use super::lively::Most;
use super::{at_bound, Run};
use crate::cases::check_books::scene::{Scene, Value};
use crate::cases::generate::dice::Dice;
use crate::cases::generate::records::{choose, code, exec, lower, name, put, read, start, Draft};
use crate::cases::generate::{choose as books, Bytes};
use crate::model::book;

pub use hands::{histories, labels, launches};

pub fn runs() -> Vec<Run> {
    let parts = [
        numbers(),
        registers(),
        blocks(),
        not_plain(),
        never_again(),
        full(),
        by_steps(),
        places(),
        histories(),
        labels(),
        launches(),
        needed::breaking(),
        needed::holding(),
        refused(),
        chance(),
    ];
    parts.concat()
}

/// Numbers of which the lowest byte, or the lower half, is 0 or is not.
pub const NUMBERS: [u32; 11] = [
    0,
    1,
    2,
    255,
    256,
    65_535,
    65_536,
    1 << 24,
    1 << 31,
    u32::MAX - 255,
    u32::MAX,
];

/// Cells of low trust and label 0: one of this value, and one that holds block 1.
fn scene(value: Value) -> Scene {
    let mut scene = Scene::new(3);
    let shape = scene.plain_cell(2);
    scene.declare(shape, 0, value);
    scene.declare(shape, 0, Value::Code(1));
    scene
}

/// Block 0 of these steps; blocks 1 and 2, of other bounds, put a number each into a register.
fn book(value: Value, block: &[Bytes]) -> Bytes {
    let scene = scene(value).with_block(12, block);
    let scene = scene.with_block(15, &[put(1, 11), put(2, 12)]);
    scene.with_block(5, &[put(3, 13)]).book()
}

/// Job 0 goes these steps and is asked for one more; two jobs that it starts go theirs.
fn going(before: Bytes, value: Value, block: &[Bytes]) -> Run {
    let go = [steps(0, block.len() + 1), steps(1, 3), steps(2, 3)].concat();
    Run::new(book(value, block), [before, go].concat())
}

/// Each number from a put, a declared cell, an outsider, and a cell that two outsiders wrote.
pub fn numbers() -> Vec<Run> {
    let mut runs = Vec::new();
    let read_it = [name(4, 0), read(4, 4), choose(4, 1, 2)];
    for number in NUMBERS {
        let written = |q: u8, number: u32| events::write(q, 0, plain(number));
        let other = u32::from(number == 0);
        let twice = [written(1, other), written(3, number)].concat();
        runs.extend([
            going(vec![], Value::Plain, &[put(4, number), choose(4, 1, 2)]),
            going(vec![], Value::Number(number), &read_it),
            going(written(0, number), Value::Number(other), &read_it),
            going(twice, Value::Plain, &read_it),
        ]);
    }
    runs
}

/// One register is not 0, and one is chosen by.
pub fn registers() -> Vec<Run> {
    let mut runs = Vec::new();
    for set in 0..8 {
        for r in 0..8 {
            let block = [put(set, 9), choose(r, 1, 2)];
            runs.push(going(vec![], Value::Plain, &block));
        }
    }
    runs
}

/// Every pair of blocks, also the same twice and the chooser's own, by 0 and by another number; then
/// once more by the other.
fn blocks() -> Vec<Run> {
    let mut runs = Vec::new();
    for first in 0..3 {
        for second in 0..3 {
            for (one, two) in [(0, 1), (1, 0), (0, 0), (1, 1)] {
                let choice = choose(5, first, second);
                let block = [put(5, one), choice.clone(), put(5, two), choice];
                runs.push(going(vec![], Value::Plain, &block));
            }
        }
    }
    runs
}

/// What an outsider writes that is not plain: the numbers are 0 and others.
const OTHERS: [Brought; 4] = [(1, 0), (1, 1), (2, 0), (2, 2)];

/// Steps, or an outsider's write and steps, that leave a cell or code in register 4.
fn fills() -> Vec<(Bytes, Draft)> {
    let read_it = vec![name(4, 0), read(4, 4)];
    let mut fills = vec![
        (vec![], vec![name(4, 0)]),
        (vec![], vec![name(4, 1)]),
        (vec![], vec![code(4, 0)]),
        (vec![], vec![code(4, 2)]),
        (vec![], vec![put(4, 0), name(4, 0)]),
        (vec![], vec![name(4, 1), read(4, 4)]),
    ];
    fills.extend(OTHERS.map(|value| (events::write(2, 0, value), read_it.clone())));
    fills
}

/// r is a cell or code: it is blocked, as often as it is asked, and what stands behind it is not
/// done. Other registers are plain.
pub fn not_plain() -> Vec<Run> {
    let mut runs = Vec::new();
    for (before, fill) in fills() {
        for plain in [0, 1] {
            for tries in 1..3 {
                let rest = [put(3, plain), choose(4, 1, 2), put(4, plain)];
                let block = [&fill[..], &rest].concat();
                let more = steps(0, tries);
                let run = going(before.clone(), Value::Plain, &block);
                runs.push(Run::new(run.book, [run.events, more].concat()));
            }
        }
    }
    runs
}

/// Job 0 has read a cell or code and stays blocked, whatever is written to the cell then. Others go
/// on: a later job of the same block reads the number and chooses.
pub fn never_again() -> Vec<Run> {
    let block = [name(4, 0), read(4, 4), choose(4, 1, 2), put(6, 1)];
    let mut runs = Vec::new();
    for value in OTHERS {
        for number in [0, 1, 65_536] {
            let first = [events::write(1, 0, value), steps(0, 4)].concat();
            let later = [events::start(3, 0), steps(1, 5), steps(2, 3)].concat();
            let change = events::write(2, 0, plain(number));
            let list = [first, change, steps(0, 2), later, steps(0, 1)].concat();
            runs.push(Run::new(book(Value::Plain, &block), list));
        }
    }
    runs
}

/// Outsiders leave room for so many jobs; then job 0 chooses three times, by 0 or not, and starts and
/// executes. A register that is not plain is no better with a full table.
pub fn full() -> Vec<Run> {
    let mut runs = Vec::new();
    for free in 0..5 {
        let fill: Bytes = (free..63).flat_map(|q| events::start(q % 4, 2)).collect();
        for number in [0, 1, 256] {
            let chooses = [put(4, number), choose(4, 1, 2), choose(4, 2, 1)];
            let tail = [choose(4, 1, 1), start(1), name(5, 1), exec(5)];
            let block = [&chooses[..], &tail].concat();
            let late = [events::start(0, 1), steps(63, 2), steps(64, 1)].concat();
            for more in [vec![], late] {
                let list = [&fill[..], &steps(0, 9), &more].concat();
                runs.push(Run::new(book(Value::Plain, &block), list));
            }
        }
        let block = [name(4, 0), choose(4, 1, 2)];
        let list = [&fill[..], &steps(0, 4)].concat();
        runs.push(Run::new(book(Value::Plain, &block), list));
    }
    runs
}

/// Jobs alone fill the table: each chooses its own block or another, and goes on when it is full.
pub fn by_steps() -> Vec<Run> {
    let own = [choose(0, 1, 0), put(0, 1), choose(0, 0, 1), choose(7, 2, 0)];
    let mut runs = Vec::new();
    for count in 1..6 {
        let go = (0..64).flat_map(|job| steps(job, count)).collect();
        runs.push(Run::new(book(Value::Plain, &own), go));
    }
    let many = vec![choose(0, 1, 2); 64];
    runs.push(Run::new(book(Value::Plain, &many), steps(0, 66)));
    let alone = Scene::new(0).with_block(15, &[choose(1, 0, 0)]);
    let go = (0..65).flat_map(|job| steps(job, 2)).collect();
    runs.push(Run::new(alone.book(), go));
    runs
}

/// In the first, a middle and the 64th place; as the only step, and without a lower or behind one.
fn places() -> Vec<Run> {
    let mut runs = Vec::new();
    for place in [0, 1, 31, 62, 63] {
        for number in [0, 1] {
            let mut block = vec![put(4, number); 64];
            block[place] = choose(4, 1, 2);
            runs.push(going(vec![], Value::Plain, &block));
            block[place / 2] = lower(7);
            runs.push(going(vec![], Value::Plain, &block));
        }
    }
    runs
}

/// How many books of each refusal.
const EACH: usize = 12;

/// Books that are refused for a choose, with lists and buffers that are sound or not.
pub fn refused() -> Vec<Run> {
    let at_choose = |book: &Bytes| {
        book::read(book)
            .err()
            .filter(|r| book.get(r.place) == Some(&75))
    };
    let all = books::books();
    let mut runs = Vec::new();
    for number in 2..=6 {
        let fits = |book: &&Bytes| at_choose(book).is_some_and(|r| r.number == number);
        let found: Vec<&Bytes> = all
            .iter()
            .filter(|book| book.len() < 400)
            .filter(fits)
            .collect();
        let apart = (found.len() / EACH).max(1);
        for (turn, book) in found.into_iter().step_by(apart).take(EACH).enumerate() {
            let sound = Run::new(book.clone(), steps(0, turn % 4));
            runs.push(match turn % 4 {
                0 => Run::new(book.clone(), vec![86]),
                1 => sound.with([0, 0, 0]),
                2 => sound.with_launch(Some(16)),
                _ => sound,
            });
        }
    }
    runs
}

const SMALL: Most = Most::new(4, 4, 10).with_choose();
const LARGE: Most = Most::new(8, 8, 30).with_choose();

/// Books by chance, also accepted ones.
fn chance() -> Vec<Run> {
    let mut dice = Dice::new(0x5EED_0072);
    let mut runs = Vec::new();
    for number in 0..320 {
        let (most, count) = match number % 32 {
            31 => (LARGE, 300),
            _ => (SMALL, dice.below(60)),
        };
        let book = any_book(&mut dice, number, most);
        let launch = dice.pick(&[at_bound(&book), None]);
        let list = drawn(&mut dice, &book, launch, count);
        runs.push(
            Run::new(book, list)
                .with_launch(launch)
                .with_spare(number % 3),
        );
    }
    runs
}
