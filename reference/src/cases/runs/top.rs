//! Sums about the top: "add is blocked when the exact sum is 4,294,967,296 or more."

use super::events::{self, plain, steps};
use super::Run;
use crate::cases::check_books::scene::{Scene, Value};
use crate::cases::generate::records::{add, code, name, put, read, start, write, Draft};
use crate::cases::generate::Bytes;

/// The sum of two of these is far below the top, just below it, at it, or above.
const OPERANDS: [u32; 6] = [0, 1, (1 << 31) - 1, 1 << 31, u32::MAX - 1, u32::MAX];

pub fn runs() -> Vec<Run> {
    let parts = [
        pairs(),
        twice(),
        for_ever(),
        two_causes(),
        doublings(),
        ladders(),
    ];
    parts.concat()
}

/// Cells 0 and 1, of low trust and label 0, hold these. Block 1 puts 7 into cell 0.
fn book(values: [Value; 2], block: &[Bytes]) -> Bytes {
    let mut scene = Scene::new(3);
    let shape = scene.plain_cell(2);
    for value in values {
        scene.declare(shape, 0, value);
    }
    let other = [name(0, 0), put(1, 7), write(0, 1), add(2, 1, 1)];
    scene.with_block(12, block).with_block(12, &other).book()
}

/// Where an operand comes from: a put, or a cell, as it is declared or as an outsider wrote it.
#[derive(Clone, Copy)]
enum Origin {
    Put,
    Declared,
    Written,
}

const ORIGINS: [Origin; 3] = [Origin::Put, Origin::Declared, Origin::Written];

/// The register that gets the operand, which is also the number of its cell, the origin, and the
/// operand itself.
#[derive(Clone, Copy)]
struct Operand(u8, Origin, u32);

impl Operand {
    fn declared(self) -> Value {
        match self {
            Operand(_, Origin::Declared, number) => Value::Number(number),
            _ => Value::Plain,
        }
    }

    fn written(self) -> Bytes {
        match self {
            Operand(at, Origin::Written, number) => events::write(1, at, plain(number)),
            _ => vec![],
        }
    }

    fn get(self) -> Draft {
        match self {
            Operand(at, Origin::Put, number) => vec![put(at, number)],
            Operand(at, ..) => vec![name(at, at), read(at, at)],
        }
    }
}

/// Job 0 gets the operands, goes these steps, and is asked for two more.
fn with_operands(operands: [Operand; 2], rest: &[Bytes]) -> Run {
    let get = operands.map(Operand::get).concat();
    let written = operands.map(Operand::written).concat();
    let go = steps(0, get.len() + rest.len() + 2);
    let book = book(operands.map(Operand::declared), &[&get[..], rest].concat());
    Run::new(book, [written, go].concat())
}

/// Every pair in both orders, from everywhere, into a register of its own or that of an operand.
pub fn pairs() -> Vec<Run> {
    let mut runs = Vec::new();
    for (first, second) in both_orders(&ORIGINS) {
        for (one, two) in both_orders(&OPERANDS) {
            let operands = [Operand(0, first, one), Operand(1, second, two)];
            for r in [0, 1, 2] {
                runs.push(with_operands(operands, &[add(r, 0, 1), put(3, 9)]));
            }
        }
    }
    runs
}

fn both_orders<T: Copy>(all: &[T]) -> Vec<(T, T)> {
    let with = |one: T| all.iter().map(move |&two| (one, two));
    all.iter().copied().flat_map(with).collect()
}

/// Both operands from one register. Where the sum fits, 1 is added to it.
fn twice() -> Vec<Run> {
    let mut runs = Vec::new();
    for origin in ORIGINS {
        for number in OPERANDS {
            let operands = [Operand(0, origin, number), Operand(1, origin, 1)];
            for r in [0, 2] {
                runs.push(with_operands(operands, &[add(r, 0, 0), add(3, r, 1)]));
            }
        }
    }
    runs
}

/// Job 0 reads 4,294,967,295 and adds a number. Unless that is 0 it is blocked for ever, whatever
/// is written to the cell then: by an outsider, by job 1, or by both. Job 1 goes on, and a job that
/// begins later adds what it finds in the cell.
pub fn for_ever() -> Vec<Run> {
    let (by_outsider, by_job) = (events::write(2, 0, plain(7)), steps(1, 5));
    let by_both = [&by_job[..], &by_outsider].concat();
    let mut runs = Vec::new();
    for number in OPERANDS {
        let get = [start(1), name(0, 0), read(0, 0), put(1, number)];
        let block = [&get[..], &[add(2, 0, 1)]].concat();
        let book = book([Value::Number(u32::MAX), Value::Plain], &block);
        for tries in 1..4 {
            for change in [&by_outsider, &by_job, &by_both] {
                let events = [&steps(0, 4 + tries)[..], change, &later()].concat();
                runs.push(Run::new(book.clone(), events));
            }
        }
    }
    runs
}

/// Jobs 2 and 4 begin with block 0, and each starts one more; between them the cell changes again.
fn later() -> Bytes {
    let second = [events::start(3, 0), steps(2, 6)].concat();
    let fourth = [events::start(1, 0), steps(4, 6)].concat();
    let change = events::write(0, 0, plain(1 << 31));
    let parts = [
        steps(0, 2),
        steps(1, 5),
        second,
        change,
        fourth,
        steps(0, 1),
    ];
    parts.concat()
}

/// Job 0 alone goes these steps, and is asked for three more.
fn alone(block: Draft) -> Run {
    let go = steps(0, block.len() + 3);
    Run::new(book([Value::Plain; 2], &block), go)
}

/// An operand that is not plain beside a large one: cell 1 and block 1 are no 1 that is added.
pub fn two_causes() -> Vec<Run> {
    let mut runs = Vec::new();
    for other in [name(0, 1), code(0, 1)] {
        for number in [u32::MAX - 1, u32::MAX] {
            for (a, b) in [(0, 1), (1, 0), (0, 0)] {
                for r in [0, 1, 2] {
                    let get = [other.clone(), put(1, number)];
                    runs.push(alone([&get[..], &[add(r, a, b), put(3, 9)]].concat()));
                }
            }
        }
    }
    runs
}

/// Numbers to be doubled, and how often the sum fits; 0 always does.
pub const DOUBLED: [(u32, usize); 9] = [
    (0, 40),
    (1, 31),
    (2, 30),
    (3, 30),
    (5, 29),
    (65_537, 15),
    ((1 << 31) - 1, 1),
    (1 << 31, 0),
    (u32::MAX, 0),
];

/// Each number doubled 40 times, in its register; then from one register to the next.
pub fn doublings() -> Vec<Run> {
    let apart = |turn: u8| add((turn + 1) % 8, turn % 8, turn % 8);
    let mut runs = Vec::new();
    for doublings in [vec![add(0, 0, 0); 40], (0..40).map(apart).collect()] {
        for (number, _) in DOUBLED {
            runs.push(alone([&[put(0, number)], &doublings[..]].concat()));
        }
    }
    runs
}

/// Rungs that are each the sum of the two before, and rungs that lie one spread apart.
fn ladders() -> Vec<Run> {
    let sums: Draft = (0..60).map(|turn| add(turn % 2, 0, 1)).collect();
    let spreads = vec![add(0, 0, 1); 60];
    let mut runs = Vec::new();
    for (one, two) in [
        (1, 1),
        (0, 1),
        (1 << 27, 1 << 27),
        (99_999_999, 100_000_001),
    ] {
        let begin = [put(0, one), put(1, two)];
        runs.push(alone([&begin[..], &sums].concat()));
        runs.push(alone([&begin[..], &spreads].concat()));
    }
    runs
}
