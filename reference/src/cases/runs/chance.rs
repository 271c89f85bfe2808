//! Events by chance, drawn while the machine runs, so that most of them find what they name.

use super::events::{exec, new, relabel, start, step, write, Brought};
use super::lively::{self, Most};
use super::{at_bound, Run};
use crate::cases::check_books::walk;
use crate::cases::generate::dice::Dice;
use crate::cases::generate::valid::{self, size};
use crate::cases::generate::Bytes;
use crate::model::book::{self, Shape};
use crate::model::machine::{check_launch, event, Machine};

const SMALL: Most = Most::new(4, 4, 10);
const LARGE: Most = Most::new(12, 12, 40);

pub fn runs() -> Vec<Run> {
    let mut dice = Dice::new(0x5EED_0020);
    let mut runs = Vec::new();
    for number in 0..1_600 {
        let count = dice.below(50);
        runs.push(run(&mut dice, number, SMALL, count).with_spare(number % 3));
    }
    for number in 0..60 {
        let count = 200 + dice.below(300);
        runs.push(run(&mut dice, number, LARGE, count));
    }
    runs
}

/// A run of a book by chance on so many events.
fn run(dice: &mut Dice, number: usize, most: Most, count: usize) -> Run {
    let book = any_book(dice, number, most);
    let events = events(dice, &book, at_bound(&book), count);
    Run::new(book, events)
}

/// Mostly a lively book, else one that is accepted, or any readable one.
pub fn any_book(dice: &mut Dice, number: usize, most: Most) -> Bytes {
    let mut size = size(8, most.cells, most.blocks, most.steps);
    size.chooses = most.chooses;
    match number % 8 {
        0 | 1 => walk::draft(dice, size).concat(),
        2 => valid::draft(dice, size).concat(),
        _ => lively::book(dice, most),
    }
}

/// So many events for a readable book with this launch label; with one above the bound, those of a
/// run at the bound.
pub fn events(dice: &mut Dice, book: &[u8], launch: Option<u32>, count: usize) -> Bytes {
    let Ok(book) = book::read(book) else {
        unreachable!("the book is readable");
    };
    let label = check_launch(&book, launch).unwrap_or_else(|_| book.bound());
    let mut machine = Machine::new(&book, label);
    let mut list = Vec::new();
    for _ in 0..count {
        let next = draw(dice, &machine);
        if let Some((event, _)) = event::decode(&next) {
            machine.take(event);
        }
        list.extend(next);
    }
    list
}

fn draw(dice: &mut Dice, machine: &Machine) -> Bytes {
    let q = label(dice, machine.book.c);
    match dice.below(20) {
        0 | 1 => write(q, a_cell(dice, machine), value(dice, machine)),
        2 => relabel(q, a_cell(dice, machine), label(dice, q.min(15))),
        3 => new(q, a_shape(dice, machine), value(dice, machine)),
        4 => exec(q, a_cell(dice, machine)),
        5 => start(q, number(dice, machine.book.blocks.len())),
        _ => step(a_job(dice, machine)),
    }
}

/// Up to the top, seldom above it.
fn label(dice: &mut Dice, top: u8) -> u8 {
    match dice.below(30) {
        0 => dice.pick(&[15, 16, 17, 255]),
        1 => top + 1,
        _ => dice.byte_below(usize::from(top) + 1),
    }
}

/// A number below the count, seldom another.
fn number(dice: &mut Dice, count: usize) -> u8 {
    match dice.below(30) {
        0 => count as u8,
        1 => dice.byte(),
        _ => dice.byte_below(count.max(1)),
    }
}

fn a_cell(dice: &mut Dice, machine: &Machine) -> u8 {
    number(dice, machine.cells.len())
}

/// Mostly a shape that outsiders may use, if the first tries find one.
fn a_shape(dice: &mut Dice, machine: &Machine) -> u8 {
    for _ in 0..4 {
        let shape = number(dice, machine.book.shapes.len());
        match machine.book.shapes.get(usize::from(shape)) {
            Some(Shape::Cell { trust, .. }) if *trust <= machine.book.c => return shape,
            _ => {}
        }
    }
    number(dice, machine.book.shapes.len())
}

/// Mostly a job with steps left, if the first tries find one.
fn a_job(dice: &mut Dice, machine: &Machine) -> u8 {
    let mut job = number(dice, machine.jobs.len());
    for _ in 0..3 {
        match machine.jobs.get(usize::from(job)) {
            Some(one) if one.position == machine.book.blocks[one.block].steps.len() => {
                job = number(dice, machine.jobs.len());
            }
            _ => return job,
        }
    }
    job
}

fn value(dice: &mut Dice, machine: &Machine) -> Brought {
    match dice.below(30) {
        0 => (dice.byte(), dice.number()),
        1..=9 => (0, dice.operand()),
        10..=18 => (1, number(dice, machine.cells.len()).into()),
        _ => (2, number(dice, machine.book.blocks.len()).into()),
    }
}
