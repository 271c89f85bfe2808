//! Why both bounds are asked for: a block of a lesser bound than P, run at P, lets an outsider's value
//! into a high cell.

use super::super::events::{self, plain, steps};
use super::super::Run;
use crate::cases::check_books::scene::{Scene, Value};
use crate::cases::generate::records::{choose, name, put, read, write, Draft};
use crate::cases::generate::Bytes;

/// A low cell of label 0, and a cell of trust and label 9.
const LOW: u8 = 0;
const HIGH: u8 = 1;

/// C is 3. Block 0 of bound 12 has these steps, and blocks 1 and 2 have these bounds. One of a bound
/// below 9 stores in the high cell what the low one holds: its steps pass, since P is low or the
/// write is stuck.
fn book(block: &[Bytes], bounds: [u8; 2]) -> Bytes {
    let mut scene = Scene::new(3);
    let low = scene.plain_cell(2);
    let high = scene.plain_cell(9);
    scene.declare(low, 0, Value::Plain);
    scene.declare(high, 9, Value::Plain);
    let mut scene = scene.with_block(12, block);
    for bound in bounds {
        scene.block(bound, &stores(bound));
    }
    scene.book()
}

fn stores(bound: u8) -> Draft {
    match bound {
        0..=8 => vec![name(1, LOW), read(1, 1), name(2, HIGH), write(2, 1)],
        _ => vec![put(1, 1)],
    }
}

/// An outsider at Q writes the low cell. Job 0 puts a number and chooses, and job 1 goes its steps.
fn chosen(number: u32, bounds: [u8; 2], q: u8) -> Run {
    let book = book(&[put(0, number), choose(0, 1, 2)], bounds);
    let touch = events::write(q, LOW, plain(666));
    Run::new(book, [touch, steps(0, 2), steps(1, 4)].concat())
}

/// Bounds that are less than P, at or below C and above it.
const LESS: [u8; 3] = [0, 3, 8];

/// The block of the lesser bound is the one that is chosen.
pub fn breaking() -> Vec<Run> {
    let mut runs = Vec::new();
    for less in LESS {
        for q in [0, 3] {
            runs.push(chosen(1, [less, 12], q));
            runs.push(chosen(0, [12, less], q));
        }
    }
    runs
}

/// It is not, or there is none.
pub fn holding() -> Vec<Run> {
    let mut runs = Vec::new();
    for q in [0, 3] {
        for number in [0, 1] {
            runs.push(chosen(number, [12, 12], q));
        }
        for less in LESS {
            runs.push(chosen(0, [less, 12], q));
            runs.push(chosen(1, [12, less], q));
        }
    }
    runs
}
