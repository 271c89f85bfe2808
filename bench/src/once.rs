//! A few calls of one side on one row, for a program that counts their instructions.

use crate::sides::{CHECKERS, ROUNDERS, RUNNERS, SIDES, WRITERS};
use crate::{checks, rounds, runs, writes};

/// How many calls `measured` makes.
const CALLS: usize = 10;

/// A smaller input is counted by the call.
const MANY: usize = 1_000;

/// Prints the kind and the name of each row, one to a line.
pub fn list() {
    for (name, _) in checks::ROWS {
        println!("check {name}");
    }
    for (name, _) in runs::ROWS {
        println!("run {name}");
    }
    for (name, _) in rounds::ROWS {
        println!("round {name}");
    }
    for (name, _) in writes::ROWS {
        println!("write {name}");
    }
}

/// Makes one call, and then those of `measured`. Prints a unit, and how many of it those calls had.
/// None if there is no such row or side.
pub fn once(kind: &str, row: &str, side: &str) -> Option<()> {
    let side = SIDES.iter().position(|name| *name == side)?;
    match kind {
        "check" => {
            let book = named(&checks::ROWS, row)?();
            warm_up_and_measure(checks::call(CHECKERS[side], &book));
            print_units("byte", book.len());
        }
        "run" => {
            let run = named(&runs::ROWS, row)?();
            warm_up_and_measure(runs::call(RUNNERS[side], &run));
            print_units("event", runs::count(&run));
        }
        "round" => {
            let round = named(&rounds::ROWS, row)?();
            warm_up_and_measure(rounds::call(ROUNDERS[side], &round));
            print_units("turn", round.turns as usize);
        }
        "write" => {
            let book = named(&writes::ROWS, row)?();
            let tables = writes::tables(&book);
            warm_up_and_measure(writes::call(WRITERS[side], &tables, book.len()));
            print_units("byte", book.len());
        }
        _ => return None,
    }
    Some(())
}

fn named<T: Copy>(rows: &[(&str, T)], name: &str) -> Option<T> {
    let found = rows.iter().find(|row| row.0 == name);
    found.map(|row| row.1)
}

fn warm_up_and_measure(mut call: impl FnMut()) {
    call();
    measured(&mut call);
}

/// What is counted. Another program finds it by its name.
#[inline(never)]
fn measured(call: &mut dyn FnMut()) {
    for _ in 0..CALLS {
        call();
    }
}

fn print_units(unit: &str, count: usize) {
    if count < MANY {
        println!("call {CALLS}");
    } else {
        println!("{unit} {}", count * CALLS);
    }
}
