//! Times the verified check, run, round and writer beside the reference's and the limit's, on the same
//! inputs in the same run. All are release builds. A last table has the stack that the verified calls
//! use, and the last line the largest ratio of a verified call to the reference's.
//!
//! `bench --once check|run|round|write ROW SIDE` makes a few calls for a program that counts instructions,
//! and `bench --rows` prints which rows there are: see bench/instructions.

mod checks;
mod limit;
mod once;
mod rounds;
mod runs;
mod sides;
mod stack;
mod timing;
mod writes;

use std::env;
use std::process::ExitCode;

const BOOK_A: &[u8] = include_bytes!("../../books/a1.book");

fn main() -> ExitCode {
    let words: Vec<String> = env::args().skip(1).collect();
    let words: Vec<&str> = words.iter().map(String::as_str).collect();
    match words[..] {
        [] => print_tables(),
        ["--rows"] => once::list(),
        ["--once", kind, row, side] if once::once(kind, row, side).is_some() => {}
        _ => {
            eprintln!(
                "usage: bench [--rows | --once check|run|round|write ROW verified|reference|limit]"
            );
            return ExitCode::from(2);
        }
    }
    ExitCode::SUCCESS
}

fn print_tables() {
    let checks = checks::time();
    println!();
    let runs = runs::time();
    println!();
    let rounds = rounds::time();
    println!();
    let writes = writes::time();
    println!();
    stack::measure();
    println!();
    let worst = checks.max(runs).max(rounds).max(writes);
    println!("worst ratio {worst:.2}");
}
