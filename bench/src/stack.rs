//! How many bytes of stack a call uses. It is made on a thread whose stack is filled with a pattern,
//! and what no longer holds the pattern afterwards was used. The frames between the thread and the
//! library are counted too, some 300 bytes.

mod thread;

use crate::rounds;
use crate::runs::{mixed, steps, LONGEST_ROUNDS, MOST_STEPS};
use crate::writes::{call, tables};
use crate::BOOK_A;
use reference::cases::runs::Run;
use reference::{full_book, mixed_book};
use std::hint::black_box;
use thread::stack_used;

pub fn measure() {
    println!("call   input         events   stack bytes");
    measure_check("A1", BOOK_A);
    measure_check("mixed_book", &mixed_book());
    measure_check("full_book", &full_book());
    measure_run("A1", &steps(BOOK_A, 4));
    measure_run("A1", &steps(BOOK_A, MOST_STEPS));
    measure_run("mixed", &mixed(LONGEST_ROUNDS));
    measure_run("full_book", &steps(&full_book(), MOST_STEPS));
    measure_round("64 jobs");
    measure_write("A1", BOOK_A);
    measure_write("full_book", &full_book());
}

fn measure_check(name: &str, book: &[u8]) {
    let used = stack_used(&mut || {
        black_box(verified::check(black_box(book)));
    });
    println!("check  {name:<12}{:>8}{used:>14}", "");
}

fn measure_run(name: &str, run: &Run) {
    let mut lent = run.lengths.map(|length| vec![0; length]);
    let used = stack_used(&mut || {
        let (book, launch, events) = black_box((&run.book, run.launch, &run.events));
        let outcome = verified::run(book, launch, events, &mut lent);
        black_box(&outcome).as_ref().expect("it runs");
    });
    println!("run    {name:<12}{:>8}{used:>14}", lent[2].len());
}

fn measure_round(name: &str) {
    let (_, round) = rounds::ROWS
        .iter()
        .find(|row| row.0 == name)
        .expect("a row");
    let round = round();
    let used = stack_used(&mut rounds::call(verified::round_exported, &round));
    println!("round  {name:<12}{:>8}{used:>14}", round.turns);
}

fn measure_write(name: &str, book: &[u8]) {
    let tables = tables(book);
    let used = stack_used(&mut call(verified::write, &tables, book.len()));
    println!("write  {name:<12}{:>8}{used:>14}", "");
}
