//! The reference's own test books, runs, rounds and tables, all of them.

use crate::compare::{self, different_run, hex, Checker, Difference, Tally, Turning, ASKED_BLOCKS};
use reference::cases::runs::Run;
use reference::cases::{check_books, generate, rounds, runs, writes};
use reference::model::book::{self, record};
use reference::model::machine::{event, Chooser, Runner};
use reference::model::writer::{tables_of, Writer};
use std::fmt::Debug;

/// Compares every test book: its verdict, the stretch of each block and of two that never exist,
/// and what stands at each offset.
pub fn books(one: Checker, other: Checker) -> Result<Tally, Difference> {
    let mut tally = Tally::default();
    for book in generate::books().iter().chain(&check_books::books()) {
        for block in 0..ASKED_BLOCKS {
            same(
                book,
                &format!("block {block}"),
                one(book, block),
                other(book, block),
            )?;
        }
        records(book)?;
        tally.count_verdict(&one(book, 0).0);
    }
    Ok(tally)
}

/// Compares every test run: what it answers, and all the lent memory.
pub fn runs(one: Runner, other: Runner) -> Result<Tally, Difference> {
    some_runs(|_| true, one, other)
}

/// Compares every test run whose launch label is a byte, or that has none.
pub fn runs_of_bytes(one: Runner, other: Runner) -> Result<Tally, Difference> {
    let byte = |run: &Run| run.launch.map_or(true, |label| label <= 255);
    some_runs(byte, one, other)
}

fn some_runs(wanted: fn(&Run) -> bool, one: Runner, other: Runner) -> Result<Tally, Difference> {
    let mut tally = Tally::default();
    let all = runs::all();
    let numbered = all.iter().enumerate();
    for (number, run) in numbered.filter(|(_, run)| wanted(run)) {
        let (one, other) = (runs::outcome(one, run), runs::outcome(other, run));
        if one != other {
            return Err(different_run(number, run, &one, &other));
        }
        tally.count_run(&one);
    }
    Ok(tally)
}

/// Compares every test round, and the run on the steps that it chose.
pub fn rounds(one: Turning, other: Chooser) -> Result<Tally, Difference> {
    compare::some_rounds(rounds::all().into_iter(), one, other)
}

/// Compares the event at each offset of the list of every test run.
pub fn lists() -> Result<(), Difference> {
    runs::all().iter().try_for_each(|run| events(&run.events))
}

/// Compares all test tables, and those of every test book.
pub fn tables(one: Writer, other: Writer) -> Result<Tally, Difference> {
    let all = writes::chosen().into_iter().chain(writes::of_books());
    compare::writes(all, one, other)
}

/// Every test book that can be read is taken apart as the reference does, and is the same when it
/// is written again. How many those are.
pub fn written_again() -> Result<usize, Difference> {
    let mut count = 0;
    for book in generate::books().iter().chain(&check_books::books()) {
        let read = book::read(book).map(|_| book.clone());
        count += usize::from(read.is_ok());
        same(book, "tables", verified::tables_of(book), tables_of(book))?;
        same(book, "written again", verified::written_again(book), read)?;
    }
    Ok(count)
}

/// Every offset, and the first two past the end.
fn records(book: &[u8]) -> Result<(), Difference> {
    for place in 0..book.len() + 2 {
        let rest = book.get(place..).unwrap_or_default();
        let expected = record::decode(place, rest);
        same(
            book,
            &format!("offset {place}"),
            verified::record(book, place),
            expected,
        )?;
    }
    Ok(())
}

fn events(list: &[u8]) -> Result<(), Difference> {
    for place in 0..list.len() + 2 {
        let rest = list.get(place..).unwrap_or_default();
        let expected =
            event::decode(rest).map(|(event, behind)| (event, rest.len() - behind.len()));
        same(
            list,
            &format!("offset {place}"),
            verified::event(list, place),
            expected,
        )?;
    }
    Ok(())
}

fn same<T: Debug + PartialEq>(
    bytes: &[u8],
    asked: &str,
    one: T,
    other: T,
) -> Result<(), Difference> {
    if one == other {
        return Ok(());
    }
    let bytes = hex(bytes);
    Err(Difference(format!(
        "bytes {bytes}\n{asked}\none {one:?}\nother {other:?}"
    )))
}
