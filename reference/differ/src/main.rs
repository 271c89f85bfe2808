//! `differ [COUNT [SEED]]`: compares the verified library with the reference, through its C
//! interface, on so many runs, rounds, books and tables by chance. Exit status: 0 no difference, 1 a
//! difference, which is printed, 2 no answer.

#[cfg(test)]
mod chosen;
mod compare;
#[cfg(test)]
mod tests;

use compare::{Checked, Difference, Tally, Turning};
use reference::model::{book, machine, writer};
use std::process::ExitCode;
use std::time::Instant;

const COUNT: usize = 1_000_000;
const SEED: u64 = 1;

fn main() -> ExitCode {
    let Some((count, seed)) = arguments() else {
        eprintln!("usage: differ [COUNT [SEED]], SEED not 0");
        return ExitCode::from(2);
    };
    let same_runs = report(&format!("{count} runs"), || {
        compare::runs(seed, count, verified::run_exported, machine::run)
    });
    let same_rounds = same_runs
        && report(&format!("{count} rounds"), || {
            compare::rounds(seed, count, VERIFIED_TURNS, machine::chosen)
        });
    let same_books = same_rounds
        && report(&format!("{count} books"), || {
            compare::books(seed, count, verified_checks, reference_checks)
        });
    let same = same_books
        && report(&format!("{count} tables"), || {
            compare::tables(seed, count, verified::write_exported, writer::write)
        });
    ExitCode::from(u8::from(!same))
}

/// The count and the seed.
fn arguments() -> Option<(usize, u64)> {
    let words: Vec<String> = std::env::args().skip(1).collect();
    let count = words
        .first()
        .map_or(Some(COUNT), |word| word.parse().ok())?;
    let seed = words.get(1).map_or(Some(SEED), |word| word.parse().ok())?;
    (words.len() <= 2 && seed != 0).then_some((count, seed))
}

/// By the exported calls themselves.
const VERIFIED_TURNS: Turning = (verified::round_exported, verified::run_exported);

fn verified_checks(book: &[u8], block: usize) -> Checked {
    (verified::check(book), verified::stretch(book, block))
}

fn reference_checks(book: &[u8], block: usize) -> Checked {
    (reference::check(book), book::stretch(book, block))
}

/// Compares, and prints the outcome. There is no difference.
fn report(name: &str, compare: impl FnOnce() -> Result<Tally, Difference>) -> bool {
    let start = Instant::now();
    let outcome = compare();
    let seconds = start.elapsed().as_secs();
    match outcome {
        Ok(tally) => {
            println!("{name}, verified and reference: no difference, {seconds} s; {tally}");
            true
        }
        Err(Difference(text)) => {
            println!("{name}, verified (one) and reference (other) differ:\n{text}");
            false
        }
    }
}
