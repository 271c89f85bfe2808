//! The command line of the reference implementation.
//!
//! `reference books` writes the file of test books for reading to standard output.
//! `reference check-books` writes the file of test books for checking.
//! `reference verdict` reads such a file on standard input and prints one verdict per book.
//! `reference runs` writes the file of test runs.
//! `reference outcomes` reads such a file on standard input and prints one outcome per run.
//! `reference run [--launch LABEL] BOOK EVENTS ..` prints in words what the events of a file do on
//! the book in another, for each two files, each with an option of its own. The launch label is a
//! number, or `bound` for block 0's bound.
//! `reference rounds` writes the file of test rounds.
//! `reference round-outcomes` reads such a file on standard input and prints one outcome per round.
//! `reference round [--launch LABEL] BOOK TURNS ..` prints in words what a round of so many turns
//! does on the book in a file, for each of these, as `run` does.
//! `reference differ N` compares the two machines of the reference on N runs and N rounds by chance.
//! `reference check FILE ..` prints the verdict on the one book in each file.
//! `reference told FILE ..` prints it with the words of a refusal.
//! `reference list [--bytes] FILE ..` prints those books in words, with the bytes of each record.
//! `reference event-lists` writes the file of test lists of events, laid out as one of test books.
//! `reference events [--bytes] FILE ..` prints the list of events in each file in words.
//! `reference unpack FOLDER [N ..]` reads a file of test books on standard input and writes each,
//! or those of these numbers, to a file of its own: the first is FOLDER/0.
//! `reference unpack-runs FOLDER [N ..]` does so with a file of test runs: FOLDER/0.book,
//! FOLDER/0.events, and FOLDER/0.launch, which has the option for `run`, or nothing.
//! `reference unpack-rounds FOLDER [N ..]` does so with a file of test rounds: FOLDER/0.book,
//! FOLDER/0.turns, and FOLDER/0.launch.

use reference::cases::generate::Bytes;
use reference::cases::rounds::{Before, Round};
use reference::cases::runs::Run;
use reference::cases::{check_books, differ, event_lists, file, generate, rounds, runs};
use reference::check;
use reference::model::machine;
use reference::printing::line::Show;
use reference::printing::{events, listing, run_words};
use std::collections::HashSet;
use std::ffi::OsString;
use std::io::{self, Read, Write};
use std::path::Path;
use std::process::ExitCode;

const USAGE: &str = "usage: reference books | check-books | verdict | runs | outcomes
       | run [--launch LABEL|bound] BOOK EVENTS .. | rounds | round-outcomes
       | round [--launch LABEL|bound] BOOK TURNS .. | differ N | check FILE .. | told FILE ..
       | list [--bytes] FILE .. | event-lists | events [--bytes] FILE ..
       | unpack FOLDER [N ..] | unpack-runs FOLDER [N ..] | unpack-rounds FOLDER [N ..]";

fn main() -> ExitCode {
    let arguments: Vec<OsString> = std::env::args_os().skip(1).collect();
    match run(&arguments) {
        Ok(()) => ExitCode::SUCCESS,
        Err(error) => {
            eprintln!("reference: {error}");
            ExitCode::FAILURE
        }
    }
}

fn run(arguments: &[OsString]) -> io::Result<()> {
    let (word, rest) = arguments.split_first().ok_or_else(usage)?;
    match (word.to_str(), rest) {
        (Some("books"), []) => write_books(&generate::books()),
        (Some("check-books"), []) => write_books(&check_books::books()),
        (Some("verdict"), []) => print_verdicts(),
        (Some("runs"), []) => io::stdout().write_all(&runs::file::join(&runs::all())),
        (Some("outcomes"), []) => print_outcomes(),
        (Some("run"), words) => print_launched(words, run_text),
        (Some("rounds"), []) => io::stdout().write_all(&rounds::file::join(&rounds::all())),
        (Some("round-outcomes"), []) => print_round_outcomes(),
        (Some("round"), words) => print_launched(words, round_text),
        (Some("differ"), [count]) => print_difference(count),
        (Some("check"), paths) => print_each(paths, |book| format!("{}\n", check(book))),
        (Some("told"), paths) => print_each(paths, listing::told::text),
        (Some("list"), rest) => print_listings(rest, listing::text),
        (Some("event-lists"), []) => write_books(&event_lists::lists()),
        (Some("events"), rest) => print_listings(rest, events::text),
        (Some("unpack"), [folder, some @ ..]) => unpack_books(folder.as_ref(), some),
        (Some("unpack-runs"), [folder, some @ ..]) => unpack_runs(folder.as_ref(), some),
        (Some("unpack-rounds"), [folder, some @ ..]) => unpack_rounds(folder.as_ref(), some),
        _ => Err(usage()),
    }
}

fn usage() -> io::Error {
    io::Error::other(USAGE)
}

fn write_books(books: &[Vec<u8>]) -> io::Result<()> {
    io::stdout().write_all(&file::join(books))
}

fn standard_input() -> io::Result<Vec<u8>> {
    let mut bytes = Vec::new();
    io::stdin().read_to_end(&mut bytes)?;
    Ok(bytes)
}

/// One verdict for each book in the file on standard input.
fn print_verdicts() -> io::Result<()> {
    let bytes = standard_input()?;
    let mut out = io::BufWriter::new(io::stdout().lock());
    for book in file::split(&bytes)? {
        writeln!(out, "{}", check(book))?;
    }
    out.flush()
}

/// One outcome for each run in the file on standard input.
fn print_outcomes() -> io::Result<()> {
    let mut out = io::BufWriter::new(io::stdout().lock());
    for run in runs::file::split(&standard_input()?)? {
        let (outcome, lent) = runs::outcome(machine::run, &run);
        let words = run_words::text(outcome, &lent);
        writeln!(out, "{}", words.lines().next().unwrap_or_default())?;
    }
    out.flush()
}

/// One outcome for each round in the file on standard input.
fn print_round_outcomes() -> io::Result<()> {
    let mut out = io::BufWriter::new(io::stdout().lock());
    for round in rounds::file::split(&standard_input()?)? {
        let (outcome, lent) = rounds::outcome(machine::round, &round);
        let words = run_words::round_text(outcome, &lent);
        writeln!(out, "{}", words.lines().next().unwrap_or_default())?;
    }
    out.flush()
}

/// What is printed of a book with a launch label or none, and of the word behind it.
type Launched = fn(Bytes, Option<u32>, &OsString) -> io::Result<String>;

/// The events are in a file.
fn run_text(book: Bytes, launch: Option<u32>, events: &OsString) -> io::Result<String> {
    let run = Run::new(book, std::fs::read(events)?).with_launch(launch);
    let (outcome, lent) = runs::outcome(machine::run, &run);
    Ok(run_words::text(outcome, &lent))
}

/// There is an answer byte for each turn, however many.
fn round_text(book: Bytes, launch: Option<u32>, turns: &OsString) -> io::Result<String> {
    let round = Round::new(book, word_of_32_bits(turns)?).with_launch(launch);
    let round = round.with_answers(round.turns as usize);
    let (outcome, lent) = rounds::outcome(machine::round, &round.with_before(Before::Byte(0)));
    Ok(run_words::round_text(outcome, &lent))
}

/// What is printed of each launch, book and last word.
fn print_launched(mut words: &[OsString], text: Launched) -> io::Result<()> {
    if words.is_empty() {
        return Err(usage());
    }
    let mut out = io::BufWriter::new(io::stdout().lock());
    while !words.is_empty() {
        let (launch, rest) = match words {
            [option, label, rest @ ..] if option == "--launch" => (Some(label), rest),
            rest => (None, rest),
        };
        let [book, last, behind @ ..] = rest else {
            return Err(usage());
        };
        let book = std::fs::read(book)?;
        let launch = match launch {
            None => None,
            Some(word) if word == "bound" => runs::at_bound(&book),
            Some(word) => Some(word_of_32_bits(word)?),
        };
        out.write_all(text(book, launch, last)?.as_bytes())?;
        words = behind;
    }
    out.flush()
}

fn word_of_32_bits(word: &OsString) -> io::Result<u32> {
    u32::try_from(number(word)?).map_err(|_| usage())
}

/// The seed of the runs and of the rounds by chance.
const SEED: u64 = 0x5EED_0040;

fn number(word: &OsString) -> io::Result<usize> {
    let number = word.to_str().and_then(|word| word.parse().ok());
    number.ok_or_else(usage)
}

fn print_difference(count: &OsString) -> io::Result<()> {
    let count = number(count)?;
    if let Some(found) = differ::differ(SEED, count, machine::run, machine::fast::run, |_| {}) {
        return Err(io::Error::other(format!("{found:?}")));
    }
    for round in differ::rounds(SEED).take(count) {
        let both = [machine::chosen, machine::fast::chosen];
        let [one, other] = both.map(|chooser| rounds::chosen(chooser, &round));
        if one != other {
            let found = format!("{round:?}\n{one:?}\n{other:?}");
            return Err(io::Error::other(found));
        }
    }
    println!("{count} runs, {count} rounds, no difference");
    Ok(())
}

/// What is printed of the bytes of each file.
fn print_each(paths: &[OsString], text: impl Fn(&[u8]) -> String) -> io::Result<()> {
    if paths.is_empty() {
        return Err(usage());
    }
    let mut out = io::BufWriter::new(io::stdout().lock());
    for path in paths {
        out.write_all(text(&std::fs::read(path)?).as_bytes())?;
    }
    out.flush()
}

fn print_listings(words: &[OsString], text: fn(&[u8], Show) -> String) -> io::Result<()> {
    match words {
        [option, paths @ ..] if option == "--bytes" => {
            print_each(paths, |bytes| text(bytes, Show::BytesAndWords))
        }
        paths => print_each(paths, |bytes| text(bytes, Show::Words)),
    }
}

fn unpack_books(folder: &Path, some: &[OsString]) -> io::Result<()> {
    let bytes = standard_input()?;
    for (index, book) in named(file::split(&bytes)?, some)? {
        std::fs::write(folder.join(index.to_string()), book)?;
    }
    Ok(())
}

fn unpack_runs(folder: &Path, some: &[OsString]) -> io::Result<()> {
    for (index, run) in named(runs::file::split(&standard_input()?)?, some)? {
        std::fs::write(folder.join(format!("{index}.book")), run.book)?;
        std::fs::write(folder.join(format!("{index}.events")), run.events)?;
        std::fs::write(folder.join(format!("{index}.launch")), option(run.launch))?;
    }
    Ok(())
}

fn unpack_rounds(folder: &Path, some: &[OsString]) -> io::Result<()> {
    for (index, round) in named(rounds::file::split(&standard_input()?)?, some)? {
        std::fs::write(folder.join(format!("{index}.book")), round.book)?;
        std::fs::write(
            folder.join(format!("{index}.turns")),
            format!("{}\n", round.turns),
        )?;
        std::fs::write(folder.join(format!("{index}.launch")), option(round.launch))?;
    }
    Ok(())
}

/// A launch as the option for `run`, or nothing.
fn option(launch: Option<u32>) -> String {
    launch.map_or(String::new(), |label| format!("--launch {label}\n"))
}

/// Those of the numbers that are named, or all if there are none, each with its number.
fn named<T>(all: Vec<T>, some: &[OsString]) -> io::Result<Vec<(usize, T)>> {
    let some: HashSet<usize> = some.iter().map(number).collect::<io::Result<_>>()?;
    let found = all.into_iter().enumerate();
    let wanted = |(index, _): &(usize, T)| some.is_empty() || some.contains(index);
    Ok(found.filter(wanted).collect())
}
