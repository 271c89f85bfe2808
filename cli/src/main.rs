//! The command `xemdulba`: checks job books, runs them on events or in rounds, and tells both in
//! words.
//!
//! It parses no book and no list of events. Verdicts, runs and rounds are the proved library's, and
//! it goes from record to record by the library's calls. What is here are the files, the words and the exit
//! status; docs/COMMANDS.md has all that it prints.

#![deny(unsafe_code)]

mod answer;
mod arguments;
mod check;
#[allow(unsafe_code)]
mod descriptors;
mod fault;
mod files;
mod help;
mod json;
mod launch;
mod layout;
mod lines;
mod list;
mod nearest;
mod outcome;
mod output;
mod parallel;
mod round;
mod run;
mod text;
mod turns;
mod verbs;
mod verdict;
mod walk;

use answer::Answer;
use arguments::Request;
use std::ffi::OsString;
use std::process::ExitCode;

fn main() -> ExitCode {
    let words: Vec<OsString> = std::env::args_os().skip(1).collect();
    let answer = match arguments::parse(&words) {
        Ok(request) => answer(&request),
        Err(wrong) => Answer::failed(&wrong),
    };
    ExitCode::from(output::deliver(&answer) as u8)
}

fn answer(request: &Request) -> Answer {
    match request {
        Request::Help { verb, json } => help::answer(*verb, *json),
        Request::Version { json } => help::version(*json),
        Request::Check { files, options } => check::answer(files, *options),
        Request::Run {
            book,
            events,
            options,
        } => run::answer(book, events, *options),
        Request::Round {
            book,
            turns,
            options,
        } => round::answer(book, turns, *options),
        Request::List { book, options } => list::book(book, *options),
        Request::Events { list, options } => list::events(list, *options),
    }
}
