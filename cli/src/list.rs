//! `list` and `events`: the records of a book, or the events of a list, in words.

use crate::answer::Answer;
use crate::arguments::Options;
use crate::check;
use crate::json::Pairs;
use crate::layout::{Layout, BOOK, LIST};
use crate::lines::lines;
use crate::verdict::{self, Counted, Told, Verdict};
use std::ffi::OsStr;
use std::fmt::{self, Display};
use xemdulba::Settings;

pub fn book(file: &OsStr, options: Options) -> Answer {
    answer(file, options, &BOOK, check::check)
}

pub fn events(file: &OsStr, options: Options) -> Answer {
    answer(file, options, &LIST, count_events)
}

/// The lines of a file in a layout, and the verdict on it.
fn answer<C: Counted>(
    file: &OsStr,
    options: Options,
    layout: &'static Layout,
    ask: fn(&[u8]) -> Verdict<C>,
) -> Answer {
    let mut answer = Answer::new();
    let bytes = match answer.read(file, options.content) {
        Ok(bytes) => bytes,
        Err(failure) => {
            if options.json {
                answer.tell_object(verdict::no_pairs(file, &failure));
            }
            return answer;
        }
    };
    let verdict = ask(&bytes);
    let fault = verdict.as_ref().err().map(|told| told.fault);
    for line in lines(layout, &bytes, fault) {
        match options.json {
            true => answer.tell_object(line.pairs(options.bytes)),
            false => answer.tell_line(line.text(options.bytes)),
        }
    }
    match options.json {
        true => answer.tell_object(verdict::pairs(file, &verdict)),
        false => answer.tell_line(verdict::line(&verdict)),
    }
    answer.end_with(verdict::status(&verdict));
    answer
}

/// How many events a list has.
struct EventCount(usize);

impl Display for EventCount {
    fn fmt(&self, out: &mut fmt::Formatter<'_>) -> fmt::Result {
        write!(out, "events {}", self.0)
    }
}

impl Counted for EventCount {
    fn pairs(&self) -> Pairs {
        vec![("events", self.0.into())]
    }
}

/// The least book that can be read: C is 0, and a block with no steps. A run on it is refused only
/// for the list.
const LEAST: [u8; 4] = [1, 0, 48, 0];

fn count_events(list: &[u8]) -> Verdict<EventCount> {
    match xemdulba::run(&LEAST, list, Settings::default()) {
        Ok(run) => Ok(EventCount(run.answers.len())),
        Err(refusal) => Err(Told::of(&LIST, list, refusal)),
    }
}
