//! `check`: the verdict on each book.

use crate::answer::{Answer, Status};
use crate::arguments::Options;
use crate::files::{self, Content, Failure};
use crate::json::Pairs;
use crate::layout::BOOK;
use crate::parallel;
use crate::verdict::{self, Told, Verdict};
use std::ffi::{OsStr, OsString};
use xemdulba::Counts;

pub fn answer(files: &[OsString], options: Options) -> Answer {
    let checked = parallel::map(files, |file| check_file(file, options.content));
    tell(&checked, options.json)
}

/// The verdict on a book.
pub fn check(book: &[u8]) -> Verdict<Counts> {
    xemdulba::check(book).map_err(|refusal| Told::of(&BOOK, book, refusal))
}

/// What a file gives: a note on how it was taken, and the verdict, if there is one.
struct Checked<'f> {
    file: &'f OsStr,
    note: Option<&'static str>,
    verdict: Result<Verdict<Counts>, Failure>,
}

fn check_file(file: &OsStr, content: Content) -> Checked<'_> {
    let (note, verdict) = match files::read(file, content) {
        Ok(given) => (given.note, Ok(check(&given.bytes))),
        Err(failure) => (None, Err(failure)),
    };
    Checked {
        file,
        note,
        verdict,
    }
}

impl Checked<'_> {
    fn status(&self) -> Status {
        match &self.verdict {
            Ok(verdict) => verdict::status(verdict),
            Err(_) => Status::NoAnswer,
        }
    }
}

/// The answer on all files.
fn tell(checked: &[Checked], json: bool) -> Answer {
    let mut answer = Answer::new();
    let several = checked.len() > 1;
    for checked in checked {
        note(&mut answer, checked, several);
        if json {
            answer.tell_object(object(checked));
        } else if several {
            tell_among(&mut answer, checked);
        } else {
            tell_alone(&mut answer, checked);
        }
        answer.end_with(checked.status());
    }
    if several {
        tell_counts(&mut answer, checked, json);
    }
    answer
}

/// What goes to standard error in any case.
fn note(answer: &mut Answer, checked: &Checked, several: bool) {
    let file = checked.file;
    if let Some(note) = checked.note {
        answer.note_on(file, note);
    }
    match &checked.verdict {
        Err(failure) if several => answer.note_plainly(no_answer(file, failure)),
        Err(failure) => answer.note(failure.message(file)),
        Ok(_) => {}
    }
}

/// `FILE: no answer: REASON`. Where it is no text the reason has the place, FILE:LINE:COLUMN.
fn no_answer(file: &OsStr, failure: &Failure) -> Vec<u8> {
    let reason = match failure {
        Failure::Unread(reason) => reason.clone().into_bytes(),
        Failure::NoText(_) => failure.message(file),
    };
    [&files::shown(file), &b": no answer: "[..], &reason].concat()
}

/// The verdict on one book; what a refusal means goes to standard error.
fn tell_alone(answer: &mut Answer, checked: &Checked) {
    if let Ok(verdict) = &checked.verdict {
        answer.tell_line(verdict::line(verdict));
        if let Err(told) = verdict {
            answer.note_on(checked.file, told);
        }
    }
}

/// The verdict on one book of several, with what a refusal means.
fn tell_among(answer: &mut Answer, checked: &Checked) {
    let words = match &checked.verdict {
        Ok(Ok(counts)) => counts.to_string(),
        Ok(Err(told)) => told.to_string(),
        Err(_) => return,
    };
    answer.tell(files::shown(checked.file));
    answer.tell_line(format!(": {words}"));
}

fn object(checked: &Checked) -> Pairs {
    match &checked.verdict {
        Ok(verdict) => verdict::pairs(checked.file, verdict),
        Err(failure) => verdict::no_pairs(checked.file, failure),
    }
}

fn tell_counts(answer: &mut Answer, checked: &[Checked], json: bool) {
    let count = |status| checked.iter().filter(|one| one.status() == status).count();
    let [accepted, refused, none] = [Status::Good, Status::Refused, Status::NoAnswer].map(count);
    if json {
        answer.tell_object(vec![
            ("accepted", accepted.into()),
            ("refused", refused.into()),
            ("no_answer", none.into()),
        ]);
    } else {
        answer.tell_line(format!(
            "accepted {accepted} refused {refused} no answer {none}"
        ));
    }
}

#[cfg(test)]
mod tests;
