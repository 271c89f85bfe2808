//! `run`: what the events of a list do on a book.

use crate::answer::Answer;
use crate::arguments::Options;
use crate::launch::Launch;
use crate::layout::LIST;
use crate::outcome::{self, Input, Outcome};
use crate::verdict::Told;
use std::ffi::OsStr;
use xemdulba::Refusal;

pub fn answer(book_file: &OsStr, list_file: &OsStr, options: Options) -> Answer {
    let mut answer = Answer::new();
    let Some(book) = outcome::read(&mut answer, book_file, options) else {
        return answer;
    };
    let Some(list) = outcome::read(&mut answer, list_file, options) else {
        return answer;
    };
    let book = Input {
        file: book_file,
        bytes: &book,
    };
    let list = Input {
        file: list_file,
        bytes: &list,
    };
    tell(&mut answer, book, list, options);
    answer
}

fn tell(answer: &mut Answer, book: Input, list: Input, options: Options) {
    let settings = options.launch.settings(book.bytes);
    match settings.and_then(|settings| xemdulba::run(book.bytes, list.bytes, settings)) {
        Ok(run) => Outcome::Ran(&run).tell(answer, book, options.json),
        Err(refusal) => {
            let (file, told) = refused(book, list, options.launch, refusal);
            outcome::tell_refusal(answer, file, &told, options.json);
        }
    }
}

/// The file at fault, and the refusal in words.
fn refused<'f>(
    book: Input<'f>,
    list: Input<'f>,
    launch: Launch,
    refusal: Refusal,
) -> (&'f OsStr, Told) {
    match refusal.number {
        9 => (list.file, Told::of(&LIST, list.bytes, refusal)),
        _ => (book.file, outcome::refused(book.bytes, launch, refusal)),
    }
}

#[cfg(test)]
mod tests;
