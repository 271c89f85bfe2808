//! `round`: what the jobs of a book do when they take turns.

use crate::answer::Answer;
use crate::arguments::Options;
use crate::launch::Launch;
use crate::outcome::{self, Input, Outcome};
use crate::turns::Turns;
use crate::verdict::Told;
use std::ffi::OsStr;
use xemdulba::Refusal;

pub fn answer(file: &OsStr, turns: &Turns, options: Options) -> Answer {
    let mut answer = Answer::new();
    if let Some(bytes) = outcome::read(&mut answer, file, options) {
        let book = Input {
            file,
            bytes: &bytes,
        };
        tell(&mut answer, book, turns, options);
    }
    answer
}

fn tell(answer: &mut Answer, book: Input, turns: &Turns, options: Options) {
    let settings = options.launch.settings(book.bytes);
    match settings.and_then(|settings| xemdulba::round(book.bytes, turns.number(), settings)) {
        Ok(round) => Outcome::Rounded(&round).tell(answer, book, options.json),
        Err(refusal) => {
            let told = refused(book.bytes, turns, options.launch, refusal);
            outcome::tell_refusal(answer, book.file, &told, options.json);
        }
    }
}

/// A refusal in words. No round here is refused by 10 or 11.
fn refused(book: &[u8], turns: &Turns, launch: Launch, refusal: Refusal) -> Told {
    match refusal.number {
        15 => Told::of_turns(refusal, turns),
        _ => outcome::refused(book, launch, refusal),
    }
}

#[cfg(test)]
mod tests;
