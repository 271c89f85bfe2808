//! What a call of the command gives.

use crate::files::{self, Content, Failure};
use crate::json::{Json, Pairs};
use std::ffi::OsStr;
use std::fmt::Display;

/// The exit status; of several the last one here wins.
#[derive(Clone, Copy, Debug, PartialEq, Eq, PartialOrd, Ord)]
pub enum Status {
    /// Accepted, ran, or told what was asked.
    Good = 0,
    Refused = 1,
    NoAnswer = 2,
}

/// What is written, and the exit status. File names may be any bytes, and so the text is bytes.
#[derive(Debug)]
pub struct Answer {
    /// For standard output.
    pub out: Vec<u8>,
    /// For standard error.
    pub notes: Vec<u8>,
    pub status: Status,
}

impl Answer {
    pub fn new() -> Answer {
        Answer {
            out: Vec::new(),
            notes: Vec::new(),
            status: Status::Good,
        }
    }

    /// No answer, and why: bad usage.
    pub fn failed(why: &str) -> Answer {
        let mut answer = Answer::new();
        answer.note(why);
        answer.status = Status::NoAnswer;
        answer
    }

    /// Text for standard output.
    pub fn tell(&mut self, text: impl AsRef<[u8]>) {
        self.out.extend_from_slice(text.as_ref());
    }

    /// A line for standard output.
    pub fn tell_line(&mut self, line: impl AsRef<[u8]>) {
        self.tell(line);
        self.tell(b"\n");
    }

    /// An object for standard output, on a line of its own.
    pub fn tell_object(&mut self, pairs: Pairs) {
        self.tell_line(Json::Object(pairs).to_string());
    }

    /// A line for standard error, behind the name of the command.
    pub fn note(&mut self, line: impl AsRef<[u8]>) {
        self.notes.extend_from_slice(b"xemdulba: ");
        self.note_plainly(line);
    }

    /// A line for standard error on a file.
    pub fn note_on(&mut self, file: &OsStr, words: impl Display) {
        let words = format!(": {words}");
        self.note([files::shown(file), words.into_bytes()].concat());
    }

    /// A line for standard error as it stands.
    pub fn note_plainly(&mut self, line: impl AsRef<[u8]>) {
        self.notes.extend_from_slice(line.as_ref());
        self.notes.push(b'\n');
    }

    /// The bytes of a file, if it can be read; says what there is to say of it.
    pub fn read(&mut self, file: &OsStr, content: Content) -> Result<Vec<u8>, Failure> {
        match files::read(file, content) {
            Ok(given) => {
                if let Some(note) = given.note {
                    self.note_on(file, note);
                }
                Ok(given.bytes)
            }
            Err(failure) => {
                self.note(failure.message(file));
                self.end_with(Status::NoAnswer);
                Err(failure)
            }
        }
    }

    /// The status is this one, if none that it has wins over it.
    pub fn end_with(&mut self, status: Status) {
        self.status = self.status.max(status);
    }
}
