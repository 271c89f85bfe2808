//! Writing the answer.

use crate::answer::{Answer, Status};
use crate::descriptors;
use std::fs::File;
use std::io::{self, ErrorKind, Write};
use std::os::fd::AsFd;

/// Writes an answer, and gives the exit status: where it cannot be written there is none.
pub fn deliver(answer: &Answer) -> Status {
    say(&answer.notes);
    if answer.out.is_empty() {
        return answer.status;
    }
    match write(&answer.out) {
        Ok(()) => answer.status,
        Err(error) => {
            // A reader that has seen enough, like `head`, wants to hear nothing.
            if error.kind() != ErrorKind::BrokenPipe {
                say(format!("xemdulba: cannot write to standard output: {error}\n").as_bytes());
            }
            Status::NoAnswer
        }
    }
}

/// Writes to standard error. If that fails there is nobody left to tell.
fn say(text: &[u8]) {
    let _ = io::stderr().write_all(text);
}

/// Writes to a descriptor of its own, since `Stdout` takes a write to one that is not open for
/// writing as done.
fn write(text: &[u8]) -> io::Result<()> {
    if !descriptors::output_was_open() {
        return Err(io::Error::other("it is closed"));
    }
    let mut out = File::from(io::stdout().as_fd().try_clone_to_owned()?);
    out.write_all(text)
}
