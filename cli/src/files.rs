//! Reading a file: bytes, or hexadecimal text.

use crate::descriptors;
use crate::json::Pairs;
use crate::text::{self, Look, Wrong};
use std::ffi::OsStr;
use std::fs::File;
use std::io::{self, ErrorKind, Read};
use std::os::fd::AsFd;
use std::os::unix::ffi::OsStrExt;

/// So many bytes of a file are read. They are refused as a book and as a list of events, whatever
/// follows them.
const MOST: usize = 4 << 20;

/// What the caller says that a file holds.
#[derive(Clone, Copy, Debug, PartialEq, Eq)]
pub enum Content {
    /// Text if it is named *.hex, and else what it looks like.
    Unsaid,
    Text,
    Bytes,
}

/// What a file holds, and what its reader should know.
#[derive(Debug, PartialEq, Eq)]
pub struct Given {
    pub bytes: Vec<u8>,
    pub note: Option<&'static str>,
}

/// Why a file gives no answer.
#[derive(Debug, PartialEq, Eq)]
pub enum Failure {
    /// It cannot be read.
    Unread(String),
    /// It is no text.
    NoText(Wrong),
}

impl Failure {
    /// Why, as the keys of an object.
    pub fn pairs(&self) -> Pairs {
        match self {
            Failure::Unread(reason) => vec![("error", reason.as_str().into())],
            Failure::NoText(Wrong { line, column, what }) => vec![
                ("error", what.as_str().into()),
                ("line", (*line).into()),
                ("column", (*column).into()),
            ],
        }
    }

    /// Why, behind the name of the file: `FILE: reason` or `FILE:LINE:COLUMN: reason`.
    pub fn message(&self, name: &OsStr) -> Vec<u8> {
        let why = match self {
            Failure::Unread(reason) => format!(": {reason}"),
            Failure::NoText(Wrong { line, column, what }) => format!(":{line}:{column}: {what}"),
        };
        [shown(name), why.into_bytes()].concat()
    }
}

/// The name of standard input.
pub fn is_input(name: &OsStr) -> bool {
    name == "-"
}

/// A name as it is shown.
pub fn shown(name: &OsStr) -> Vec<u8> {
    if name.is_empty() {
        return b"''".to_vec();
    }
    printable(name)
}

/// The bytes of a word, but for control characters, which could end the line or move the cursor.
pub fn printable(word: &OsStr) -> Vec<u8> {
    let mut plain = Vec::new();
    for chunk in word.as_bytes().utf8_chunks() {
        let text = chunk.valid().replace(char::is_control, "?");
        plain.extend_from_slice(text.as_bytes());
        plain.extend_from_slice(chunk.invalid());
    }
    plain
}

/// Reads a file, once, so that it may be a pipe.
pub fn read(name: &OsStr, content: Content) -> Result<Given, Failure> {
    given(front(name)?, content_of(name, content))
}

/// The bytes of a file, up to the limit.
fn front(name: &OsStr) -> Result<Vec<u8>, Failure> {
    let file = open(name).map_err(unread)?;
    if file.metadata().map_err(unread)?.is_dir() {
        return Err(Failure::Unread("a directory".to_string()));
    }
    let mut bytes = Vec::new();
    let mut limited = file.take(MOST as u64);
    limited.read_to_end(&mut bytes).map_err(unread)?;
    Ok(bytes)
}

/// Standard input is read from a descriptor of its own, since `Stdin` takes one that cannot be
/// read as empty.
fn open(name: &OsStr) -> io::Result<File> {
    if !is_input(name) {
        return File::open(name);
    }
    if !descriptors::input_was_open() {
        return Err(io::Error::other("it is closed"));
    }
    Ok(File::from(io::stdin().as_fd().try_clone_to_owned()?))
}

fn unread(error: io::Error) -> Failure {
    Failure::Unread(match error.kind() {
        ErrorKind::NotFound => "no such file".to_string(),
        _ => format!("cannot read: {error}"),
    })
}

fn content_of(name: &OsStr, content: Content) -> Content {
    let end = name.as_bytes().last_chunk();
    let named_text = end.is_some_and(|end: &[u8; 4]| end.eq_ignore_ascii_case(b".hex"));
    match content {
        Content::Unsaid if named_text => Content::Text,
        _ => content,
    }
}

/// What the bytes of a file give, taken as what they are said to be.
fn given(bytes: Vec<u8>, content: Content) -> Result<Given, Failure> {
    match content {
        Content::Bytes => Ok(Given { bytes, note: None }),
        Content::Text => {
            expect_whole(&bytes)?;
            let bytes = text::parse(&bytes).map_err(Failure::NoText)?;
            Ok(Given { bytes, note: None })
        }
        Content::Unsaid => given_by_look(bytes),
    }
}

fn given_by_look(bytes: Vec<u8>) -> Result<Given, Failure> {
    let look = text::look(&bytes);
    if matches!(look, Look::Text(_) | Look::Unpaired(_) | Look::OddText) {
        expect_whole(&bytes)?;
    }
    let (bytes, note) = match look {
        Look::Text(bytes) => (bytes, None),
        Look::Unpaired(bytes) => (bytes, Some("digits that stand apart were paired")),
        Look::OddText => (bytes, Some("an odd number of digits, so taken as bytes")),
        Look::OtherText => {
            let note = "text, but not of hexadecimal digits alone, so taken as bytes";
            (bytes, Some(note))
        }
        Look::Bytes => (bytes, None),
    };
    Ok(Given { bytes, note })
}

/// Text that may be cut is no text.
fn expect_whole(text: &[u8]) -> Result<(), Failure> {
    if text.len() < MOST {
        return Ok(());
    }
    Err(Failure::Unread("text of 4 MiB or more".to_string()))
}

#[cfg(test)]
mod tests {
    use super::*;

    #[test]
    fn what_a_name_says() {
        let content = |name: &str, content| content_of(OsStr::new(name), content);
        assert_eq!(content("a.book", Content::Unsaid), Content::Unsaid);
        assert_eq!(content("a.hex", Content::Unsaid), Content::Text);
        assert_eq!(content("A.HEX", Content::Unsaid), Content::Text);
        assert_eq!(content("hex", Content::Unsaid), Content::Unsaid);
        assert_eq!(content("a.hex", Content::Bytes), Content::Bytes);
        assert_eq!(content("-", Content::Text), Content::Text);
    }

    fn bytes(bytes: &[u8], note: Option<&'static str>) -> Result<Given, Failure> {
        let bytes = bytes.to_vec();
        Ok(Given { bytes, note })
    }

    #[test]
    fn what_is_given() {
        let text = b"30 0C # none";
        assert_eq!(given(text.to_vec(), Content::Text), bytes(&[48, 12], None));
        assert_eq!(given(text.to_vec(), Content::Bytes), bytes(text, None));
        let Ok(unsaid) = given(text.to_vec(), Content::Unsaid) else {
            panic!("it is taken as bytes");
        };
        assert_eq!(unsaid.bytes, text);
        assert!(unsaid.note.unwrap().ends_with("so taken as bytes"));
        assert_eq!(given(vec![1, 3], Content::Unsaid), bytes(&[1, 3], None));
        assert_eq!(
            given(b"01 3".to_vec(), Content::Unsaid).unwrap().bytes,
            b"01 3"
        );
        let message = given(b"01\n3".to_vec(), Content::Text).unwrap_err();
        let message = message.message(OsStr::new("a.hex"));
        assert_eq!(message, b"a.hex:2:1: an odd number of digits");
    }

    #[test]
    fn long_text() {
        let long = Err(Failure::Unread("text of 4 MiB or more".to_string()));
        assert_eq!(given(vec![b'0'; MOST], Content::Unsaid), long);
        assert_eq!(given(vec![b'0'; MOST], Content::Text), long);
        assert!(given(vec![b'0'; MOST - 2], Content::Text).is_ok());
        assert_eq!(
            given(vec![0; MOST], Content::Unsaid).unwrap().bytes.len(),
            MOST
        );
    }

    #[test]
    fn names() {
        assert_eq!(shown(OsStr::new("a b")), b"a b");
        assert_eq!(shown(OsStr::from_bytes(b"\xFF")), b"\xFF");
        assert_eq!(shown(OsStr::new("a\nb")), b"a?b");
        assert_eq!(shown(OsStr::new("é\u{9b}31m")), "é?31m".as_bytes());
        assert_eq!(shown(OsStr::new("")), b"''");
    }
}
