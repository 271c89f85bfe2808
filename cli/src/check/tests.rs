//! Verdicts on one file and on several.

use super::*;
use crate::text::Wrong;

fn checked<'f>(file: &'f str, book: &[u8]) -> Checked<'f> {
    Checked {
        file: OsStr::new(file),
        note: None,
        verdict: Ok(check(book)),
    }
}

fn unread(file: &str, failure: Failure) -> Checked<'_> {
    Checked {
        file: OsStr::new(file),
        note: None,
        verdict: Err(failure),
    }
}

fn missing() -> Failure {
    Failure::Unread("no such file".to_string())
}

fn no_text() -> Failure {
    Failure::NoText(Wrong {
        line: 2,
        column: 5,
        what: "an odd number of digits".to_string(),
    })
}

const ACCEPTED: [u8; 4] = [1, 0, 48, 0];
const REFUSED: [u8; 4] = [1, 15, 48, 0];

/// What goes to standard output, to standard error, and the status.
fn told(checked: &[Checked], json: bool) -> (String, String, Status) {
    let Answer { out, notes, status } = tell(checked, json);
    let text = |bytes| String::from_utf8(bytes).unwrap();
    (text(out), text(notes), status)
}

#[test]
fn one_file() {
    let (out, notes, status) = told(&[checked("a", &ACCEPTED)], false);
    assert_eq!(out, "accepted shapes 0 cells 0 blocks 1 steps 0\n");
    assert_eq!((notes.as_str(), status), ("", Status::Good));
    let (out, notes, status) = told(&[checked("a", &REFUSED)], false);
    assert_eq!(out, "refused 5 at 0\n");
    assert_eq!(notes, "xemdulba: a: refused 5 at 0: C is above 14: C: 15\n");
    assert_eq!(status, Status::Refused);
    let (out, notes, status) = told(&[unread("a", no_text())], false);
    assert_eq!(notes, "xemdulba: a:2:5: an odd number of digits\n");
    assert_eq!((out.as_str(), status), ("", Status::NoAnswer));
}

#[test]
fn several_files() {
    let all = [
        checked("a", &ACCEPTED),
        checked("b", &REFUSED),
        unread("c", missing()),
        unread("d", no_text()),
    ];
    let (out, notes, status) = told(&all[..2], false);
    let lines = "a: accepted shapes 0 cells 0 blocks 1 steps 0
b: refused 5 at 0: C is above 14: C: 15
";
    assert_eq!(out, [lines, "accepted 1 refused 1 no answer 0\n"].concat());
    assert_eq!((notes.as_str(), status), ("", Status::Refused));
    let (out, notes, status) = told(&all, false);
    assert_eq!(out, [lines, "accepted 1 refused 1 no answer 2\n"].concat());
    let failed = "c: no answer: no such file
d: no answer: d:2:5: an odd number of digits
";
    assert_eq!((notes.as_str(), status), (failed, Status::NoAnswer));
}

#[test]
fn objects() {
    let (out, notes, status) = told(&[checked("a", &REFUSED)], true);
    let refused = r#"{"file":"a","verdict":"refused","refusal":5,"place":0,"#;
    let words = r#""rule":"C is above 14","record":"C: 15"}"#;
    assert_eq!(out, [refused, words, "\n"].concat());
    assert_eq!((notes.as_str(), status), ("", Status::Refused));
    let (out, _, status) = told(&[unread("a", missing()), unread("b", no_text())], true);
    let failed = r#"{"file":"a","verdict":null,"error":"no such file"}
{"file":"b","verdict":null,"error":"an odd number of digits","line":2,"column":5}
{"accepted":0,"refused":0,"no_answer":2}
"#;
    assert_eq!((out.as_str(), status), (failed, Status::NoAnswer));
}

#[test]
fn notes_stand_behind_the_file() {
    let noted = Checked {
        note: Some("taken as bytes"),
        ..checked("a", &ACCEPTED)
    };
    let (_, notes, _) = told(&[noted], true);
    assert_eq!(notes, "xemdulba: a: taken as bytes\n");
}
