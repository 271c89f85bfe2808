//! Runs in words and as objects, written by hand from docs/FORMAT.md.

use super::*;
use crate::answer::Status;
use crate::files::Content;
use crate::text;
use xemdulba::Label;

/// What goes to standard output, to standard error, and the status, of a run at the bound.
fn told(book: &str, list: &str, json: bool) -> (String, String, Status) {
    launched(book, list, Launch::Bound, json)
}

/// The same of a run that is launched so.
fn launched(book: &str, list: &str, launch: Launch, json: bool) -> (String, String, Status) {
    let bytes = |hex: &str| text::parse(hex.as_bytes()).unwrap();
    let mut answer = Answer::new();
    let (book, list) = (bytes(book), bytes(list));
    let book = Input {
        file: OsStr::new("book"),
        bytes: &book,
    };
    let list = Input {
        file: OsStr::new("list"),
        bytes: &list,
    };
    let options = Options {
        json,
        bytes: false,
        content: Content::Unsaid,
        launch,
    };
    tell(&mut answer, book, list, options);
    let text = |bytes| String::from_utf8(bytes).unwrap();
    (text(answer.out), text(answer.notes), answer.status)
}

const A: &str =
    "01 03 10 12 00 09 20 01 09 00 05 00 00 00 30 0C 41 00 00 40 01 07 00 00 00 46 00 01";
const STEPS: &str = "50 00 50 00 50 00 50 00";

#[test]
fn words() {
    let (out, notes, status) = told(A, STEPS, false);
    let lines: Vec<&str> = out.lines().collect();
    assert_eq!(lines.len(), 12);
    let expected = [
        "ran cells 1 jobs 1",
        "answers 0 0 0 2",
        "cell 0 shape 1 trust 9 label 9 plain 7 source 12",
        "job 0 block 0 position 3 label 12 source 12",
        "  register 0 cell 0 source 12",
        "  register 1 plain 7 source 12",
        "  register 2 plain 0 source 12",
    ];
    assert_eq!(lines[..7], expected);
    assert_eq!((notes.as_str(), status), ("", Status::Good));
    let (out, _, _) = told(A, "", false);
    assert_eq!(out.lines().nth(1), Some("answers"));
}

#[test]
fn objects() {
    let (out, notes, status) = told(A, STEPS, true);
    let lines: Vec<&str> = out.lines().collect();
    assert_eq!(lines.len(), 4);
    assert_eq!(lines[0], r#"{"outcome":"ran","cells":1,"jobs":1}"#);
    assert_eq!(lines[1], r#"{"answers":[0,0,0,2]}"#);
    let cell = r#"{"cell":0,"shape":1,"trust":9,"label":9,"#;
    let value = r#""value":{"kind":"plain","number":7,"source":12}}"#;
    assert_eq!(lines[2], [cell, value].concat());
    let job =
        r#"{"job":0,"block":0,"position":3,"label":12,"source":12,"registers":[{"kind":"cell","#;
    assert!(lines[3].starts_with(job));
    assert_eq!(lines[3].matches("number").count(), 8);
    assert_eq!((notes.as_str(), status), ("", Status::Good));
}

#[test]
fn a_book_that_check_refuses() {
    let a6 = A.replace("46 00 01", "47 00 08");
    let (out, notes, status) = told(&a6, STEPS, false);
    assert!(out.starts_with("ran "));
    let note =
        "xemdulba: book: check refuses this book: refused 8 at 25: a step breaks its typing \
                rule: block 0, step 2: relabel r0, 8\n";
    assert_eq!((notes.as_str(), status), (note, Status::Good));
    let (out, notes, _) = told(&a6, STEPS, true);
    let check = r#"{"outcome":"ran","cells":1,"jobs":1,"check":{"refusal":8,"place":25,"#;
    assert!(out.starts_with(check));
    assert_eq!(notes, "");
}

#[test]
fn refusals() {
    let (out, notes, status) = told(A, "50 00 09", false);
    assert_eq!(
        (out.as_str(), status),
        ("refused 9 at 2\n", Status::Refused)
    );
    let note = "xemdulba: list: refused 9 at 2: no event has this kind: event 1: kind 9\n";
    assert_eq!(notes, note);
    let (out, notes, _) = told("01 0F 30 00", STEPS, false);
    assert_eq!(out, "refused 5 at 0\n");
    let note = "xemdulba: book: refused 5 at 0: C is above 14: C: 15\n";
    assert_eq!(notes, note);
    let (out, notes, status) = told("01 0F 30 00", STEPS, true);
    let refused = r#"{"outcome":"refused","file":"book","refusal":5,"place":0,"#;
    assert!(out.starts_with(refused));
    assert_eq!((notes.as_str(), status), ("", Status::Refused));
}

/// C is 3 and the bound 12: by default job 0 begins at 4, below the label 9 of the cell that its
/// third step writes to.
#[test]
fn launch_labels() {
    let (low, notes, status) = launched(A, STEPS, Launch::Low, false);
    let lines: Vec<&str> = low.lines().collect();
    let expected = [
        "ran cells 1 jobs 1",
        "answers 0 0 1 1",
        "cell 0 shape 1 trust 9 label 9 plain 5 source 15",
        "job 0 block 0 position 2 label 4 source 4",
        "  register 0 cell 0 source 4",
        "  register 1 plain 7 source 4",
        "  register 2 plain 0 source 4",
    ];
    assert_eq!(lines[..7], expected);
    assert_eq!((notes.as_str(), status), ("", Status::Good));
    let at = |label| launched(A, STEPS, Launch::At(Label(label)), false).0;
    assert_eq!(at(4), low);
    assert_eq!(at(12), told(A, STEPS, false).0);
    assert!(at(9).starts_with("ran cells 1 jobs 1\nanswers 0 0 0 2\n"));
}

#[test]
fn refused_launches() {
    let at_13 = Launch::At(Label(13));
    let (out, notes, status) = launched(A, STEPS, at_13, false);
    assert_eq!(
        (out.as_str(), status),
        ("refused 14 at 0\n", Status::Refused)
    );
    let note = "xemdulba: book: refused 14 at 0: the launch label is above block 0's bound: \
                launch label 13, bound 12\n";
    assert_eq!(notes, note);
    let (out, notes, status) = launched(A, STEPS, at_13, true);
    let refused = r#"{"outcome":"refused","file":"book","refusal":14,"place":0,"#;
    let rule = r#""rule":"the launch label is above block 0's bound","#;
    let record = r#""record":"launch label 13, bound 12"}"#;
    assert_eq!(out, [refused, rule, record, "\n"].concat());
    assert_eq!((notes.as_str(), status), ("", Status::Refused));
}

/// What is wrong with the book or the list comes first.
#[test]
fn other_refusals_before_the_launch() {
    for launch in [Launch::Low, Launch::Bound, Launch::At(Label(13))] {
        let (out, notes, _) = launched("01 0F 30 00", "09", launch, false);
        assert_eq!(out, "refused 5 at 0\n");
        let note = "xemdulba: book: refused 5 at 0: C is above 14: C: 15\n";
        assert_eq!(notes, note);
        let (out, notes, _) = launched(A, "50 00 09", launch, false);
        assert_eq!(out, "refused 9 at 2\n");
        assert!(notes.starts_with("xemdulba: list: refused 9 at 2: "));
    }
}

/// Job 0 puts 1 into register 0 and chooses by it, which starts block 1; register 1 is 0, which
/// starts block 2; and the name of a cell blocks it.
#[test]
fn choices() {
    let cell = "10 12 00 09 20 01 09 00 05 00 00 00";
    let steps = "40 00 01 00 00 00 4B 00 01 02 4B 01 01 02 41 01 00 4B 01 01 02";
    let book = format!("01 03 {cell} 30 0C {steps} 30 0C 30 0D");
    let (out, notes, status) = told(&book, &"50 00 ".repeat(5), false);
    let lines: Vec<&str> = out.lines().filter(|line| !line.starts_with(' ')).collect();
    let expected = [
        "ran cells 1 jobs 3",
        "answers 0 0 0 0 1",
        "cell 0 shape 1 trust 9 label 9 plain 5 source 15",
        "job 0 block 0 position 4 label 12 source 12",
        "job 1 block 1 position 0 label 12 source 12",
        "job 2 block 2 position 0 label 12 source 12",
    ];
    assert_eq!(lines, expected);
    let note =
        "xemdulba: book: check refuses this book: refused 8 at 33: a step breaks its typing \
                rule: block 0, step 4: choose r1, block 1, block 2\n";
    assert_eq!((notes.as_str(), status), (note, Status::Good));
}
