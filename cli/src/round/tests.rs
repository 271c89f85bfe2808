//! Rounds in words and as objects, written by hand from docs/FORMAT.md.

use super::*;
use crate::answer::Status;
use crate::files::Content;
use crate::text;
use xemdulba::Label;

/// What goes to standard output, to standard error, and the status, of a round at the bound.
fn told(book: &str, turns: &str, json: bool) -> (String, String, Status) {
    launched(book, turns, Launch::Bound, json)
}

/// The same of a round that is launched so.
fn launched(book: &str, turns: &str, launch: Launch, json: bool) -> (String, String, Status) {
    let mut answer = Answer::new();
    let bytes = text::parse(book.as_bytes()).unwrap();
    let book = Input {
        file: OsStr::new("book"),
        bytes: &bytes,
    };
    let options = Options {
        json,
        bytes: false,
        content: Content::Unsaid,
        launch,
    };
    tell(&mut answer, book, &Turns::of(turns).unwrap(), options);
    let text = |bytes| String::from_utf8(bytes).unwrap();
    (text(answer.out), text(answer.notes), answer.status)
}

/// The lines but those of registers.
fn lines(out: &str) -> Vec<&str> {
    out.lines().filter(|line| !line.starts_with(' ')).collect()
}

/// C is 3. Cell 0 is 5. Block 0 starts blocks 1 and 2; block 1 writes 7 to cell 0; block 2 reads by
/// a register that is plain, and so stays blocked.
const BOOK: &str = "01 03 10 12 00 09 20 01 09 00 05 00 00 00 30 0C 49 01 49 02
    30 0C 41 00 00 40 01 07 00 00 00 46 00 01 30 0C 45 00 00";

/// Job 0 starts job 1; job 1; job 0 starts job 2; job 1; job 2 is blocked; job 1, its last; and job
/// 2 is blocked twice more.
#[test]
fn words() {
    let (out, notes, status) = told(BOOK, "8", false);
    let expected = [
        "rounded cells 1 jobs 3 turns 8",
        "answers 0 0 0 0 1 0 1 1",
        "cell 0 shape 1 trust 9 label 9 plain 7 source 12",
        "job 0 block 0 position 2 label 12 source 12",
        "job 1 block 1 position 3 label 12 source 12",
        "job 2 block 2 position 0 label 12 source 12",
    ];
    assert_eq!(lines(&out), expected);
    let registers = [
        "  register 0 cell 0 source 12",
        "  register 1 plain 7 source 12",
    ];
    assert_eq!(out.lines().skip(13).take(2).collect::<Vec<_>>(), registers);
    let note =
        "xemdulba: book: check refuses this book: refused 8 at 36: a step breaks its typing \
                rule: block 2, step 0: read r0, r0\n";
    assert_eq!((notes.as_str(), status), (note, Status::Good));
}

#[test]
fn objects() {
    let (out, notes, status) = told(BOOK, "5", true);
    let lines: Vec<&str> = out.lines().collect();
    assert_eq!(lines.len(), 6);
    let outcome = r#"{"outcome":"rounded","cells":1,"jobs":3,"turns":5,"check":{"refusal":8,"#;
    assert!(lines[0].starts_with(outcome));
    assert_eq!(lines[1], r#"{"answers":[0,0,0,0,1]}"#);
    let cell = r#"{"cell":0,"shape":1,"trust":9,"label":9,"#;
    let value = r#""value":{"kind":"plain","number":5,"source":15}}"#;
    assert_eq!(lines[2], [cell, value].concat());
    let job = r#"{"job":1,"block":1,"position":2,"label":12,"source":12,"registers":["#;
    assert!(lines[4].starts_with(job));
    assert_eq!((notes.as_str(), status), ("", Status::Good));
}

/// Three steps of one job, and then none is left; no turns; and no steps.
#[test]
fn early_ends() {
    let book = "01 03 30 0C 48 09 48 09 48 09";
    let (out, notes, status) = told(book, "4096", false);
    let expected = [
        "rounded cells 0 jobs 1 turns 3",
        "answers 0 0 0",
        "job 0 block 0 position 3 label 9 source 9",
    ];
    assert_eq!(lines(&out), expected);
    assert_eq!((notes.as_str(), status), ("", Status::Good));
    let (out, _, status) = told(book, "0", false);
    let none = ["rounded cells 0 jobs 1 turns 0", "answers"];
    assert_eq!((&lines(&out)[..2], status), (&none[..], Status::Good));
    let (out, ..) = told("01 03 30 0C", "9", true);
    let none = "{\"outcome\":\"rounded\",\"cells\":0,\"jobs\":1,\"turns\":0}\n{\"answers\":[]}\n";
    assert!(out.starts_with(none));
}

/// At 4, as by default, the lower to 9 is blocked, and the round goes on to its last turn.
#[test]
fn launch_labels() {
    let book = "01 03 30 0C 48 09";
    let (low, ..) = launched(book, "3", Launch::Low, false);
    let expected = [
        "rounded cells 0 jobs 1 turns 3",
        "answers 1 1 1",
        "job 0 block 0 position 0 label 4 source 4",
    ];
    assert_eq!(lines(&low), expected);
    assert_eq!(launched(book, "3", Launch::At(Label(4)), false).0, low);
    let (out, notes, status) = launched(book, "5000", Launch::At(Label(13)), false);
    let refused = ("refused 14 at 0\n", Status::Refused);
    assert_eq!((out.as_str(), status), refused);
    let note = "xemdulba: book: refused 14 at 0: the launch label is above block 0's bound: \
                launch label 13, bound 12\n";
    assert_eq!(notes, note);
}

#[test]
fn refused_turns() {
    for turns in ["4097", "4294967295", "4294967296", "100000000000000000000"] {
        let (out, notes, status) = told(BOOK, turns, false);
        let refused = ("refused 15 at 0\n", Status::Refused);
        assert_eq!((out.as_str(), status), refused);
        let rule = "a round is given more than 4096 turns";
        let note = format!("xemdulba: book: refused 15 at 0: {rule}: turns {turns}\n");
        assert_eq!(notes, note);
    }
    let (out, notes, status) = told(BOOK, "4097", true);
    let refused = r#"{"outcome":"refused","file":"book","refusal":15,"place":0,"#;
    let rule = r#""rule":"a round is given more than 4096 turns","record":"turns 4097"}"#;
    assert_eq!(out, [refused, rule, "\n"].concat());
    assert_eq!((notes.as_str(), status), ("", Status::Refused));
}

#[test]
fn a_book_that_cannot_be_read() {
    for launch in [Launch::Low, Launch::Bound, Launch::At(Label(13))] {
        let (out, notes, status) = launched("01 0F 30 00", "4097", launch, false);
        let refused = ("refused 5 at 0\n", Status::Refused);
        assert_eq!((out.as_str(), status), refused);
        let note = "xemdulba: book: refused 5 at 0: C is above 14: C: 15\n";
        assert_eq!(notes, note);
    }
}
