//! Words behind the command's name.

use super::*;

fn asked(words: &[&str]) -> Result<Request, String> {
    let words: Vec<OsString> = words.iter().map(OsString::from).collect();
    parse(&words)
}

/// The first line of what is wrong.
fn wrong(words: &[&str]) -> String {
    let wrong = asked(words).unwrap_err();
    wrong.lines().next().unwrap_or_default().to_string()
}

const PLAIN: Options = Options {
    json: false,
    bytes: false,
    content: Content::Unsaid,
    launch: Launch::Low,
};

fn check(files: &[&str], options: Options) -> Result<Request, String> {
    let files = files.iter().map(OsString::from).collect();
    Ok(Request::Check { files, options })
}

#[test]
fn options_stand_anywhere_behind_the_verb() {
    let options = Options {
        json: true,
        content: Content::Text,
        ..PLAIN
    };
    let expected = check(&["a", "b"], options);
    assert_eq!(asked(&["check", "--json", "a", "--hex", "b"]), expected);
    assert_eq!(asked(&["check", "a", "b", "--hex", "--json"]), expected);
    let request = asked(&["list", "--bytes", "--raw", "a"]);
    let options = Options {
        bytes: true,
        content: Content::Bytes,
        ..PLAIN
    };
    let book = "a".into();
    assert_eq!(request, Ok(Request::List { book, options }));
}

#[test]
fn files() {
    assert_eq!(asked(&["check", "-"]), check(&["-"], PLAIN));
    let dashes = ["check", "--", "-x", "--json", "--"];
    assert_eq!(asked(&dashes), check(&["-x", "--json", "--"], PLAIN));
    let (book, events, options) = ("a".into(), "-".into(), PLAIN);
    let run = Request::Run {
        book,
        events,
        options,
    };
    assert_eq!(asked(&["run", "a", "-"]), Ok(run));
    assert_eq!(asked(&["check", ""]), check(&[""], PLAIN));
}

/// `run` with some words in front of its files.
fn run(words: &[&str]) -> Result<Options, String> {
    match asked(&[&["run"], words, &["a", "b"]].concat())? {
        Request::Run { options, .. } => Ok(options),
        other => panic!("{other:?}"),
    }
}

#[test]
fn launch_labels() {
    let launched = |launch| Ok(Options { launch, ..PLAIN });
    assert_eq!(run(&[]), launched(Launch::Low));
    assert_eq!(run(&["--launch", "bound"]), launched(Launch::Bound));
    assert_eq!(run(&["--launch=bound"]), launched(Launch::Bound));
    let at = |label| Launch::At(xemdulba::Label(label));
    assert_eq!(run(&["--launch", "0"]), launched(at(0)));
    assert_eq!(run(&["--launch=15"]), launched(at(15)));
    let behind = asked(&["run", "a", "--launch", "4", "--json", "--", "-b"]);
    let options = Options {
        json: true,
        launch: at(4),
        ..PLAIN
    };
    let (book, events) = ("a".into(), "-b".into());
    let expected = Request::Run {
        book,
        events,
        options,
    };
    assert_eq!(behind, Ok(expected));
}

#[test]
fn wrong_launch_labels() {
    let takes = "'--launch' takes a label from 0 to 15, or bound";
    for word in ["16", "300", "-1", "x", "", "--json", "--", "a\nb"] {
        let shown = word.replace('\n', "?");
        let not = Err(format!("{takes}, not '{shown}'"));
        assert_eq!(run(&["--launch", word]), not);
        assert_eq!(run(&[&format!("--launch={word}")]), not);
    }
    assert_eq!(wrong(&["run", "a", "b", "--launch"]), takes);
    let twice = Err("'--launch' stands once at most".to_string());
    assert_eq!(run(&["--launch", "4", "--launch=4"]), twice);
    assert_eq!(run(&["--launch=4", "--launch", "bound"]), twice);
    assert_eq!(
        wrong(&["run", "--lanch=4", "a", "b"]),
        "no option '--lanch=4': did you mean '--launch'?"
    );
    assert_eq!(
        wrong(&["run", "--json=4", "a", "b"]),
        "no option '--json=4': did you mean '--json'?"
    );
    assert_eq!(
        wrong(&["check", "--launch", "4", "a"]),
        "no option '--launch': check has --json, --hex, --raw, --help"
    );
    assert_eq!(wrong(&["--launch", "4"]), "'--launch' stands behind a verb");
}

/// `round` with some words behind it.
fn round(words: &[&str]) -> Result<(String, u32), String> {
    match asked(&[&["round"], words].concat())? {
        Request::Round { book, turns, .. } => Ok((book.into_string().unwrap(), turns.number())),
        other => panic!("{other:?}"),
    }
}

#[test]
fn rounds() {
    let asked_for = |book: &str, turns| Ok((book.to_string(), turns));
    assert_eq!(round(&["a", "12"]), asked_for("a", 12));
    assert_eq!(round(&["-", "0"]), asked_for("-", 0));
    assert_eq!(round(&["12", "4097"]), asked_for("12", 4_097));
    assert_eq!(round(&["a", "4294967296"]), asked_for("a", u32::MAX));
    assert_eq!(round(&["--", "-a", "7"]), asked_for("-a", 7));
    let launched = asked(&["round", "a", "--launch", "4", "--json", "--hex", "12"]);
    let options = Options {
        json: true,
        content: Content::Text,
        launch: Launch::At(xemdulba::Label(4)),
        ..PLAIN
    };
    let (book, turns) = ("a".into(), Turns::of("12").unwrap());
    let expected = Request::Round {
        book,
        turns,
        options,
    };
    assert_eq!(launched, Ok(expected));
}

#[test]
fn wrong_rounds() {
    let number = "TURNS is a number in decimal digits";
    for word in ["", "x", "1.5", "04", "a b", "12\n", "-"] {
        let shown = word.replace('\n', "?");
        let not = Err(format!("{number}, not '{shown}'"));
        assert_eq!(round(&["-", word]), not);
    }
    assert_eq!(
        round(&["a", "--", "-1"]),
        Err(format!("{number}, not '-1'"))
    );
    assert_eq!(
        wrong(&["round", "a", "-1"]),
        "no option '-1': round has --launch, --json, --hex, --raw, --help"
    );
    let takes = "round takes a file and a number, BOOK and TURNS";
    for words in [&["round"][..], &["round", "a"], &["round", "a", "1", "2"]] {
        assert_eq!(wrong(words), takes);
    }
    let near = "no verb 'roudn': did you mean 'round'?";
    assert_eq!(wrong(&["roudn", "a", "1"]), near);
}

#[test]
fn help_and_version() {
    let help = |verb, json| Ok(Request::Help { verb, json });
    for words in [["--help"], ["-h"], ["help"]] {
        assert_eq!(asked(&words), help(None, false));
    }
    for words in [["help", "run"], ["run", "--help"], ["run", "-h"]] {
        assert_eq!(asked(&words), help(Some(Verb::Run), false));
    }
    assert_eq!(asked(&["help", "--json"]), help(None, true));
    assert_eq!(
        asked(&["list", "a", "b", "--help"]),
        help(Some(Verb::List), false)
    );
    assert_eq!(asked(&["-V"]), Ok(Request::Version { json: false }));
    let json = asked(&["--version", "--json"]);
    assert_eq!(json, Ok(Request::Version { json: true }));
}

#[test]
fn wrong_words() {
    assert_eq!(
        wrong(&["chekc", "a"]),
        "no verb 'chekc': did you mean 'check'?"
    );
    assert_eq!(
        wrong(&["version"]),
        "no verb 'version': did you mean '--version'?"
    );
    let verbs = "the verbs are check, run, round, list, events, help";
    assert_eq!(
        wrong(&["frobnicate"]),
        format!("no verb 'frobnicate': {verbs}")
    );
    assert_eq!(wrong(&["help", "xyz"]), format!("no verb 'xyz': {verbs}"));
    assert_eq!(wrong(&[""]), format!("no verb '': {verbs}"));
    assert_eq!(wrong(&["-x"]), format!("no option '-x': {verbs}"));
    assert_eq!(wrong(&["--json", "check"]), "'--json' stands behind a verb");
    let near = "no option '--jsn': did you mean '--json'?";
    assert_eq!(wrong(&["check", "a", "--jsn"]), near);
    let others = "no option '--bytes': check has --json, --hex, --raw, --help";
    assert_eq!(wrong(&["check", "--bytes", "a"]), others);
    assert_eq!(
        wrong(&["--help", "check"]),
        "'--help' stands alone, not with 'check'"
    );
    assert_eq!(wrong(&["check", "-\n"])[..15], *"no option '-?':");
}

#[test]
fn wrong_numbers_of_files() {
    assert_eq!(wrong(&[]), "no verb");
    assert_eq!(wrong(&["check"]), "check takes one file or more");
    assert_eq!(wrong(&["run", "a"]), "run takes two files, BOOK and EVENTS");
    assert_eq!(
        wrong(&["run", "a", "b", "c"]),
        "run takes two files, BOOK and EVENTS"
    );
    assert_eq!(wrong(&["list"]), "list takes one file");
    assert_eq!(wrong(&["events", "a", "b"]), "events takes one file");
    assert_eq!(
        wrong(&["help", "run", "list"]),
        "help takes one verb or none"
    );
    let twice = "'-' is standard input, which can be read once";
    assert_eq!(wrong(&["check", "-", "a", "-"]), twice);
    assert_eq!(wrong(&["run", "-", "--", "-"]), twice);
    assert_eq!(
        wrong(&["check", "--hex", "--raw", "a"]),
        "either --hex or --raw, not both"
    );
}
