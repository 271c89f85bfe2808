//! The words behind the command's name.

use crate::files::{self, Content};
use crate::help;
use crate::launch::{self, Launch};
use crate::nearest::nearest;
use crate::turns::Turns;
use crate::verbs::{Flag, Verb};
use std::ffi::{OsStr, OsString};

/// How an answer is asked for.
#[derive(Clone, Copy, Debug, PartialEq, Eq)]
pub struct Options {
    /// Objects, not words.
    pub json: bool,
    /// The bytes of each record too.
    pub bytes: bool,
    /// What the files hold.
    pub content: Content,
    /// The label that a run or a round is launched at.
    pub launch: Launch,
}

/// What is asked.
#[derive(Debug, PartialEq, Eq)]
pub enum Request {
    Help {
        verb: Option<Verb>,
        json: bool,
    },
    Version {
        json: bool,
    },
    /// One file or more.
    Check {
        files: Vec<OsString>,
        options: Options,
    },
    Run {
        book: OsString,
        events: OsString,
        options: Options,
    },
    Round {
        book: OsString,
        turns: Turns,
        options: Options,
    },
    List {
        book: OsString,
        options: Options,
    },
    Events {
        list: OsString,
        options: Options,
    },
}

/// What the words ask for, or what is wrong with them.
pub fn parse(words: &[OsString]) -> Result<Request, String> {
    let Some((first, rest)) = words.split_first() else {
        return Err(format!("no verb\n{}", help::USAGE.trim_end()));
    };
    match (Flag::of(first), Verb::of(first)) {
        (Some(flag @ (Flag::Help | Flag::Version)), _) => parse_alone(flag, rest),
        (Some(flag), _) => Err(format!("'{}' stands behind a verb", flag.name())),
        (None, Some(verb)) => parse_verb(verb, rest),
        (None, None) => Err(no_verb(first)),
    }
}

/// `--help` or `--version` in front.
fn parse_alone(flag: Flag, rest: &[OsString]) -> Result<Request, String> {
    let json = rest.iter().any(|word| word == Flag::Json.name());
    if let Some(other) = rest.iter().find(|word| *word != Flag::Json.name()) {
        let (name, other) = (flag.name(), shown(other));
        return Err(format!("'{name}' stands alone, not with '{other}'"));
    }
    Ok(match flag {
        Flag::Version => Request::Version { json },
        _ => Request::Help { verb: None, json },
    })
}

/// What stands behind a verb.
fn parse_verb(verb: Verb, rest: &[OsString]) -> Result<Request, String> {
    let given = split(verb, rest)?;
    let json = given.has(Flag::Json);
    if given.has(Flag::Help) {
        let verb = Some(verb);
        return Ok(Request::Help { verb, json });
    }
    let options = Options {
        json,
        bytes: given.has(Flag::Bytes),
        content: content(&given)?,
        launch: launch(&given)?,
    };
    request(verb, given.files, options)
}

/// What stands behind a verb: the options, each with its value if it takes one, and other words.
#[derive(Default)]
struct Given {
    options: Vec<(Flag, Option<String>)>,
    files: Vec<OsString>,
}

impl Given {
    fn has(&self, flag: Flag) -> bool {
        self.options.iter().any(|(given, _)| *given == flag)
    }

    /// The value of an option that may stand once.
    fn value(&self, flag: Flag) -> Result<Option<&str>, String> {
        let mut options = self.options.iter().filter(|(given, _)| *given == flag);
        match (options.next(), options.next()) {
            (_, Some(_)) => Err(format!("'{}' stands once at most", flag.name())),
            (option, None) => Ok(option.and_then(|(_, value)| value.as_deref())),
        }
    }
}

/// The options and the other words. Behind `--` no word is an option.
fn split(verb: Verb, rest: &[OsString]) -> Result<Given, String> {
    let mut given = Given::default();
    let mut words = rest.iter();
    while let Some(word) = words.next() {
        if word == "--" {
            given.files.extend(words.cloned());
            break;
        }
        if word.as_encoded_bytes().starts_with(b"-") && !files::is_input(word) {
            let option = option(verb, word, &mut words)?;
            given.options.push(option);
        } else {
            given.files.push(word.clone());
        }
    }
    Ok(given)
}

/// An option, and its value if it takes one: behind `=`, or the next word.
fn option<'w>(
    verb: Verb,
    word: &OsStr,
    next: &mut impl Iterator<Item = &'w OsString>,
) -> Result<(Flag, Option<String>), String> {
    // What is no text is replaced, and then names no option and is no value of one.
    let text = word.to_string_lossy();
    let (name, behind) = match text.split_once('=') {
        Some((name, value)) => (name, Some(value.to_string())),
        None => (&*text, None),
    };
    let is_right =
        |flag: &Flag| verb.flags().contains(flag) && (behind.is_none() || flag.takes().is_some());
    let Some(flag) = Flag::of(OsStr::new(name)).filter(is_right) else {
        return Err(no_option(verb, word));
    };
    let Some(takes) = flag.takes() else {
        return Ok((flag, None));
    };
    let value = behind.or_else(|| Some(next.next()?.to_string_lossy().into_owned()));
    let value = value.ok_or_else(|| format!("'{}' takes {takes}", flag.name()))?;
    Ok((flag, Some(value)))
}

fn content(given: &Given) -> Result<Content, String> {
    match (given.has(Flag::Hex), given.has(Flag::Raw)) {
        (true, true) => Err("either --hex or --raw, not both".to_string()),
        (true, false) => Ok(Content::Text),
        (false, true) => Ok(Content::Bytes),
        (false, false) => Ok(Content::Unsaid),
    }
}

fn launch(given: &Given) -> Result<Launch, String> {
    let Some(word) = given.value(Flag::Launch)? else {
        return Ok(Launch::Low);
    };
    Launch::of(word).ok_or_else(|| {
        let (name, word) = (Flag::Launch.name(), shown(OsStr::new(word)));
        format!("'{name}' takes {}, not '{word}'", launch::LABELS)
    })
}

/// The number of turns of a round.
fn turns(word: &OsStr) -> Result<Turns, String> {
    let turns = word.to_str().and_then(Turns::of);
    turns.ok_or_else(|| format!("TURNS is a number in decimal digits, not '{}'", shown(word)))
}

/// The request of a verb on files: so many as it takes, and standard input once at most.
fn request(verb: Verb, files: Vec<OsString>, options: Options) -> Result<Request, String> {
    let takes_files = !matches!(verb, Verb::Round | Verb::Help);
    if takes_files && files.iter().filter(|file| files::is_input(file)).count() > 1 {
        return Err("'-' is standard input, which can be read once".to_string());
    }
    match (verb, files.as_slice()) {
        (Verb::Check, [_, ..]) => Ok(Request::Check { files, options }),
        (Verb::Run, [book, events]) => Ok(Request::Run {
            book: book.clone(),
            events: events.clone(),
            options,
        }),
        (Verb::Round, [book, word]) => Ok(Request::Round {
            book: book.clone(),
            turns: turns(word)?,
            options,
        }),
        (Verb::List, [book]) => Ok(Request::List {
            book: book.clone(),
            options,
        }),
        (Verb::Events, [list]) => Ok(Request::Events {
            list: list.clone(),
            options,
        }),
        (Verb::Help, [] | [_]) => help_on(files.first(), options.json),
        _ => Err(wrong_count(verb)),
    }
}

fn help_on(word: Option<&OsString>, json: bool) -> Result<Request, String> {
    let verb = match word {
        Some(word) => Some(Verb::of(word).ok_or_else(|| no_verb(word))?),
        None => None,
    };
    Ok(Request::Help { verb, json })
}

fn wrong_count(verb: Verb) -> String {
    let (name, takes, usage) = (verb.name(), verb.takes(), help::usage(verb));
    format!("{name} takes {takes}\n{usage}")
}

/// A word as it is shown between quotes.
fn shown(word: &OsStr) -> String {
    String::from_utf8_lossy(&files::printable(word)).into_owned()
}

fn no_verb(word: &OsStr) -> String {
    let mut right: Vec<&str> = Verb::ALL.iter().map(|verb| verb.name()).collect();
    let verbs = right.join(", ");
    right.extend([Flag::Help, Flag::Version].map(Flag::name));
    let word = shown(word);
    let is_option = word.starts_with('-');
    let what = if is_option { "option" } else { "verb" };
    match nearest(&word, &right) {
        Some(near) => format!("no {what} '{word}': did you mean '{near}'?"),
        None => format!("no {what} '{word}': the verbs are {verbs}"),
    }
}

fn no_option(verb: Verb, word: &OsStr) -> String {
    let right: Vec<&str> = verb.options().collect();
    let (word, name) = (shown(word), verb.name());
    match nearest(&word, &right) {
        Some(near) => format!("no option '{word}': did you mean '{near}'?"),
        None => format!("no option '{word}': {name} has {}", right.join(", ")),
    }
}

#[cfg(test)]
mod tests;
