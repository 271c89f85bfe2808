//! The verbs and the options.

use crate::launch;
use std::ffi::OsStr;

#[derive(Clone, Copy, Debug, PartialEq, Eq)]
pub enum Verb {
    Check,
    Run,
    Round,
    List,
    Events,
    Help,
}

impl Verb {
    pub const ALL: [Verb; 6] = [
        Verb::Check,
        Verb::Run,
        Verb::Round,
        Verb::List,
        Verb::Events,
        Verb::Help,
    ];

    pub fn name(self) -> &'static str {
        match self {
            Verb::Check => "check",
            Verb::Run => "run",
            Verb::Round => "round",
            Verb::List => "list",
            Verb::Events => "events",
            Verb::Help => "help",
        }
    }

    pub fn of(word: &OsStr) -> Option<Verb> {
        Verb::ALL.into_iter().find(|verb| word == verb.name())
    }

    /// The names of its options.
    pub fn options(self) -> impl Iterator<Item = &'static str> {
        self.flags().iter().map(|flag| flag.name())
    }

    pub fn flags(self) -> &'static [Flag] {
        match self {
            Verb::Check => &[Flag::Json, Flag::Hex, Flag::Raw, Flag::Help],
            Verb::Run | Verb::Round => {
                &[Flag::Launch, Flag::Json, Flag::Hex, Flag::Raw, Flag::Help]
            }
            Verb::List | Verb::Events => {
                &[Flag::Json, Flag::Bytes, Flag::Hex, Flag::Raw, Flag::Help]
            }
            Verb::Help => &[Flag::Json, Flag::Help],
        }
    }

    /// What it takes beside options.
    pub fn takes(self) -> &'static str {
        match self {
            Verb::Check => "one file or more",
            Verb::Run => "two files, BOOK and EVENTS",
            Verb::Round => "a file and a number, BOOK and TURNS",
            Verb::List | Verb::Events => "one file",
            Verb::Help => "one verb or none",
        }
    }
}

/// An option.
#[derive(Clone, Copy, Debug, PartialEq, Eq)]
pub enum Flag {
    Launch,
    Json,
    Bytes,
    Hex,
    Raw,
    Help,
    Version,
}

impl Flag {
    const ALL: [Flag; 7] = [
        Flag::Launch,
        Flag::Json,
        Flag::Bytes,
        Flag::Hex,
        Flag::Raw,
        Flag::Help,
        Flag::Version,
    ];

    pub fn name(self) -> &'static str {
        match self {
            Flag::Launch => "--launch",
            Flag::Json => "--json",
            Flag::Bytes => "--bytes",
            Flag::Hex => "--hex",
            Flag::Raw => "--raw",
            Flag::Help => "--help",
            Flag::Version => "--version",
        }
    }

    /// What value it takes, in words, if it takes one.
    pub fn takes(self) -> Option<&'static str> {
        (self == Flag::Launch).then_some(launch::LABELS)
    }

    pub fn of(word: &OsStr) -> Option<Flag> {
        match word.to_str() {
            Some("-h") => Some(Flag::Help),
            Some("-V") => Some(Flag::Version),
            _ => Flag::ALL.into_iter().find(|flag| word == flag.name()),
        }
    }
}
