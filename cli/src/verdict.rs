//! A verdict in words, and as an object.

use crate::answer::Status;
use crate::fault::Fault;
use crate::files::Failure;
use crate::json::{Json, Pairs};
use crate::layout::Layout;
use crate::lines::lines;
use crate::turns::Turns;
use std::ffi::OsStr;
use std::fmt;
use xemdulba::{Counts, Label, Refusal};

/// A refusal, what the rule says, and the record at fault.
#[derive(Debug, PartialEq, Eq)]
pub struct Told {
    pub fault: Fault,
    record: String,
}

impl Told {
    /// The words of a refusal of these bytes.
    pub fn of(layout: &'static Layout, bytes: &[u8], refusal: Refusal) -> Told {
        let fault = Fault::of(layout, bytes, refusal);
        let mut lines = lines(layout, bytes, Some(fault));
        let line = lines.find(|line| line.offset == refusal.place);
        let record = line.map_or(String::new(), |line| line.sentence());
        Told { fault, record }
    }

    /// The words of a refusal of a launch label, by the bound that it is above.
    pub fn of_launch(refusal: Refusal, label: Label, bound: Label) -> Told {
        let rule = refusal.rule();
        Told {
            fault: Fault { refusal, rule },
            record: format!("launch label {label}, bound {bound}"),
        }
    }

    /// The words of a refusal of a number of turns.
    pub fn of_turns(refusal: Refusal, turns: &Turns) -> Told {
        let rule = refusal.rule();
        Told {
            fault: Fault { refusal, rule },
            record: format!("turns {turns}"),
        }
    }

    /// The keys that an object has of it.
    pub fn pairs(&self) -> Pairs {
        let Refusal { number, place } = self.fault.refusal;
        vec![
            ("refusal", number.into()),
            ("place", place.into()),
            ("rule", self.fault.rule.into()),
            ("record", self.record.as_str().into()),
        ]
    }
}

impl fmt::Display for Told {
    fn fmt(&self, out: &mut fmt::Formatter<'_>) -> fmt::Result {
        let Fault { refusal, rule } = self.fault;
        write!(out, "{refusal}: {rule}: {}", self.record)
    }
}

/// A verdict: what was counted, or a refusal.
pub type Verdict<C> = Result<C, Told>;

/// What was counted, in words and by name.
pub trait Counted: fmt::Display {
    fn pairs(&self) -> Pairs;
}

impl Counted for Counts {
    fn pairs(&self) -> Pairs {
        vec![
            ("shapes", self.shapes.into()),
            ("cells", self.cells.into()),
            ("blocks", self.blocks.into()),
            ("steps", self.steps.into()),
        ]
    }
}

/// The line of a verdict, without the words of a refusal.
pub fn line<C: Counted>(verdict: &Verdict<C>) -> String {
    match verdict {
        Ok(counts) => counts.to_string(),
        Err(told) => told.fault.refusal.to_string(),
    }
}

/// A verdict as the keys of an object.
pub fn pairs<C: Counted>(file: &OsStr, verdict: &Verdict<C>) -> Pairs {
    let (word, more) = match verdict {
        Ok(counts) => ("accepted", counts.pairs()),
        Err(told) => ("refused", told.pairs()),
    };
    let mut pairs = vec![("file", file.into()), ("verdict", word.into())];
    pairs.extend(more);
    pairs
}

/// No verdict, and why, as the keys of an object.
pub fn no_pairs(file: &OsStr, failure: &Failure) -> Pairs {
    let mut pairs = vec![("file", file.into()), ("verdict", Json::Null)];
    pairs.extend(failure.pairs());
    pairs
}

/// The exit status of a verdict.
pub fn status<C>(verdict: &Verdict<C>) -> Status {
    match verdict {
        Ok(_) => Status::Good,
        Err(_) => Status::Refused,
    }
}

#[cfg(test)]
mod tests;
