//! What the records of the tables hold.

use std::fmt;

/// How many registers a job has.
pub const REGISTERS: usize = 8;

/// An integrity label, 0 to 15; higher is more trusted.
#[derive(Clone, Copy, Debug, PartialEq, Eq, PartialOrd, Ord, Hash)]
pub struct Label(pub u8);

/// A cell's trust, 0 to 15, which its shape fixes. It is counted apart from labels.
#[derive(Clone, Copy, Debug, PartialEq, Eq, PartialOrd, Ord, Hash)]
pub struct Trust(pub u8);

impl Trust {
    /// The label is at least this trust.
    pub fn is_met(self, label: Label) -> bool {
        self.0 <= label.0
    }
}

impl fmt::Display for Label {
    fn fmt(&self, out: &mut fmt::Formatter<'_>) -> fmt::Result {
        self.0.fmt(out)
    }
}

impl fmt::Display for Trust {
    fn fmt(&self, out: &mut fmt::Formatter<'_>) -> fmt::Result {
        self.0.fmt(out)
    }
}

/// What a value's number is: plain, or the number of a cell or of a block.
#[derive(Clone, Copy, Debug, PartialEq, Eq, Hash)]
pub enum Kind {
    Plain,
    Cell,
    Code,
}

impl fmt::Display for Kind {
    fn fmt(&self, out: &mut fmt::Formatter<'_>) -> fmt::Result {
        out.write_str(match self {
            Kind::Plain => "plain",
            Kind::Cell => "cell",
            Kind::Code => "code",
        })
    }
}

/// A value. Its source is the lowest label of all that touched it.
#[derive(Clone, Copy, Debug, PartialEq, Eq, Hash)]
pub struct Value {
    pub kind: Kind,
    pub number: u32,
    pub source: Label,
}

/// A cell of a run.
#[derive(Clone, Copy, Debug, PartialEq, Eq, Hash)]
pub struct Cell {
    pub shape: u8,
    pub trust: Trust,
    pub label: Label,
    pub value: Value,
}

/// A job of a run. Its position is how many of its block's steps are done, and its source is the
/// lowest label of all that touched it.
#[derive(Clone, Copy, Debug, PartialEq, Eq, Hash)]
pub struct Job {
    pub block: u8,
    pub position: u8,
    pub label: Label,
    pub source: Label,
    pub registers: [Value; REGISTERS],
}
