//! Histories as sets of labels.

/// "a history: a list of labels". Kept as the set of them, a bit for each label: to append is to
/// unite, and the lowest label is the same.
#[derive(Clone, Copy, Debug, PartialEq, Eq)]
pub struct History(u16);

impl History {
    /// The history of one label, 0 to 15.
    pub fn of(label: u8) -> History {
        History(1 << label)
    }

    /// This history with another appended.
    pub fn with(self, other: History) -> History {
        History(self.0 | other.0)
    }

    /// "source, the lowest label of its history".
    pub fn source(self) -> u8 {
        self.0.trailing_zeros() as u8
    }
}
