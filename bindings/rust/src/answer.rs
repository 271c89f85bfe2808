//! What an event of a run or a turn of a round is answered.

/// The answer to an event, or to a turn, which has the first two alone. All but `Done` change
/// nothing.
#[derive(Clone, Copy, Debug, PartialEq, Eq, Hash)]
pub enum Answer {
    Done,
    /// The job may be stepped again later.
    Blocked,
    /// The job has done all its block's steps.
    NoStepLeft,
    /// The event names something that does not exist, or that outsiders may not have.
    NoSuch,
}

impl Answer {
    /// What an answer byte says; only 0 to 3 are answers.
    pub fn of(byte: u8) -> Option<Answer> {
        match byte {
            0 => Some(Answer::Done),
            1 => Some(Answer::Blocked),
            2 => Some(Answer::NoStepLeft),
            3 => Some(Answer::NoSuch),
            _ => None,
        }
    }

    /// Its byte.
    pub fn byte(self) -> u8 {
        match self {
            Answer::Done => 0,
            Answer::Blocked => 1,
            Answer::NoStepLeft => 2,
            Answer::NoSuch => 3,
        }
    }
}
