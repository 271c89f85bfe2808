//! Why an event is answered as it is.

/// Why a step or an event is not done.
#[derive(Clone, Copy, Debug, PartialEq, Eq, PartialOrd, Ord)]
pub enum Why {
    /// The first or the second operand of add is not plain.
    FirstNotPlain,
    SecondNotPlain,
    /// Both are plain, and their exact sum is 4,294,967,296 or more.
    SumPassesTop,
    /// The register that choose looks at is not plain.
    NotPlain,
    /// The register is not a cell.
    NotACell,
    /// The cell does not hold code.
    NotCode,
    /// The cell's label, or the one asked for, is above the actor's.
    LabelAbove,
    NewLabelAbove,
    /// 64 cells or 64 jobs exist.
    Full,
    NoStepLeft,
    NoJob,
    NoCell,
    NoBlock,
    NoShape,
    NotACellShape,
    TrustAboveC,
    QAboveC,
    LabelAbove15,
    ValueKindAbove2,
    ValueNamesNoCell,
    ValueNamesNoBlock,
}

impl Why {
    fn answer(self) -> u8 {
        match self {
            Why::FirstNotPlain | Why::SecondNotPlain | Why::SumPassesTop => 1,
            Why::NotPlain | Why::NotACell | Why::NotCode => 1,
            Why::LabelAbove | Why::NewLabelAbove | Why::Full => 1,
            Why::NoStepLeft => 2,
            Why::NoJob | Why::NoCell | Why::NoBlock | Why::NoShape => 3,
            Why::NotACellShape | Why::TrustAboveC | Why::QAboveC => 3,
            Why::LabelAbove15 | Why::ValueKindAbove2 => 3,
            Why::ValueNamesNoCell | Why::ValueNamesNoBlock => 3,
        }
    }
}

/// The kind of the event, or of the step that a job stood at, and why it is not done.
#[derive(Clone, Copy, Debug, PartialEq, Eq, PartialOrd, Ord)]
pub struct Cause {
    pub kind: u8,
    pub why: Option<Why>,
}

impl Cause {
    /// "Answer bytes: 0 done, 1 blocked, 2 no step left, 3 no such."
    pub fn answer(self) -> u8 {
        self.why.map_or(0, Why::answer)
    }
}
