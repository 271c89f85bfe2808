//! What a check answers.

use std::error::Error;
use std::fmt;

/// How much of each a book has.
#[derive(Clone, Copy, Debug, PartialEq, Eq)]
pub struct Counts {
    pub shapes: usize,
    pub cells: usize,
    pub blocks: usize,
    /// The steps of all blocks.
    pub steps: usize,
}

impl fmt::Display for Counts {
    fn fmt(&self, out: &mut fmt::Formatter<'_>) -> fmt::Result {
        write!(
            out,
            "accepted shapes {} cells {} blocks {} steps {}",
            self.shapes, self.cells, self.blocks, self.steps
        )
    }
}

/// Why a call was refused: the number that `include/xemdulba.h` explains, and the offset of the
/// first record at fault, in the event list for 9 and else in the book, also in one that is not
/// written.
#[derive(Clone, Copy, Debug, PartialEq, Eq)]
pub struct Refusal {
    pub number: u32,
    pub place: usize,
}

/// What the rules say, from refusal 1 on.
const RULES: [&str; 15] = [
    "the book is longer than 32768 bytes",
    "a kind is none of the format's, or the book ends inside a record",
    "the first record is missing or not C, a record is out of order, or no block stands",
    "a record is beyond 32 shapes, 32 cells, 64 blocks or 64 steps in a block",
    "a label, bound or trust is above 15, C above 14, a register above 7, or a value kind above 2",
    "a content shape is not lower-numbered than its cell shape, a cell or new names no cell shape, \
     or a cell or block number does not exist",
    "a cell declaration breaks its typing rule",
    "a step breaks its typing rule",
    "the event list is longer than 65536 bytes, an event's kind is unknown, or the list ends inside \
     an event",
    "the cell table has not exactly 576 bytes, or the job table not exactly 3328",
    "the answer buffer has fewer bytes than the list has events, or than a round is given turns",
    "the block asked for does not exist",
    "the output buffer is too short",
    "the launch label is above block 0's bound",
    "a round is given more than 4096 turns",
];

impl Refusal {
    /// What the rule of its number says, in words. The library gives no number but 1 to 15.
    ///
    /// ```
    /// let refusal = xemdulba::check(&[1, 3]).unwrap_err();
    /// assert_eq!((refusal.number, refusal.place), (3, 2));
    /// assert!(refusal.rule().ends_with("no block stands"));
    /// ```
    pub fn rule(&self) -> &'static str {
        let number = (self.number as usize).checked_sub(1);
        let rule = number.and_then(|number| RULES.get(number));
        rule.copied().unwrap_or("no refusal has this number")
    }

    /// The refusal that the library states, if it is one: number 0 is none.
    pub(crate) fn stated(number: u32, place: u32) -> Result<(), Refusal> {
        match number {
            0 => Ok(()),
            _ => Err(Refusal {
                number,
                place: place as usize,
            }),
        }
    }
}

impl fmt::Display for Refusal {
    fn fmt(&self, out: &mut fmt::Formatter<'_>) -> fmt::Result {
        write!(out, "refused {} at {}", self.number, self.place)
    }
}

impl Error for Refusal {}
