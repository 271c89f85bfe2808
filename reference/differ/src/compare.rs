//! Two implementations on the same inputs by chance.

use reference::cases::differ;
use reference::cases::rounds::{self, Round};
use reference::cases::runs::Run;
use reference::cases::writes::{self, Write, Written};
use reference::model::book::Refusal;
use reference::model::machine::{Chooser, Lent, Outcome, Rounder, Runner};
use reference::model::writer::Writer;
use reference::Verdict;
use std::fmt;

/// What was compared: how many inputs were refused by each number, 0 standing for none, and how
/// many events or turns were answered by each of 0 to 3.
#[derive(Default)]
pub struct Tally {
    refusals: [usize; 16],
    answers: [usize; 4],
}

impl Tally {
    fn count_refusal(&mut self, number: u8) {
        self.refusals[usize::from(number)] += 1;
    }

    pub fn count_verdict(&mut self, verdict: &Verdict) {
        self.count_refusal(match verdict {
            Verdict::Accepted { .. } => 0,
            Verdict::Refused { number, .. } => *number,
        });
    }

    pub fn count_run(&mut self, (outcome, [_, _, answers]): &Side) {
        let refusal = outcome.as_ref().err();
        self.count_refusal(refusal.map_or(0, |refusal| refusal.number));
        self.count_answers(answers);
    }

    /// The answers of the turns used.
    pub fn count_round(&mut self, (outcome, [_, _, answers]): &rounds::Side) {
        match outcome {
            Ok(rounded) => {
                self.count_refusal(0);
                self.count_answers(&answers[..rounded.turns]);
            }
            Err(refusal) => self.count_refusal(refusal.number),
        }
    }

    pub fn count_write(&mut self, (written, _): &Written) {
        let refusal = written.as_ref().err();
        self.count_refusal(refusal.map_or(0, |refusal| refusal.number));
    }

    /// How many were compared.
    pub fn count(&self) -> usize {
        self.refusals.iter().sum()
    }

    /// Bytes beyond the events are no answers: they hold what they held before.
    fn count_answers(&mut self, answers: &[u8]) {
        for &answer in answers {
            if let Some(count) = self.answers.get_mut(usize::from(answer)) {
                *count += 1;
            }
        }
    }
}

impl fmt::Display for Tally {
    fn fmt(&self, out: &mut fmt::Formatter<'_>) -> fmt::Result {
        write!(out, "{} not refused", self.refusals[0])?;
        for (number, count) in self.refusals.iter().enumerate().skip(1) {
            if *count > 0 {
                write!(out, ", {count} by {number}")?;
            }
        }
        if self.answers != [0; 4] {
            write!(out, "; answers 0 to 3: {:?}", self.answers)?;
        }
        Ok(())
    }
}

/// The first input on which the two differ, and what each gives, in words.
#[derive(Debug)]
pub struct Difference(pub String);

/// Compares so many runs: what each answers, and all the lent memory.
pub fn runs(seed: u64, count: usize, one: Runner, other: Runner) -> Result<Tally, Difference> {
    let mut tally = Tally::default();
    let found = differ::differ(seed, count, one, other, |outcome| tally.count_run(outcome));
    found.map_or(Ok(tally), |found| {
        Err(different_run(
            found.number,
            &found.run,
            &found.one,
            &found.other,
        ))
    })
}

/// A way to make a round, and one to run a list.
pub type Turning = (Rounder, Runner);

/// Compares so many rounds by chance.
pub fn rounds(seed: u64, count: usize, one: Turning, other: Chooser) -> Result<Tally, Difference> {
    some_rounds(differ::rounds(seed).take(count), one, other)
}

/// Compares what each gives for these rounds, and all the lent memory. Then the same of the run on
/// the steps that the other chose.
pub fn some_rounds(
    all: impl Iterator<Item = Round>,
    (rounder, runner): Turning,
    other: Chooser,
) -> Result<Tally, Difference> {
    let mut tally = Tally::default();
    for (number, round) in all.enumerate() {
        let (other, jobs) = rounds::chosen(other, &round);
        let one = rounds::outcome(rounder, &round);
        if one != other {
            return Err(different_round(number, &round, "round", &one, &other));
        }
        if other.0.is_ok() {
            let one = rounds::outcome_of_steps(runner, &round, &jobs);
            if one != other {
                return Err(different_round(number, &round, "run", &one, &other));
            }
        }
        tally.count_round(&other);
    }
    Ok(tally)
}

/// What a book is answered: the verdict, and the offset and length of a block's stretch.
pub type Checked = (Verdict, Result<(usize, usize), Refusal>);

/// Asks for both, the stretch of the block of this number.
pub type Checker = fn(&[u8], usize) -> Checked;

/// The blocks asked for in turn; the last two never exist.
pub const ASKED_BLOCKS: usize = 66;

/// Compares so many books.
pub fn books(seed: u64, count: usize, one: Checker, other: Checker) -> Result<Tally, Difference> {
    let mut tally = Tally::default();
    for (number, book) in differ::books(seed).take(count).enumerate() {
        let block = number % ASKED_BLOCKS;
        let (one, other) = (one(&book, block), other(&book, block));
        if one != other {
            let book = hex(&book);
            return Err(Difference(format!(
                "number {number}\nbook {book}\nblock {block}\none {one:?}\nother {other:?}"
            )));
        }
        tally.count_verdict(&one.0);
    }
    Ok(tally)
}

/// Compares so many tables by chance.
pub fn tables(seed: u64, count: usize, one: Writer, other: Writer) -> Result<Tally, Difference> {
    writes(differ::tables(seed).take(count), one, other)
}

/// Compares what each writer gives for these, and all of the buffer.
pub fn writes(
    all: impl Iterator<Item = Write>,
    one: Writer,
    other: Writer,
) -> Result<Tally, Difference> {
    let mut tally = Tally::default();
    for (number, write) in all.enumerate() {
        let (one, other) = (writes::outcome(one, &write), writes::outcome(other, &write));
        if one != other {
            return Err(different_write(number, &write, &one, &other));
        }
        tally.count_write(&one);
    }
    Ok(tally)
}

/// Tables that two write otherwise, in words.
fn different_write(number: usize, write: &Write, one: &Written, other: &Written) -> Difference {
    let tables = &write.tables;
    let written = |(written, out): &Written| format!("{written:?}\n  out {}", hex(out));
    Difference(format!(
        "number {number}\nc {}\nshapes {}\ncells {}\nblocks {}\nsteps {}\nlength {}\n\
         one {}\nother {}",
        tables.c,
        hex(&tables.shapes),
        hex(&tables.cells),
        hex(&tables.blocks),
        hex(&tables.steps),
        write.length,
        written(one),
        written(other)
    ))
}

/// A run that two answer otherwise, in words.
pub fn different_run(number: usize, run: &Run, one: &Side, other: &Side) -> Difference {
    Difference(format!(
        "number {number}\nbook {}\nlaunch {}\nevents {}\nlengths {:?}\none {}\nother {}",
        hex(&run.book),
        label(run.launch),
        hex(&run.events),
        run.lengths,
        side(one),
        side(other)
    ))
}

/// A round that two answer otherwise, in words, and which call of the first does.
fn different_round(
    number: usize,
    round: &Round,
    call: &str,
    one: &rounds::Side,
    other: &rounds::Side,
) -> Difference {
    Difference(format!(
        "number {number}\nbook {}\nlaunch {}\nturns {}\nlengths {:?}\nbefore {:?}\ncall {call}\n\
         one {}\nother {}",
        hex(&round.book),
        label(round.launch),
        round.turns,
        round.lengths,
        round.before,
        side(one),
        side(other)
    ))
}

/// What a run answers, and the lent memory after it.
type Side = (Outcome, Lent);

/// A launch label, or none.
fn label(launch: Option<u32>) -> String {
    launch.map_or("none".to_string(), |label| label.to_string())
}

fn side<T: fmt::Debug>((outcome, [cells, jobs, answers]): &(T, Lent)) -> String {
    let [cells, jobs, answers] = [cells, jobs, answers].map(|bytes| hex(bytes));
    format!("{outcome:?}\n  cells {cells}\n  jobs {jobs}\n  answers {answers}")
}

pub fn hex(bytes: &[u8]) -> String {
    bytes.iter().map(|byte| format!("{byte:02x}")).collect()
}
