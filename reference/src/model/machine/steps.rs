//! The step of a job.

use super::acts::Act;
use super::cause::{Cause, Why};
use super::event::STEP;
use super::history::History;
use super::state::{Actor, Datum, Job, Machine, Value};
use crate::model::book::Step;

impl Job {
    fn actor(&self) -> Actor {
        Actor {
            label: self.label,
            history: self.history,
        }
    }

    /// The cell that a register is.
    fn cell_in(&self, register: u8) -> Result<usize, Why> {
        match self.register(register).datum {
            Datum::Cell(number) => Ok(number),
            _ => Err(Why::NotACell),
        }
    }

    fn plain_in(&self, register: u8) -> Option<u32> {
        match self.register(register).datum {
            Datum::Plain(number) => Some(number),
            _ => None,
        }
    }

    fn set(&mut self, r: u8, value: Value) {
        self.registers[usize::from(r)] = value;
    }

    /// "put, name, code: a value with the job's history."
    fn fresh(&mut self, r: u8, datum: Datum) {
        let history = self.history;
        self.set(r, Value { datum, history });
    }

    /// "add: blocked unless both are plain; the sum modulo 4,294,967,296; both histories, then
    /// the act.", amended by 02, Two: "add is blocked when the exact sum is 4,294,967,296 or
    /// more."
    fn add(&mut self, r: u8, a: u8, b: u8) -> Act {
        let first = self.plain_in(a).ok_or(Why::FirstNotPlain)?;
        let second = self.plain_in(b).ok_or(Why::SecondNotPlain)?;
        let exact = first.checked_add(second).ok_or(Why::SumPassesTop)?;
        let both = self.register(a).history.with(self.register(b).history);
        let sum = Value {
            datum: Datum::Plain(exact),
            history: both,
        };
        self.set(r, sum.after(self.history));
        Ok(())
    }

    /// 02, Four: "it starts the first block if r is plain and not 0, the second if r is plain 0, and
    /// is blocked otherwise". It gives the block. What is started has "the chooser's label, and its
    /// history is the chooser's alone": that of r plays no part.
    fn choice(&self, r: u8, first: u8, second: u8) -> Result<u8, Why> {
        match self.plain_in(r) {
            None => Err(Why::NotPlain),
            Some(0) => Ok(second),
            Some(_) => Ok(first),
        }
    }

    /// "lower Q: blocked if Q is above the job's label; else the label is Q, appended to the
    /// job's history."
    fn lower(&mut self, label: u8) -> Act {
        if label > self.label {
            return Err(Why::LabelAbove);
        }
        self.label = label;
        self.history = self.history.with(History::of(label));
        Ok(())
    }
}

impl Machine<'_> {
    /// Event 80. A blocked step is not done: the position stays.
    pub fn step(&mut self, number: usize) -> Cause {
        let Some(job) = self.jobs.get(number) else {
            let why = Some(Why::NoJob);
            return Cause { kind: STEP, why };
        };
        let Some(&step) = self.book.blocks[job.block].steps.get(job.position) else {
            let why = Some(Why::NoStepLeft);
            return Cause { kind: STEP, why };
        };
        let done = self.perform(number, step);
        if done.is_ok() {
            self.jobs[number].position += 1;
        }
        Cause {
            kind: step.kind(),
            why: done.err(),
        }
    }

    fn perform(&mut self, number: usize, step: Step) -> Act {
        let job = &mut self.jobs[number];
        let actor = job.actor();
        match step {
            Step::Put { r, number } => job.fresh(r, Datum::Plain(number)),
            Step::Name { r, cell } => job.fresh(r, Datum::Cell(cell.into())),
            Step::Code { r, block } => job.fresh(r, Datum::Code(block.into())),
            Step::Add { r, a, b } => job.add(r, a, b)?,
            Step::Lower { label } => job.lower(label)?,
            Step::New { r, shape, a } => {
                let content = job.register(a);
                let made = self.make(actor, shape, content)?;
                self.jobs[number].fresh(r, Datum::Cell(made));
            }
            Step::Read { r, w } => {
                let content = self.cells[job.cell_in(w)?].value;
                job.set(r, content.after(actor.history));
            }
            Step::Write { w, a } => {
                let (cell, value) = (job.cell_in(w)?, job.register(a));
                self.write(actor, cell, value)?;
            }
            Step::Relabel { w, label } => {
                let cell = job.cell_in(w)?;
                self.relabel(actor, cell, label)?;
            }
            Step::Start { block } => self.start(actor, block.into())?,
            Step::Exec { w } => {
                let cell = job.cell_in(w)?;
                self.exec(actor, cell)?;
            }
            Step::Choose { r, first, second } => {
                let block = job.choice(r, first, second)?;
                self.start(actor, block.into())?;
            }
        }
        Ok(())
    }
}
