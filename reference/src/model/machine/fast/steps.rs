//! The step of a job.

use super::{Fast, Job, Word, BLOCKED, CELL, CODE, DONE, NO_STEP_LEFT, NO_SUCH, PLAIN};
use crate::model::book::Step;

impl Job {
    fn word(&self, register: u8) -> Word {
        self.registers[usize::from(register)]
    }

    fn put(&mut self, register: u8, kind: u8, number: u32, source: u8) -> u8 {
        self.registers[usize::from(register)] = Word {
            number,
            kind,
            source,
        };
        DONE
    }

    #[inline(always)]
    fn add(&mut self, r: u8, a: u8, b: u8) -> u8 {
        let (a, b) = (self.word(a), self.word(b));
        if a.kind != PLAIN || b.kind != PLAIN {
            return BLOCKED;
        }
        let Some(sum) = a.number.checked_add(b.number) else {
            return BLOCKED;
        };
        let source = a.source.min(b.source).min(self.source);
        self.put(r, PLAIN, sum, source)
    }

    fn lower(&mut self, label: u8) -> u8 {
        if label > self.label {
            return BLOCKED;
        }
        self.label = label;
        self.source = self.source.min(label);
        DONE
    }
}

impl Fast<'_> {
    #[inline(always)]
    pub fn step(&mut self, number: usize) -> u8 {
        let Some(job) = self.jobs.get(number) else {
            return NO_SUCH;
        };
        let steps = &self.book.blocks[usize::from(job.block)].steps;
        let Some(&step) = steps.get(usize::from(job.position)) else {
            return NO_STEP_LEFT;
        };
        let answer = self.perform(number, step);
        self.jobs[number].position += u8::from(answer == DONE);
        answer
    }

    #[inline(always)]
    fn perform(&mut self, number: usize, step: Step) -> u8 {
        let job = &mut self.jobs[number];
        let (label, source) = (job.label, job.source);
        match step {
            Step::Put { r, number } => job.put(r, PLAIN, number, source),
            Step::Name { r, cell } => job.put(r, CELL, cell.into(), source),
            Step::Code { r, block } => job.put(r, CODE, block.into(), source),
            Step::Add { r, a, b } => job.add(r, a, b),
            Step::Lower { label } => job.lower(label),
            Step::Start { block } => self.begin(Job::new(block, label, source)),
            Step::Choose { r, first, second } => match job.word(r) {
                Word {
                    kind: PLAIN,
                    number,
                    ..
                } => {
                    let block = if number == 0 { second } else { first };
                    self.begin(Job::new(block, label, source))
                }
                _ => BLOCKED,
            },
            Step::New { r, shape, a } => self.new_step(number, r, shape, a),
            Step::Read { w, .. }
            | Step::Write { w, .. }
            | Step::Relabel { w, .. }
            | Step::Exec { w } => match job.word(w) {
                Word {
                    kind: CELL,
                    number: cell,
                    ..
                } => self.with_cell(number, cell as usize, step),
                _ => BLOCKED,
            },
        }
    }

    #[inline(always)]
    fn new_step(&mut self, number: usize, r: u8, shape: u8, a: u8) -> u8 {
        let job = &self.jobs[number];
        let (label, source, content) = (job.label, job.source, job.word(a));
        let made = self.cells.len() as u32;
        if self.make(label, source, shape, content) == BLOCKED {
            return BLOCKED;
        }
        self.jobs[number].put(r, CELL, made, source)
    }

    /// The steps that go through a register w, which is this cell.
    #[inline(always)]
    fn with_cell(&mut self, number: usize, cell: usize, step: Step) -> u8 {
        let job = &mut self.jobs[number];
        let (label, source) = (job.label, job.source);
        match step {
            Step::Read { r, .. } => {
                let value = self.cells[cell].value;
                job.put(r, value.kind, value.number, value.source.min(source))
            }
            Step::Write { a, .. } => {
                let value = job.word(a);
                self.write(label, source, cell, value)
            }
            Step::Relabel { label: asked, .. } => self.relabel(label, cell, asked),
            _ => self.exec(label, source, cell),
        }
    }
}
