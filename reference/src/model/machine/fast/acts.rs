//! The acts of jobs and outsiders, and answer 3.

use super::super::event::Brought;
use super::{Cell, Fast, Job, Word, BLOCKED, CELL, CODE, DONE, NO_SUCH, PLAIN, TABLE};
use crate::model::book::Shape;

impl Fast<'_> {
    #[inline(always)]
    pub fn write(&mut self, label: u8, source: u8, cell: usize, value: Word) -> u8 {
        let cell = &mut self.cells[cell];
        if cell.label > label {
            return BLOCKED;
        }
        cell.value = Word {
            source: value.source.min(source),
            ..value
        };
        DONE
    }

    pub fn relabel(&mut self, label: u8, cell: usize, asked: u8) -> u8 {
        let cell = &mut self.cells[cell];
        if cell.label > label || asked > label {
            return BLOCKED;
        }
        cell.label = asked;
        DONE
    }

    #[inline(always)]
    pub fn make(&mut self, label: u8, source: u8, shape: u8, content: Word) -> u8 {
        if self.cells.len() == TABLE {
            return BLOCKED;
        }
        self.cells.push(Cell {
            shape,
            trust: self.book.trust_of(shape),
            label,
            value: Word {
                source: content.source.min(source),
                ..content
            },
        });
        DONE
    }

    pub fn exec(&mut self, label: u8, source: u8, cell: usize) -> u8 {
        let Cell {
            label: of_cell,
            value,
            ..
        } = self.cells[cell];
        if value.kind != CODE {
            return BLOCKED;
        }
        let lower = label.min(of_cell);
        let source = source.min(value.source).min(lower);
        self.begin(Job::new(value.number as u8, lower, source))
    }

    #[inline(always)]
    pub fn begin(&mut self, job: Job) -> u8 {
        if self.jobs.len() == TABLE {
            return BLOCKED;
        }
        self.jobs.push(job);
        DONE
    }

    pub fn write_by(&mut self, q: u8, cell: u8, value: Brought) -> u8 {
        if q > self.book.c || !self.has_cell(cell) || !self.may_bring(value) {
            return NO_SUCH;
        }
        self.write(q, q, cell.into(), word(q, value))
    }

    pub fn relabel_by(&mut self, q: u8, cell: u8, label: u8) -> u8 {
        if q > self.book.c || !self.has_cell(cell) || label > 15 {
            return NO_SUCH;
        }
        self.relabel(q, cell.into(), label)
    }

    pub fn new_by(&mut self, q: u8, shape: u8, value: Brought) -> u8 {
        let low = match self.book.shapes.get(usize::from(shape)) {
            Some(&Shape::Cell { trust, .. }) => trust <= self.book.c,
            _ => false,
        };
        if q > self.book.c || !low || !self.may_bring(value) {
            return NO_SUCH;
        }
        self.make(q, q, shape, word(q, value))
    }

    pub fn exec_by(&mut self, q: u8, cell: u8) -> u8 {
        if q > self.book.c || !self.has_cell(cell) {
            return NO_SUCH;
        }
        self.exec(q, q, cell.into())
    }

    pub fn start_by(&mut self, q: u8, block: u8) -> u8 {
        if q > self.book.c || usize::from(block) >= self.book.blocks.len() {
            return NO_SUCH;
        }
        self.begin(Job::new(block, q, q))
    }

    fn has_cell(&self, number: u8) -> bool {
        usize::from(number) < self.cells.len()
    }

    fn may_bring(&self, value: Brought) -> bool {
        let number = value.number as usize;
        match value.kind {
            PLAIN => true,
            CELL => number < self.cells.len(),
            CODE => number < self.book.blocks.len(),
            _ => false,
        }
    }
}

fn word(q: u8, value: Brought) -> Word {
    Word {
        number: value.number,
        kind: value.kind,
        source: q,
    }
}
