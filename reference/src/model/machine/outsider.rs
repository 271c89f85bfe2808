//! Events, and answer 3: "Answer 3 comes first and changes nothing".

use super::acts::Act;
use super::cause::{Cause, Why};
use super::event::{Brought, Event, EXEC, NEW, RELABEL, START, WRITE};
use super::history::History;
use super::state::{Actor, Datum, Machine, Value};
use crate::model::book::{Shape, CELL_VALUE, CODE_VALUE, PLAIN_VALUE};

impl Machine<'_> {
    /// Takes one event.
    pub fn take(&mut self, event: Event) -> Cause {
        let (kind, act) = match event {
            Event::Step { job } => return self.step(job.into()),
            Event::Write { q, cell, value } => (WRITE, self.write_by(q, cell, value)),
            Event::Relabel { q, cell, label } => (RELABEL, self.relabel_by(q, cell, label)),
            Event::New { q, shape, value } => (NEW, self.new_by(q, shape, value)),
            Event::Exec { q, cell } => (EXEC, self.exec_by(q, cell)),
            Event::Start { q, block } => (START, self.start_by(q, block)),
        };
        Cause {
            kind,
            why: act.err(),
        }
    }

    fn write_by(&mut self, q: u8, cell: u8, value: Brought) -> Act {
        let actor = self.outsider(q)?;
        let cell = self.existing_cell(cell)?;
        let value = self.brought(actor, value)?;
        self.write(actor, cell, value)
    }

    fn relabel_by(&mut self, q: u8, cell: u8, label: u8) -> Act {
        let actor = self.outsider(q)?;
        let cell = self.existing_cell(cell)?;
        if label > 15 {
            return Err(Why::LabelAbove15);
        }
        self.relabel(actor, cell, label)
    }

    fn new_by(&mut self, q: u8, shape: u8, value: Brought) -> Act {
        let actor = self.outsider(q)?;
        self.check_shape(shape)?;
        let value = self.brought(actor, value)?;
        self.make(actor, shape, value)?;
        Ok(())
    }

    fn exec_by(&mut self, q: u8, cell: u8) -> Act {
        let actor = self.outsider(q)?;
        let cell = self.existing_cell(cell)?;
        self.exec(actor, cell)
    }

    fn start_by(&mut self, q: u8, block: u8) -> Act {
        let actor = self.outsider(q)?;
        let block = usize::from(block);
        if block >= self.book.blocks.len() {
            return Err(Why::NoBlock);
        }
        self.start(actor, block)
    }

    /// "their history is Q". Q is at most C, hence at most 14.
    fn outsider(&self, q: u8) -> Result<Actor, Why> {
        if q > self.book.c {
            return Err(Why::QAboveC);
        }
        Ok(Actor {
            label: q,
            history: History::of(q),
        })
    }

    fn existing_cell(&self, number: u8) -> Result<usize, Why> {
        let number = usize::from(number);
        if number >= self.cells.len() {
            return Err(Why::NoCell);
        }
        Ok(number)
    }

    /// "event 83 with a shape that is no cell shape or has trust above C".
    fn check_shape(&self, number: u8) -> Act {
        match self.book.shapes.get(usize::from(number)) {
            None => Err(Why::NoShape),
            Some(Shape::Cell { trust, .. }) if *trust > self.book.c => Err(Why::TrustAboveC),
            Some(Shape::Cell { .. }) => Ok(()),
            Some(_) => Err(Why::NotACellShape),
        }
    }

    /// "their history is Q, which is also the history of the value they bring."
    fn brought(&self, actor: Actor, value: Brought) -> Result<Value, Why> {
        let number = value.number as usize;
        let datum = match value.kind {
            PLAIN_VALUE => Datum::Plain(value.number),
            CELL_VALUE if number < self.cells.len() => Datum::Cell(number),
            CELL_VALUE => return Err(Why::ValueNamesNoCell),
            CODE_VALUE if number < self.book.blocks.len() => Datum::Code(number),
            CODE_VALUE => return Err(Why::ValueNamesNoBlock),
            _ => return Err(Why::ValueKindAbove2),
        };
        let history = actor.history;
        Ok(Value { datum, history })
    }
}
