//! The acts that jobs and outsiders share: "Outsider acts follow the same rules".

use super::cause::Why;
use super::history::History;
use super::state::{Actor, Cell, Datum, Job, Machine, Value};

pub type Act = Result<(), Why>;

impl Machine<'_> {
    /// "write: blocked unless w is a cell with label at most the job's; stores (an act)."
    pub fn write(&mut self, actor: Actor, cell: usize, value: Value) -> Act {
        let cell = &mut self.cells[cell];
        if cell.label > actor.label {
            return Err(Why::LabelAbove);
        }
        cell.value = value.after(actor.history);
        Ok(())
    }

    /// "relabel: blocked unless w is a cell and its old and new label are at most the job's."
    pub fn relabel(&mut self, actor: Actor, cell: usize, label: u8) -> Act {
        let cell = &mut self.cells[cell];
        if cell.label > actor.label {
            return Err(Why::LabelAbove);
        }
        if label > actor.label {
            return Err(Why::NewLabelAbove);
        }
        cell.label = label;
        Ok(())
    }

    /// "new: blocked when 64 cells exist; a cell with the job's label, the shape, the content (an
    /// act)". Gives the number of the new cell.
    pub fn make(&mut self, actor: Actor, shape: u8, content: Value) -> Result<usize, Why> {
        if self.cells_are_full() {
            return Err(Why::Full);
        }
        self.cells.push(Cell {
            shape,
            trust: self.book.trust_of(shape),
            label: actor.label,
            value: content.after(actor.history),
        });
        Ok(self.cells.len() - 1)
    }

    /// "exec: blocked unless w is a cell holding code and a job fits; a job at the lower of the
    /// two labels, history: caller's, code's, new label."
    pub fn exec(&mut self, actor: Actor, cell: usize) -> Act {
        let cell = self.cells[cell];
        let Datum::Code(block) = cell.value.datum else {
            return Err(Why::NotCode);
        };
        let label = actor.label.min(cell.label);
        let joined = actor.history.with(cell.value.history);
        self.begin(Job::new(block, label, joined.with(History::of(label))))
    }

    /// "start: blocked when 64 jobs exist; a job at this label with this history."
    pub fn start(&mut self, actor: Actor, block: usize) -> Act {
        self.begin(Job::new(block, actor.label, actor.history))
    }

    fn begin(&mut self, job: Job) -> Act {
        if self.jobs_are_full() {
            return Err(Why::Full);
        }
        self.jobs.push(job);
        Ok(())
    }
}
