//! The rule of each step, and that of a declared cell.

use super::shapes::Shapes;
use super::state::{Known, Register, State};
use crate::model::book::{Book, DeclaredCell, Step, CELL_VALUE, PLAIN_VALUE};

/// What a step's rule says: it passes and the state is the next one, or it is stuck, or it
/// breaks its rule.
#[derive(Clone, Copy, Debug, PartialEq, Eq, Hash)]
pub enum Outcome {
    Passes,
    Stuck,
    Breaks,
}

/// The rules for one readable book.
#[derive(Clone, Copy)]
pub struct Rules<'b> {
    pub book: &'b Book,
    pub shapes: Shapes<'b>,
}

fn passes_if(sound: bool) -> Outcome {
    if sound {
        Outcome::Passes
    } else {
        Outcome::Breaks
    }
}

impl<'b> Rules<'b> {
    pub fn new(book: &'b Book) -> Rules<'b> {
        let shapes = Shapes::of(book);
        Rules { book, shapes }
    }

    /// "A declared cell of trust above C needs label at least trust and a fitting value. Others
    /// need nothing."
    pub fn cell_is_sound(self, cell: &DeclaredCell) -> bool {
        let (content, trust) = self.shapes.cell(cell.shape);
        let fits = || self.shapes.fits(self.declared_value(cell), content);
        self.shapes.is_low(trust) || (cell.label >= trust && fits())
    }

    /// "value kind (0 plain, 1 cell, 2 code), number (for kinds 1 and 2 the cell or block
    /// number)".
    fn declared_value(self, cell: &DeclaredCell) -> Known {
        let number = cell.number as usize;
        match cell.value_kind {
            PLAIN_VALUE => Known::Plain,
            CELL_VALUE => Known::CellOf(self.book.cells[number].shape),
            _ => Known::Code(self.book.blocks[number].bound),
        }
    }

    /// "P begins as the bound. Each register has a known shape and an effect; at the start plain
    /// and P."
    pub fn start(self, bound: u8) -> State {
        State {
            p: bound,
            registers: [self.result(Known::Plain, bound); 8],
            lowered: false,
        }
    }

    /// "Low effect means unknown shape."
    fn result(self, shape: Known, effect: u8) -> Register {
        if self.shapes.is_low(effect) {
            Register::LOW
        } else {
            Register { shape, effect }
        }
    }

    pub fn step(self, state: &mut State, step: Step) -> Outcome {
        match step {
            Step::Lower { label } => self.lower(state, label),
            _ if self.shapes.is_low(state.p) => self.low_step(state, step),
            _ => self.high_step(state, step),
        }
    }

    /// "lower Q, at every P: stuck if Q is above both P and C; else P is Q."
    fn lower(self, state: &mut State, label: u8) -> Outcome {
        if label > state.p && !self.shapes.is_low(label) {
            return Outcome::Stuck;
        }
        state.p = label;
        state.lowered = true;
        Outcome::Passes
    }

    /// "With P at or below C every step passes, except new with trust above C; results are low."
    fn low_step(self, state: &mut State, step: Step) -> Outcome {
        match step {
            Step::New { shape, .. } if !self.shapes.is_low(self.shapes.cell(shape).1) => {
                return Outcome::Breaks;
            }
            Step::Put { r, .. }
            | Step::Name { r, .. }
            | Step::Code { r, .. }
            | Step::Add { r, .. }
            | Step::New { r, .. }
            | Step::Read { r, .. } => state.set(r, Register::LOW),
            _ => {}
        }
        Outcome::Passes
    }

    fn high_step(self, state: &mut State, step: Step) -> Outcome {
        match step {
            Step::Put { r, .. } => self.fresh(state, r, Known::Plain),
            Step::Name { r, cell } => {
                let shape = self.book.cells[usize::from(cell)].shape;
                self.fresh(state, r, Known::CellOf(shape))
            }
            Step::Code { r, block } => {
                let bound = self.book.blocks[usize::from(block)].bound;
                self.fresh(state, r, Known::Code(bound))
            }
            Step::Add { r, a, b } => self.add(state, r, a, b),
            Step::New { r, shape, a } => self.new_cell(state, r, shape, a),
            Step::Read { r, w } => self.read(state, r, w),
            Step::Write { w, a } => self.write(state, w, a),
            Step::Relabel { w, label } => self.relabel(state, w, label),
            Step::Lower { label } => self.lower(state, label),
            Step::Start { block } => passes_if(self.reaches(state, block)),
            Step::Exec { w } => self.exec(state, w),
            Step::Choose { r, first, second } => self.choose(state, r, first, second),
        }
    }

    /// "put, name, code: effect P."
    fn fresh(self, state: &mut State, r: u8, shape: Known) -> Outcome {
        state.set(r, self.result(shape, state.p));
        Outcome::Passes
    }

    /// "operands of effect above C must be plain".
    fn plain_or_low(self, operand: Register) -> bool {
        self.shapes.is_low(operand.effect) || operand.shape == Known::Plain
    }

    /// "add: operands of effect above C must be plain; least effect."
    fn add(self, state: &mut State, r: u8, a: u8, b: u8) -> Outcome {
        let (a, b) = (state.register(a), state.register(b));
        if !self.plain_or_low(a) || !self.plain_or_low(b) {
            return Outcome::Breaks;
        }
        let least = state.used(a).min(state.used(b));
        state.set(r, self.result(Known::Plain, least));
        Outcome::Passes
    }

    /// "new: low trust passes; otherwise an earlier lower must stand in the block, the content
    /// fits, and trust is at most its used effect. Result effect P."
    fn new_cell(self, state: &mut State, r: u8, shape: u8, a: u8) -> Outcome {
        let (content, trust) = self.shapes.cell(shape);
        let a = state.register(a);
        let sound = self.shapes.is_low(trust)
            || (state.lowered && trust <= state.used(a) && self.shapes.fits(a.shape, content));
        if !sound {
            return Outcome::Breaks;
        }
        self.fresh(state, r, Known::CellOf(shape))
    }

    /// "read: w of low effect gives low; else w is a cell, and the result has its content shape
    /// and the smaller of S and P."
    fn read(self, state: &mut State, r: u8, w: u8) -> Outcome {
        let w = state.register(w);
        let result = match w.shape {
            _ if self.shapes.is_low(w.effect) => Register::LOW,
            Known::CellOf(shape) => {
                let (content, trust) = self.shapes.cell(shape);
                self.result(self.shapes.known(content), trust.min(state.p))
            }
            _ => return Outcome::Breaks,
        };
        state.set(r, result);
        Outcome::Passes
    }

    /// "write, relabel, exec need w a cell with used effect above C": its content shape and
    /// counted trust.
    fn cell_of(self, state: &State, w: u8) -> Option<(u8, u8)> {
        let w = state.register(w);
        match w.shape {
            Known::CellOf(shape) if !self.shapes.is_low(state.used(w)) => {
                Some(self.shapes.cell(shape))
            }
            _ => None,
        }
    }

    /// "write: stuck if P is below S; low S passes; else a fits and S is at most its used
    /// effect."
    fn write(self, state: &State, w: u8, a: u8) -> Outcome {
        let Some((content, trust)) = self.cell_of(state, w) else {
            return Outcome::Breaks;
        };
        if state.p < trust {
            return Outcome::Stuck;
        }
        let a = state.register(a);
        let stores = || trust <= state.used(a) && self.shapes.fits(a.shape, content);
        passes_if(self.shapes.is_low(trust) || stores())
    }

    /// "relabel to O: stuck if P is below S or O; else S is at most O."
    fn relabel(self, state: &State, w: u8, label: u8) -> Outcome {
        match self.cell_of(state, w) {
            None => Outcome::Breaks,
            Some((_, trust)) if state.p < trust || state.p < label => Outcome::Stuck,
            Some((_, trust)) => passes_if(trust <= label),
        }
    }

    /// "exec: the content is code with bound at least P, and S at least P."
    fn exec(self, state: &State, w: u8) -> Outcome {
        let Some((content, trust)) = self.cell_of(state, w) else {
            return Outcome::Breaks;
        };
        let Known::Code(bound) = self.shapes.known(content) else {
            return Outcome::Breaks;
        };
        passes_if(bound >= state.p && trust >= state.p)
    }

    /// "start: the block's bound is at least P."
    fn reaches(self, state: &State, block: u8) -> bool {
        self.book.blocks[usize::from(block)].bound >= state.p
    }

    /// 02, Four: "With P above C, both bounds must be at least P, and r must be plain unless its
    /// effect is low."
    fn choose(self, state: &State, r: u8, first: u8, second: u8) -> Outcome {
        let both = self.reaches(state, first) && self.reaches(state, second);
        passes_if(both && self.plain_or_low(state.register(r)))
    }
}
