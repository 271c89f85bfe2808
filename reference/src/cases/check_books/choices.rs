//! For tests: what typing finds at the chooses of a book.

use crate::model::book::{self, Book, Step};
use crate::model::typing::{Known, Outcome, Rules, State};

/// What stands at a choose.
#[derive(Clone, Copy, Debug, PartialEq, Eq, PartialOrd, Ord)]
pub enum Met {
    /// P is at or below C.
    LowP,
    /// P is high, and the register plain or low.
    Plain,
    LowRegister,
    /// One cause alone that breaks the rule.
    FirstBound,
    SecondBound,
    Register,
    /// More than one.
    Several,
}

/// At each choose of a readable book up to the step that is stuck or breaks in its block. It passes
/// exactly if no cause stands against it.
pub fn met(bytes: &[u8]) -> Vec<Met> {
    let Ok(book) = book::read(bytes) else {
        return vec![];
    };
    let rules = Rules::new(&book);
    let mut all = Vec::new();
    for block in &book.blocks {
        let mut state = rules.start(block.bound);
        for &step in &block.steps {
            let met = at(&book, &state, step);
            let outcome = rules.step(&mut state, step);
            all.extend(met);
            if let Some(met) = met {
                assert_eq!(outcome == Outcome::Passes, met <= Met::LowRegister);
            }
            if outcome != Outcome::Passes {
                break;
            }
        }
    }
    all
}

fn at(book: &Book, state: &State, step: Step) -> Option<Met> {
    let Step::Choose { r, first, second } = step else {
        return None;
    };
    if state.p <= book.c {
        return Some(Met::LowP);
    }
    let below = |block: u8| book.blocks[usize::from(block)].bound < state.p;
    let low = state.register(r).effect <= book.c;
    let other = !low && state.register(r).shape != Known::Plain;
    Some(match (below(first), below(second), other) {
        (false, false, false) if low => Met::LowRegister,
        (false, false, false) => Met::Plain,
        (true, false, false) => Met::FirstBound,
        (false, true, false) => Met::SecondBound,
        (false, false, true) => Met::Register,
        _ => Met::Several,
    })
}
