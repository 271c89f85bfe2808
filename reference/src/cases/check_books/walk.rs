//! Books by chance whose cells and steps mostly keep the rules, so that long blocks are accepted.

use crate::cases::generate::dice::Dice;
use crate::cases::generate::records::{
    add, block, c, cell, cell_shape, choose, code, code_shape, exec, lower, name, new, plain_shape,
    put, read, relabel, start, write, Draft,
};
use crate::cases::generate::valid::{of_sizes, size, Size};
use crate::cases::generate::Bytes;
use crate::model::book::{Block, Book, DeclaredCell, Shape, Step};
use crate::model::typing::{Outcome, Rules, State};

/// How many books of each size.
const SIZES: [(usize, Size); 6] = [
    (250, size(8, 4, 2, 12)),
    (120, size(12, 8, 3, 24)),
    (40, size(16, 12, 4, 64)),
    (20, size(8, 6, 64, 3)),
    (6, size(32, 32, 12, 64)),
    (2, size(32, 32, 64, 64)),
];

pub fn books() -> Vec<Bytes> {
    of_sizes(&mut Dice::new(0x5EED_0010), &SIZES, draft)
}

/// A book by chance of at most this size.
pub fn draft(dice: &mut Dice, size: Size) -> Draft {
    let mut book = declarations(dice, size);
    for number in 0..book.blocks.len() {
        let steps = steps(dice, &book, number, size);
        book.blocks[number].steps = steps;
    }
    records(&book)
}

/// Everything but the steps.
fn declarations(dice: &mut Dice, size: Size) -> Book {
    let c = dice.pick(&[0, 1, 3, 3, 3, 5, 8, 12, 14]);
    let blocks = size.blocks.div_ceil(2) + dice.below(size.blocks.div_ceil(2));
    let mut book = Book {
        c,
        shapes: shapes(dice, c, size.shapes),
        cells: Vec::new(),
        blocks: (0..blocks).map(|_| empty_block(dice, c)).collect(),
    };
    for _ in 0..1 + dice.below(size.cells) {
        let cell = declared(dice, &book);
        book.cells.push(cell);
    }
    book
}

/// A label that is mostly above C.
fn label(dice: &mut Dice, c: u8) -> u8 {
    match dice.below(5) {
        0 => dice.byte_below(usize::from(c) + 1),
        1 => c + 1,
        _ => c + 1 + dice.byte_below(15 - usize::from(c)),
    }
}

/// Shapes 0 to 3 are plain, code, a plain cell and a code cell.
fn shapes(dice: &mut Dice, c: u8, most: usize) -> Vec<Shape> {
    let trust = c + 1;
    let code = Shape::Code {
        bound: 15 - dice.byte_below(3),
    };
    let plain_cell = Shape::Cell { content: 0, trust };
    let code_cell = Shape::Cell {
        content: 1,
        trust: 15,
    };
    let mut shapes = vec![Shape::Plain, code, plain_cell, code_cell];
    for own_number in 4..4 + dice.below(most - 3) {
        shapes.push(shape(dice, c, own_number));
    }
    shapes
}

fn shape(dice: &mut Dice, c: u8, own_number: usize) -> Shape {
    match dice.below(8) {
        0 => Shape::Plain,
        1 => Shape::Code {
            bound: label(dice, c),
        },
        _ => Shape::Cell {
            content: dice.byte_below(own_number),
            trust: label(dice, c),
        },
    }
}

fn empty_block(dice: &mut Dice, c: u8) -> Block {
    Block {
        bound: label(dice, c),
        start: 0,
        length: 0,
        steps: Vec::new(),
    }
}

/// A sound cell; after some tries in vain a plain one.
fn declared(dice: &mut Dice, book: &Book) -> DeclaredCell {
    for _ in 0..20 {
        let cell = any_cell(dice, book);
        if Rules::new(book).cell_is_sound(&cell) {
            return cell;
        }
    }
    DeclaredCell {
        place: 0,
        shape: 2,
        label: 15,
        value_kind: 0,
        number: dice.number(),
    }
}

/// Any cell of a cell shape; a value names an earlier cell.
fn any_cell(dice: &mut Dice, book: &Book) -> DeclaredCell {
    let (value_kind, number) = match dice.below(3) {
        1 if !book.cells.is_empty() => (1, dice.below(book.cells.len()) as u32),
        2 => (2, dice.below(book.blocks.len()) as u32),
        _ => (0, dice.number()),
    };
    DeclaredCell {
        place: 0,
        shape: cell_shape_number(dice, book),
        label: 15 - dice.byte_below(4),
        value_kind,
        number,
    }
}

fn cell_shape_number(dice: &mut Dice, book: &Book) -> u8 {
    loop {
        let number = dice.byte_below(book.shapes.len());
        if let Shape::Cell { .. } = book.shapes[usize::from(number)] {
            return number;
        }
    }
}

/// Steps of which hardly one is stuck, and none breaks its rule.
fn steps(dice: &mut Dice, book: &Book, block: usize, size: Size) -> Vec<Step> {
    let kinds = if size.chooses { &KINDS[..] } else { OF_01 };
    let rules = Rules::new(book);
    let mut state = rules.start(book.blocks[block].bound);
    let mut steps = Vec::new();
    for _ in 0..length(dice, size.steps) {
        let (step, next) = sound_step(dice, kinds, rules, state);
        steps.push(step);
        state = next;
    }
    steps
}

/// Half as many steps as there may be, or more, often all.
fn length(dice: &mut Dice, most: usize) -> usize {
    match dice.below(3) {
        0 => most,
        _ => most / 2 + dice.below(most / 2 + 1),
    }
}

/// A step of these kinds that passes, and the state behind it. Few are stuck, and P seldom becomes
/// low.
fn sound_step(dice: &mut Dice, kinds: &[u8], rules: Rules, state: State) -> (Step, State) {
    loop {
        let kind = dice.pick(kinds);
        for _ in 0..10 {
            let step = any_step(dice, rules.book, kind, state.p);
            let mut next = state;
            let outcome = rules.step(&mut next, step);
            let falls = next.p <= rules.book.c && state.p > rules.book.c;
            let rare = outcome == Outcome::Stuck || falls;
            if outcome != Outcome::Breaks && (!rare || dice.below(100) == 0) {
                return (step, next);
            }
        }
    }
}

/// How often each kind of step is tried. Document 01 has those before choose.
const KINDS: [u8; 22] = [
    64, 65, 65, 65, 66, 67, 67, 68, 68, 68, 69, 69, 70, 70, 70, 71, 72, 73, 74, 74, 75, 75,
];
const OF_01: &[u8] = KINDS.split_at(20).0;

pub fn any_step(dice: &mut Dice, book: &Book, kind: u8, p: u8) -> Step {
    let (r, a, b) = (dice.byte_below(8), dice.byte_below(8), dice.byte_below(8));
    let block = dice.byte_below(book.blocks.len());
    match kind {
        64 => Step::Put {
            r,
            number: dice.number(),
        },
        65 => Step::Name {
            r,
            cell: dice.byte_below(book.cells.len()),
        },
        66 => Step::Code { r, block },
        67 => Step::Add { r, a, b },
        68 => Step::New {
            r,
            shape: cell_shape_number(dice, book),
            a,
        },
        69 => Step::Read { r, w: a },
        70 => Step::Write { w: b, a },
        71 => Step::Relabel {
            w: a,
            label: dice.byte_below(16),
        },
        72 => Step::Lower {
            label: p.saturating_sub(dice.pick(&[0, 0, 0, 1, 2])),
        },
        73 => Step::Start { block },
        75 => Step::Choose {
            r,
            first: block,
            second: dice.byte_below(book.blocks.len()),
        },
        _ => Step::Exec { w: a },
    }
}

fn records(book: &Book) -> Draft {
    let mut draft = vec![c(book.c)];
    draft.extend(book.shapes.iter().map(|&shape| shape_record(shape)));
    draft.extend(book.cells.iter().map(cell_record));
    for one in &book.blocks {
        draft.push(block(one.bound));
        draft.extend(one.steps.iter().map(|&step| step_record(step)));
    }
    draft
}

fn shape_record(shape: Shape) -> Bytes {
    match shape {
        Shape::Plain => plain_shape(),
        Shape::Code { bound } => code_shape(bound),
        Shape::Cell { content, trust } => cell_shape(content, trust),
    }
}

fn cell_record(declared: &DeclaredCell) -> Bytes {
    let (kind, number) = (declared.value_kind, declared.number);
    cell(declared.shape, declared.label, kind, number)
}

pub fn step_record(step: Step) -> Bytes {
    match step {
        Step::Put { r, number } => put(r, number),
        Step::Name { r, cell } => name(r, cell),
        Step::Code { r, block } => code(r, block),
        Step::Add { r, a, b } => add(r, a, b),
        Step::New { r, shape, a } => new(r, shape, a),
        Step::Read { r, w } => read(r, w),
        Step::Write { w, a } => write(w, a),
        Step::Relabel { w, label } => relabel(w, label),
        Step::Lower { label } => lower(label),
        Step::Start { block } => start(block),
        Step::Exec { w } => exec(w),
        Step::Choose { r, first, second } => choose(r, first, second),
    }
}
