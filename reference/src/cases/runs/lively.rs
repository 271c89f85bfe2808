//! Readable books by chance whose jobs seldom get blocked: a step is mostly given registers of the
//! kind it asks for. Typing is not looked at.

use crate::cases::generate::dice::Dice;
use crate::cases::generate::records::{
    add, block, c, cell, cell_shape, choose, code, code_shape, exec, lower, name, new, plain_shape,
    put, read, relabel, start, write, Draft,
};
use crate::cases::generate::Bytes;

/// The most cells, blocks and steps in a block behind its first puts, which are up to three; and
/// whether a step may be a choose: in the test runs that were drawn before 02, Four none is.
#[derive(Clone, Copy)]
pub struct Most {
    pub cells: usize,
    pub blocks: usize,
    pub steps: usize,
    pub chooses: bool,
}

impl Most {
    pub const fn new(cells: usize, blocks: usize, steps: usize) -> Most {
        Most {
            cells,
            blocks,
            steps,
            chooses: false,
        }
    }

    pub const fn with_choose(self) -> Most {
        Most {
            chooses: true,
            ..self
        }
    }
}

/// What steps may name, and of how many sorts they are.
struct World {
    sorts: usize,
    c: u8,
    shapes: usize,
    cells: usize,
    blocks: usize,
}

/// What a register is likely to be; an operand is plain, and no longer the 0 that it was at first.
#[derive(Clone, Copy, PartialEq, Eq)]
enum Guess {
    Plain,
    Operand,
    Cell,
    Code,
}

/// Shapes 0 and 1 are plain and code, all others cells.
const FIRST_CELL_SHAPE: usize = 2;

pub fn book(dice: &mut Dice, most: Most) -> Bytes {
    let world = World {
        sorts: if most.chooses { 18 } else { 16 },
        c: dice.pick(&[0, 1, 2, 3, 3, 5, 8, 14]),
        shapes: 4 + dice.below(4),
        cells: 1 + dice.below(most.cells),
        blocks: 1 + dice.below(most.blocks),
    };
    let mut draft = vec![c(world.c), plain_shape(), code_shape(dice.byte_below(16))];
    for own in FIRST_CELL_SHAPE..world.shapes {
        draft.push(cell_shape(dice.byte_below(own), label(dice, world.c)));
    }
    draft.extend((0..world.cells).map(|_| declared(dice, &world)));
    for _ in 0..world.blocks {
        draft.push(block(dice.byte_below(16)));
        draft.extend(steps(dice, &world, most.steps));
    }
    draft.concat()
}

/// A label, often at or below C.
fn label(dice: &mut Dice, c: u8) -> u8 {
    match dice.below(2) {
        0 => dice.byte_below(usize::from(c) + 1),
        _ => dice.byte_below(16),
    }
}

fn declared(dice: &mut Dice, world: &World) -> Bytes {
    // Where there are chooses, more cells are plain, for what is read from them.
    let kinds = if world.sorts > 16 { 4 } else { 3 };
    let (kind, number) = match dice.below(kinds) {
        0 | 3 => (0, dice.operand()),
        1 => (1, dice.below(world.cells) as u32),
        _ => (2, dice.below(world.blocks) as u32),
    };
    let label = label(dice, world.c);
    cell(a_cell_shape(dice, world), label, kind, number)
}

fn a_cell_shape(dice: &mut Dice, world: &World) -> u8 {
    (FIRST_CELL_SHAPE + dice.below(world.shapes - FIRST_CELL_SHAPE)) as u8
}

/// Up to three puts, so that there is something to add, and the steps behind them.
fn steps(dice: &mut Dice, world: &World, most: usize) -> Draft {
    let mut guesses = [Guess::Plain; 8];
    let (puts, count) = (dice.below(4), dice.below(most + 1));
    let mut steps = Vec::new();
    steps.extend((0..puts).map(|_| put_operand(dice, &mut guesses)));
    steps.extend((0..count).map(|_| step(dice, world, &mut guesses)));
    steps
}

fn put_operand(dice: &mut Dice, guesses: &mut [Guess; 8]) -> Bytes {
    let r = dice.byte_below(8);
    guesses[usize::from(r)] = Guess::Operand;
    put(r, dice.operand())
}

/// A register that is likely to be so, or any if there is none; now and then any.
fn register(dice: &mut Dice, guesses: &[Guess; 8], guess: Guess) -> u8 {
    let from = dice.below(8);
    let found = (0..8).map(|number| (from + number) % 8);
    let mut suiting = found.filter(|&number| guesses[number] == guess);
    match suiting.next() {
        Some(number) if dice.below(12) > 0 => number as u8,
        _ => from as u8,
    }
}

/// A register that is likely to be plain, mostly an operand.
fn operand_register(dice: &mut Dice, guesses: &[Guess; 8]) -> u8 {
    let guess = dice.pick(&[Guess::Plain, Guess::Operand, Guess::Operand]);
    register(dice, guesses, guess)
}

fn step(dice: &mut Dice, world: &World, guesses: &mut [Guess; 8]) -> Bytes {
    let (r, any) = (dice.byte_below(8), dice.byte_below(8));
    let w = register(dice, guesses, Guess::Cell);
    let mut set = |guess: Guess| guesses[usize::from(r)] = guess;
    match dice.below(world.sorts) {
        0 => {
            set(Guess::Code);
            code(r, dice.byte_below(world.blocks))
        }
        1..=3 => {
            set(Guess::Cell);
            name(r, dice.byte_below(world.cells))
        }
        4 => {
            set(Guess::Cell);
            new(r, a_cell_shape(dice, world), any)
        }
        5 | 6 => {
            set(dice.pick(&[Guess::Operand, Guess::Cell, Guess::Code]));
            read(r, w)
        }
        7 | 8 => {
            let a = operand_register(dice, guesses);
            let b = operand_register(dice, guesses);
            guesses[usize::from(r)] = Guess::Operand;
            add(r, a, b)
        }
        9 | 10 => write(w, any),
        11 => relabel(w, label(dice, world.c)),
        12 if dice.below(2) == 0 => lower(dice.byte_below(16)),
        13 => start(dice.byte_below(world.blocks)),
        14 | 15 => exec(w),
        16 | 17 => chosen(dice, world, guesses),
        _ => put_operand(dice, guesses),
    }
}

/// A choose by a register that is likely to be plain, or by what has just been read from a cell:
/// that is often an outsider's.
fn chosen(dice: &mut Dice, world: &World, guesses: &mut [Guess; 8]) -> Bytes {
    let blocks = [0; 2].map(|_| dice.byte_below(world.blocks));
    if dice.below(3) == 0 {
        return choose(operand_register(dice, guesses), blocks[0], blocks[1]);
    }
    let r = dice.byte_below(8);
    guesses[usize::from(r)] = Guess::Operand;
    let get = [name(r, dice.byte_below(world.cells)), read(r, r)].concat();
    [get, choose(r, blocks[0], blocks[1])].concat()
}
