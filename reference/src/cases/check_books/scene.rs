//! Books put together group by group, which know the numbers of what they declare.

use crate::cases::generate::records::{
    add, block, c, cell, cell_shape, code, code_shape, exec, new, plain_shape, read, relabel,
    start, write, Draft,
};
use crate::cases::generate::Bytes;

/// A book in the making. The groups are to be added in their order.
#[derive(Clone)]
pub struct Scene {
    records: Draft,
    shapes: u8,
    cells: u8,
}

impl Scene {
    pub fn new(compromised: u8) -> Scene {
        Scene {
            records: vec![c(compromised)],
            shapes: 0,
            cells: 0,
        }
    }

    fn shape(&mut self, record: Bytes) -> u8 {
        self.records.push(record);
        self.shapes += 1;
        self.shapes - 1
    }

    pub fn plain(&mut self) -> u8 {
        self.shape(plain_shape())
    }

    pub fn code(&mut self, bound: u8) -> u8 {
        self.shape(code_shape(bound))
    }

    pub fn cell_of(&mut self, content: u8, trust: u8) -> u8 {
        self.shape(cell_shape(content, trust))
    }

    /// A cell of plain content: the shapes of both.
    pub fn plain_cell(&mut self, trust: u8) -> u8 {
        let content = self.plain();
        self.cell_of(content, trust)
    }

    /// Cells of the shape before, until there are so many shapes.
    pub fn shapes_up_to(&mut self, count: u8, trust: u8) {
        while self.shapes < count {
            self.cell_of(self.shapes - 1, trust);
        }
    }

    /// A declared cell.
    pub fn declare(&mut self, shape: u8, label: u8, value: Value) -> u8 {
        let (kind, number) = value.kind_and_number();
        self.records.push(cell(shape, label, kind, number));
        self.cells += 1;
        self.cells - 1
    }

    /// A declared cell of the top label.
    pub fn top(&mut self, shape: u8, value: Value) -> u8 {
        self.declare(shape, 15, value)
    }

    pub fn block(&mut self, bound: u8, steps: &[Bytes]) {
        self.records.push(block(bound));
        self.records.extend_from_slice(steps);
    }

    pub fn draft(self) -> Draft {
        self.records
    }

    /// The book with one more block.
    pub fn with_block(&self, bound: u8, steps: &[Bytes]) -> Scene {
        let mut scene = self.clone();
        scene.block(bound, steps);
        scene
    }

    pub fn book(&self) -> Bytes {
        self.records.concat()
    }
}

/// The value of a declared cell.
#[derive(Clone, Copy)]
pub enum Value {
    Plain,
    Number(u32),
    Cell(u8),
    Code(u8),
}

impl Value {
    fn kind_and_number(self) -> (u8, u32) {
        match self {
            Value::Plain => (0, 5),
            Value::Number(number) => (0, number),
            Value::Cell(number) => (1, number.into()),
            Value::Code(number) => (2, number.into()),
        }
    }
}

/// The least, a middle and the greatest C.
pub const COMPROMISED: [u8; 3] = [0, 3, 14];

/// The labels around C, and the top.
pub fn levels(c: u8) -> Vec<u8> {
    let mut levels = vec![c.saturating_sub(1), c, c + 1, (c + 2).min(15), 15];
    levels.dedup();
    levels
}

/// All choices of three labels around C.
pub fn triples(c: u8) -> Vec<[u8; 3]> {
    let mut triples = Vec::new();
    for one in levels(c) {
        for [two, three] in pairs(c) {
            triples.push([one, two, three]);
        }
    }
    triples
}

/// All choices of two labels around C.
pub fn pairs(c: u8) -> Vec<[u8; 2]> {
    let levels = levels(c);
    let pair = |one: u8| levels.iter().map(move |&two| [one, two]);
    levels.iter().copied().flat_map(pair).collect()
}

/// Each C with each of its triples.
pub fn all_triples() -> Vec<(u8, [u8; 3])> {
    let with = |c: u8| triples(c).into_iter().map(move |labels| (c, labels));
    COMPROMISED.into_iter().flat_map(with).collect()
}

/// Each C with each of its pairs.
pub fn all_pairs() -> Vec<(u8, [u8; 2])> {
    let with = |c: u8| pairs(c).into_iter().map(move |labels| (c, labels));
    COMPROMISED.into_iter().flat_map(with).collect()
}

/// Scenes with a cell shape of code, its trust just low or just high: each with that shape and
/// the bound that a block is to have.
pub fn code_scenes() -> Vec<(Scene, u8, u8)> {
    let mut scenes = Vec::new();
    for (c, [content, bound]) in all_pairs() {
        for trust in [c, c + 1] {
            let mut scene = Scene::new(c);
            let content = scene.code(content);
            let shape = scene.cell_of(content, trust);
            scenes.push((scene, shape, bound));
        }
    }
    scenes
}

/// How many breakers there are.
pub const BREAKERS: usize = 7;

/// The shape that `breaker` asks for: its content fits no plain register.
pub fn misfit(scene: &mut Scene) -> u8 {
    let content = scene.code(0);
    scene.cell_of(content, 15)
}

/// Steps of which the last breaks its rule at every P above C: register 7 is plain, `misfit` the
/// shape of that name, and block 1 has bound 0. At P up to C only new breaks.
pub fn breaker(which: usize, misfit: u8) -> Bytes {
    match which % BREAKERS {
        0 => exec(7),
        1 => new(6, misfit, 7),
        2 => read(6, 7),
        3 => write(7, 7),
        4 => relabel(7, 15),
        5 => start(1),
        _ => [code(6, 1), add(6, 7, 6)].concat(),
    }
}
