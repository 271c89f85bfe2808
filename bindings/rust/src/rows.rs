//! The tables that a book is written from, and their rows.

/// The bytes of a row of shapes.
pub const SHAPE_ROW: usize = 3;

/// The bytes of a row of cells.
pub const CELL_ROW: usize = 7;

/// The bytes of a row of blocks.
pub const BLOCK_ROW: usize = 5;

/// The bytes of a row of steps.
pub const STEP_ROW: usize = 8;

/// A shape: its kind, 16 to 18, and its fields in their order. Those that the kind does not have
/// are 0.
#[derive(Clone, Copy, Debug, Default, PartialEq, Eq, Hash)]
pub struct ShapeRow {
    /// 16 plain, 17 code, 18 cell.
    pub kind: u8,
    /// The bound of code, or the content shape of a cell.
    pub x: u8,
    /// The trust of a cell.
    pub y: u8,
}

/// A declared cell.
#[derive(Clone, Copy, Debug, Default, PartialEq, Eq, Hash)]
pub struct CellRow {
    /// The number of its shape.
    pub shape: u8,
    /// Its label.
    pub label: u8,
    /// Its value's kind: 0 plain, 1 cell, 2 code.
    pub kind: u8,
    /// The plain value, or the number of the cell or block.
    pub number: u32,
}

/// A block, and how many steps it has: the next so many of the steps.
#[derive(Clone, Copy, Debug, Default, PartialEq, Eq, Hash)]
pub struct BlockRow {
    /// Its bound.
    pub bound: u8,
    /// How many steps it has.
    pub steps: u32,
}

/// A step: its kind, 64 to 75, and its fields of one byte in their order. Those that the kind does
/// not have are 0.
#[derive(Clone, Copy, Debug, Default, PartialEq, Eq, Hash)]
pub struct StepRow {
    /// 64 put, 65 name, and so on: `include/xemdulba.h` has them all, with their fields.
    pub kind: u8,
    /// The first field.
    pub x: u8,
    /// The second field.
    pub y: u8,
    /// The third field.
    pub z: u8,
    /// The number of put; else 0.
    pub number: u32,
}

/// C and the tables of a book.
#[derive(Clone, Debug, Default, PartialEq, Eq, Hash)]
pub struct BookTables {
    /// The compromised label.
    pub c: u8,
    /// The shapes, numbered from 0.
    pub shapes: Vec<ShapeRow>,
    /// The declared cells, numbered from 0.
    pub cells: Vec<CellRow>,
    /// The blocks, numbered from 0.
    pub blocks: Vec<BlockRow>,
    /// The steps of all blocks, in the order of the blocks.
    pub steps: Vec<StepRow>,
}

impl ShapeRow {
    /// The row as `write_into` has it.
    pub fn bytes(self) -> [u8; SHAPE_ROW] {
        [self.kind, self.x, self.y]
    }
}

impl CellRow {
    /// The row as `write_into` has it.
    pub fn bytes(self) -> [u8; CELL_ROW] {
        let [n0, n1, n2, n3] = self.number.to_le_bytes();
        [self.shape, self.label, self.kind, n0, n1, n2, n3]
    }
}

impl BlockRow {
    /// The row as `write_into` has it.
    pub fn bytes(self) -> [u8; BLOCK_ROW] {
        let [n0, n1, n2, n3] = self.steps.to_le_bytes();
        [self.bound, n0, n1, n2, n3]
    }
}

impl StepRow {
    /// The row as `write_into` has it.
    pub fn bytes(self) -> [u8; STEP_ROW] {
        let [n0, n1, n2, n3] = self.number.to_le_bytes();
        [self.kind, self.x, self.y, self.z, n0, n1, n2, n3]
    }
}
