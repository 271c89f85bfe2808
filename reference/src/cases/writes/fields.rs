//! What the fields of one byte in a row are, by the kind of its record.

use super::rows::{with_byte, Table};
use crate::model::writer::Packed;

#[derive(Clone, Copy, Debug, PartialEq, Eq)]
pub enum Field {
    Label,
    Register,
    ValueKind,
    Content,
    CellShape,
    Cell,
    Block,
    /// The kind does not use it.
    Spare,
}

use Field::{Block, Cell, CellShape, Content, Label, Register, Spare, ValueKind};

impl Field {
    /// The largest value, where refusal 5 has one.
    pub fn limit(self) -> Option<u8> {
        match self {
            Label => Some(15),
            Register => Some(7),
            ValueKind => Some(2),
            Spare => Some(0),
            Content | CellShape | Cell | Block => None,
        }
    }
}

/// A table, the kind of its rows, the byte of the first field in a row, and the fields.
type Fields = (Table, u8, usize, &'static [Field]);

/// All kinds.
pub const FIELDS: [Fields; 17] = [
    (Table::Shapes, 16, 1, &[Spare, Spare]),
    (Table::Shapes, 17, 1, &[Label, Spare]),
    (Table::Shapes, 18, 1, &[Content, Label]),
    (Table::Cells, 32, 0, &[CellShape, Label, ValueKind]),
    (Table::Blocks, 48, 0, &[Label]),
    (Table::Steps, 64, 1, &[Register, Spare, Spare]),
    (Table::Steps, 65, 1, &[Register, Cell, Spare]),
    (Table::Steps, 66, 1, &[Register, Block, Spare]),
    (Table::Steps, 67, 1, &[Register, Register, Register]),
    (Table::Steps, 68, 1, &[Register, CellShape, Register]),
    (Table::Steps, 69, 1, &[Register, Register, Spare]),
    (Table::Steps, 70, 1, &[Register, Register, Spare]),
    (Table::Steps, 71, 1, &[Register, Label, Spare]),
    (Table::Steps, 72, 1, &[Label, Spare, Spare]),
    (Table::Steps, 73, 1, &[Block, Spare, Spare]),
    (Table::Steps, 74, 1, &[Register, Spare, Spare]),
    (Table::Steps, 75, 1, &[Register, Block, Block]),
];

/// A field of a row.
#[derive(Clone, Copy)]
pub struct Spot {
    pub table: Table,
    pub row: usize,
    pub byte: usize,
    pub field: Field,
}

impl Spot {
    pub fn with(&self, tables: &Packed, value: u8) -> Packed {
        with_byte(tables, self.table, self.row, self.byte, value)
    }
}

/// All fields of one byte that the tables have, kind by kind.
pub fn spots(tables: &Packed) -> Vec<Spot> {
    let mut spots = Vec::new();
    for (table, kind, first, fields) in FIELDS {
        for row in table.rows(tables, kind) {
            spots.extend((first..).zip(fields).map(|(byte, &field)| Spot {
                table,
                row,
                byte,
                field,
            }));
        }
    }
    spots
}
