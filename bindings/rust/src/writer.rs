//! A book from tables, and the tables of a book.

use crate::rows::{BlockRow, BookTables, CellRow, ShapeRow, StepRow};
use crate::{library, record, stretch_range, Fields, Refusal};

/// The bytes of the longest book that is written: a buffer of so many is never refused by 13. It
/// has C, 32 shapes, the first of them code since no cell shape can stand there, 32 cells, and 64
/// blocks of 64 puts.
pub const LONGEST_BOOK: usize = 2 + (2 + 31 * 3) + 32 * 8 + 64 * (2 + 64 * 6);

/// Writes the book of these tables: refused by 1 to 6. The typing rules are not tried.
///
/// ```
/// use xemdulba::{BlockRow, BookTables};
///
/// // C is 3; a block with no steps.
/// let tables = BookTables {
///     c: 3,
///     blocks: vec![BlockRow { bound: 12, steps: 0 }],
///     ..BookTables::default()
/// };
/// assert_eq!(xemdulba::write(&tables)?, [1, 3, 48, 12]);
/// # Ok::<(), xemdulba::Refusal>(())
/// ```
pub fn write(tables: &BookTables) -> Result<Vec<u8>, Refusal> {
    let mut book = vec![0; most_bytes(tables)];
    let length = write_into(
        tables.c.into(),
        &packed(&tables.shapes, ShapeRow::bytes),
        &packed(&tables.cells, CellRow::bytes),
        &packed(&tables.blocks, BlockRow::bytes),
        &packed(&tables.steps, StepRow::bytes),
        &mut book,
    )?;
    book.truncate(length);
    Ok(book)
}

/// At least as many as the book has, if it is written: the longest shape has 3, and the longest step
/// 6.
fn most_bytes(tables: &BookTables) -> usize {
    let declared = 3 * tables.shapes.len() + 8 * tables.cells.len();
    let blocks = 2 * tables.blocks.len() + 6 * tables.steps.len();
    LONGEST_BOOK.min(2 + declared + blocks)
}

/// A table as bytes.
fn packed<R: Copy, const SIZE: usize>(rows: &[R], bytes: fn(R) -> [u8; SIZE]) -> Vec<u8> {
    rows.iter().flat_map(|&row| bytes(row)).collect()
}

/// As `write`, from tables of packed rows, as `include/xemdulba.h` has them, and into memory that
/// the caller lends; nothing is allocated. The length of the book, which stands at the start of
/// `out`: refused by 1 to 6, or by 13 if `out` is shorter than the book. Bytes behind the last whole
/// row of a table play no part, and a C above 255 counts as 255. Bytes of `out` beyond the book are
/// kept, and a refusal writes nothing.
///
/// ```
/// let mut out = [0xFF; 6];
/// let blocks = [12, 0, 0, 0, 0];
/// assert_eq!(xemdulba::write_into(3, &[], &[], &blocks, &[], &mut out)?, 4);
/// assert_eq!(out, [1, 3, 48, 12, 0xFF, 0xFF]);
/// # Ok::<(), xemdulba::Refusal>(())
/// ```
pub fn write_into(
    c: u32,
    shapes: &[u8],
    cells: &[u8],
    blocks: &[u8],
    steps: &[u8],
    out: &mut [u8],
) -> Result<usize, Refusal> {
    let written = library::write(c, shapes, cells, blocks, steps, out);
    Refusal::stated(written.refusal, written.place)?;
    Ok(written.length as usize)
}

/// The tables of a book, of which `write` makes the same bytes: refused by 1 to 6. The book need not
/// be accepted.
///
/// ```
/// let book = [1, 3, 48, 12];
/// let tables = xemdulba::tables(&book)?;
/// assert_eq!((tables.c, tables.blocks[0].bound), (3, 12));
/// assert_eq!(xemdulba::write(&tables)?, book);
/// # Ok::<(), xemdulba::Refusal>(())
/// ```
pub fn tables(book: &[u8]) -> Result<BookTables, Refusal> {
    // A book that can be read has a block 0, so that this is not refused by 12.
    stretch_range(book, 0)?;
    let mut tables = BookTables::default();
    let mut offset = 0;
    while let Some(fields) = record(book, offset) {
        tables.push(fields);
        offset = fields.next;
    }
    Ok(tables)
}

impl BookTables {
    /// Adds the row of a record. A step is one of the last block.
    fn push(&mut self, fields: Fields) {
        let Fields {
            kind,
            first: x,
            second: y,
            third: z,
            number,
            ..
        } = fields;
        match kind {
            1 => self.c = x,
            16..=18 => self.shapes.push(ShapeRow { kind, x, y }),
            32 => self.cells.push(CellRow {
                shape: x,
                label: y,
                kind: z,
                number,
            }),
            48 => self.blocks.push(BlockRow { bound: x, steps: 0 }),
            _ => self.push_step(StepRow {
                kind,
                x,
                y,
                z,
                number,
            }),
        }
    }

    fn push_step(&mut self, step: StepRow) {
        if let Some(block) = self.blocks.last_mut() {
            block.steps += 1;
        }
        self.steps.push(step);
    }
}
