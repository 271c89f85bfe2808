//! Expectations derived by hand from document 02.

mod stages;

use super::*;
use crate::model::book;
use crate::model::book::tests::{hex, A};

/// Rows in hexadecimal, as `hex` has bytes.
struct Rows {
    c: u32,
    shapes: &'static str,
    cells: &'static str,
    blocks: &'static str,
    steps: &'static str,
}

/// Those of book A.
const ROWS_OF_A: Rows = Rows {
    c: 3,
    shapes: "10 00 00  12 00 09",
    cells: "01 09 00 05 00 00 00",
    blocks: "0C 03 00 00 00",
    steps: "41 00 00 00 00 00 00 00  40 01 00 00 07 00 00 00  46 00 01 00 00 00 00 00",
};

impl Rows {
    fn packed(&self) -> Packed {
        Packed {
            c: self.c,
            shapes: hex(self.shapes),
            cells: hex(self.cells),
            blocks: hex(self.blocks),
            steps: hex(self.steps),
        }
    }
}

const BEFORE: u8 = 0xA5;

/// What is written into a buffer of this length, or the refusal, which leaves the buffer as it was.
fn written(tables: &Packed, length: usize) -> Result<Vec<u8>, Refusal> {
    let mut out = vec![BEFORE; length];
    let written = write(&tables.lent(), &mut out);
    let kept = written.unwrap_or(0);
    assert!(out[kept..].iter().all(|&byte| byte == BEFORE));
    written.map(|length| out[..length].to_vec())
}

fn assert_refused(tables: &Packed, number: u8, place: usize) {
    let refusal = Refusal { number, place };
    // A buffer that is too short comes last.
    for length in [0, 40_000] {
        assert_eq!(written(tables, length), Err(refusal), "{tables:?}");
    }
}

#[test]
fn the_tables_of_a() {
    assert_eq!(tables_of(&hex(A)), Ok(ROWS_OF_A.packed()));
    assert_eq!(written(&ROWS_OF_A.packed(), 28), Ok(hex(A)));
    assert_eq!(written(&ROWS_OF_A.packed(), 40), Ok(hex(A)));
}

#[test]
fn an_unreadable_book_has_no_tables() {
    assert_eq!(
        tables_of(&hex("01 03")),
        book::read(&hex("01 03")).map(|_| Packed::default())
    );
}

#[test]
fn every_record_is_written_and_taken_apart() {
    let book = hex(
        "01 00  11 0F  12 00 0E  10  20 01 0D 02 01 00 00 00  20 01 00 00 04 03 02 01  30 0C  30 0B \
         40 07 78 56 34 12  41 06 00  42 05 01  43 01 02 03  44 04 01 02  45 03 04 \
         46 02 05  47 01 0F  48 0E  49 01  4A 07  4B 06 02 01  30 00  48 00",
    );
    let tables = tables_of(&book).unwrap();
    assert_eq!(tables.shapes, hex("11 0F 00  12 00 0E  10 00 00"));
    assert_eq!(
        tables.cells,
        hex("01 0D 02 01 00 00 00  01 00 00 04 03 02 01")
    );
    let blocks = hex("0C 00 00 00 00  0B 0C 00 00 00  00 01 00 00 00");
    assert_eq!(tables.blocks, blocks);
    let steps = hex("40 07 00 00 78 56 34 12  41 06 00 00 00 00 00 00  42 05 01 00 00 00 00 00");
    assert_eq!(tables.steps[..24], steps);
    let steps = hex("43 01 02 03 00 00 00 00  44 04 01 02 00 00 00 00  45 03 04 00 00 00 00 00");
    assert_eq!(tables.steps[24..48], steps);
    let steps = hex("4B 06 02 01 00 00 00 00  48 00 00 00 00 00 00 00");
    assert_eq!(tables.steps[11 * 8..], steps);
    assert_eq!(written(&tables, book.len()), Ok(book));
}

#[test]
fn refusal_13_is_a_buffer_that_is_too_short() {
    let (number, place) = (13, 0);
    for length in [0, 1, 27] {
        let refusal = Refusal { number, place };
        assert_eq!(written(&ROWS_OF_A.packed(), length), Err(refusal));
    }
}

#[test]
fn bytes_behind_the_last_whole_row_are_no_row() {
    let mut tables = ROWS_OF_A.packed();
    tables.shapes.extend([18, 255]);
    tables.cells.extend([255; 6]);
    tables.blocks.extend([255; 4]);
    tables.steps.extend([76; 7]);
    assert_eq!(written(&tables, 28), Ok(hex(A)));
    // A cell shape that is no row cannot be named.
    tables.cells[0] = 2;
    assert_refused(&tables, 6, 6);
}

#[test]
fn a_c_above_255_counts_as_255() {
    for c in [15, 255, 256, 256 + 3, u32::MAX] {
        let rows = Rows { c, ..ROWS_OF_A };
        assert_refused(&rows.packed(), 5, 0);
    }
    let rows = Rows { c: 14, ..ROWS_OF_A };
    assert!(written(&rows.packed(), 28).is_ok());
}

#[test]
fn empty_tables_have_no_block() {
    assert_refused(&Packed::default(), 3, 2);
    let high = Packed {
        c: 15,
        ..Packed::default()
    };
    assert_refused(&high, 3, 2);
}
