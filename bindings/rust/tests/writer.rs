//! Books that are written from tables, by request one of document 02.

use std::fs;
use std::path::PathBuf;
use xemdulba::{
    check, tables, write, write_into, BlockRow, BookTables, CellRow, Refusal, ShapeRow, StepRow,
    LONGEST_BOOK,
};

const BOOK_A: &[u8] = include_bytes!("../../../books/a1.book");

/// Book A's.
fn tables_of_a() -> BookTables {
    let shape = |kind, x, y| ShapeRow { kind, x, y };
    let step = |kind, x, y, number| StepRow {
        kind,
        x,
        y,
        z: 0,
        number,
    };
    BookTables {
        c: 3,
        shapes: vec![shape(16, 0, 0), shape(18, 0, 9)],
        cells: vec![CellRow {
            shape: 1,
            label: 9,
            kind: 0,
            number: 5,
        }],
        blocks: vec![BlockRow {
            bound: 12,
            steps: 3,
        }],
        steps: vec![step(65, 0, 0, 0), step(64, 1, 0, 7), step(70, 0, 1, 0)],
    }
}

/// The tables of book A, changed.
fn a_with(change: impl FnOnce(&mut BookTables)) -> BookTables {
    let mut tables = tables_of_a();
    change(&mut tables);
    tables
}

fn refused(tables: &BookTables) -> (u32, usize) {
    let Refusal { number, place } = write(tables).expect_err("it is refused");
    (number, place)
}

#[test]
fn book_a_is_written_and_taken_apart() {
    assert_eq!(write(&tables_of_a()), Ok(BOOK_A.to_vec()));
    assert_eq!(tables(BOOK_A), Ok(tables_of_a()));
}

/// The books of the folder `books`.
fn samples() -> Vec<Vec<u8>> {
    let folder = PathBuf::from(env!("CARGO_MANIFEST_DIR")).join("../../books");
    let files = fs::read_dir(folder)
        .unwrap()
        .map(|file| file.unwrap().path());
    let books = files.filter(|path| path.extension().is_some_and(|name| name == "book"));
    books.map(|path| fs::read(path).unwrap()).collect()
}

/// A1 to A15; A12 to A14 cannot be read.
#[test]
fn the_sample_books_are_written_again() {
    let samples = samples();
    let mut written = 0;
    for book in &samples {
        match tables(book) {
            Ok(tables) => {
                assert_eq!(write(&tables).as_ref(), Ok(book));
                written += 1;
            }
            Err(refusal) => assert_eq!(check(book), Err(refusal)),
        }
    }
    assert_eq!((samples.len(), written), (15, 12));
}

#[test]
fn every_record_is_written_again() {
    let mut book = vec![0x01, 0x00, 0x11, 0x0F, 0x12, 0x00, 0x0E, 0x10];
    book.extend([
        0x20, 0x01, 0x0D, 0x02, 0x01, 0x00, 0x00, 0x00, 0x30, 0x0C, 0x30, 0x0B,
    ]);
    book.extend([
        0x40, 0x07, 0x78, 0x56, 0x34, 0x12, 0x41, 0x06, 0x00, 0x42, 0x05, 0x01,
    ]);
    book.extend([
        0x43, 0x01, 0x02, 0x03, 0x44, 0x04, 0x01, 0x02, 0x45, 0x03, 0x04,
    ]);
    book.extend([
        0x46, 0x02, 0x05, 0x47, 0x01, 0x0F, 0x48, 0x0E, 0x49, 0x01, 0x4A, 0x07,
    ]);
    book.extend([0x4B, 0x06, 0x01, 0x00]);
    let tables = tables(&book).unwrap();
    let steps = tables.blocks.iter().map(|block| block.steps);
    assert_eq!(steps.collect::<Vec<_>>(), [0, 12]);
    assert_eq!(tables.steps[0].number, 0x1234_5678);
    assert_eq!(write(&tables), Ok(book));
}

#[test]
fn each_refusal_has_its_place() {
    let lower = StepRow {
        kind: 72,
        ..StepRow::default()
    };
    let many = a_with(|tables| tables.steps = vec![lower; 20_000]);
    assert_eq!(refused(&many), (1, 0));
    assert_eq!(
        refused(&a_with(|tables| tables.blocks[0].steps = 4)),
        (2, 0)
    );
    assert_eq!(
        refused(&a_with(|tables| tables.shapes[1].kind = 64)),
        (2, 3)
    );
    assert_eq!(
        refused(&a_with(|tables| tables.steps[1].kind = 16)),
        (2, 19)
    );
    let no_block = a_with(|tables| (tables.blocks, tables.steps) = (vec![], vec![]));
    assert_eq!(refused(&no_block), (3, 14));
    let cells = a_with(|tables| tables.cells = vec![tables.cells[0]; 33]);
    assert_eq!(refused(&cells), (4, 6 + 32 * 8));
    assert_eq!(refused(&a_with(|tables| tables.c = 15)), (5, 0));
    assert_eq!(refused(&a_with(|tables| tables.shapes[0].x = 1)), (5, 2));
    assert_eq!(
        refused(&a_with(|tables| tables.steps[2].number = 1)),
        (5, 25)
    );
    assert_eq!(refused(&a_with(|tables| tables.steps[0].y = 1)), (6, 16));
}

/// Book A's tables with one more step, a choose of these fields. Its record would stand at 28.
fn a_with_choose(x: u8, y: u8, z: u8, number: u32) -> BookTables {
    let kind = 75;
    a_with(|tables| {
        tables.blocks[0].steps = 4;
        tables.steps.push(StepRow {
            kind,
            x,
            y,
            z,
            number,
        });
    })
}

#[test]
fn choose_is_written_from_its_row() {
    let tables = a_with_choose(7, 0, 0, 0);
    let book = [BOOK_A, &[0x4B, 0x07, 0x00, 0x00]].concat();
    assert_eq!(write(&tables), Ok(book.clone()));
    assert_eq!(xemdulba::tables(&book), Ok(tables));
    assert_eq!(refused(&a_with_choose(8, 0, 0, 0)), (5, 28));
    assert_eq!(refused(&a_with_choose(7, 0, 0, 1)), (5, 28));
    for [first, second] in [[1, 0], [0, 1], [1, 1], [255, 0], [0, 255]] {
        assert_eq!(refused(&a_with_choose(7, first, second, 0)), (6, 28));
    }
    let next = a_with(|tables| tables.steps[2].kind = 76);
    assert_eq!(refused(&next), (2, 25));
}

/// What the typing rules refuse is written.
#[test]
fn the_typing_rules_are_not_tried() {
    let tables = a_with(|tables| tables.cells[0].label = 8);
    let book = write(&tables).unwrap();
    assert_eq!(check(&book).map_err(|refusal| refusal.number), Err(7));
}

/// Packed rows: shapes, cells, blocks, steps.
fn packed(tables: &BookTables) -> [Vec<u8>; 4] {
    [
        tables.shapes.iter().flat_map(|row| row.bytes()).collect(),
        tables.cells.iter().flat_map(|row| row.bytes()).collect(),
        tables.blocks.iter().flat_map(|row| row.bytes()).collect(),
        tables.steps.iter().flat_map(|row| row.bytes()).collect(),
    ]
}

/// What the buffer holds before.
const BEFORE: u8 = 0xA5;

/// Writes with a C into a buffer of this length, and gives the buffer too.
fn into_buffer(c: u32, tables: &[Vec<u8>; 4], length: usize) -> (Result<usize, Refusal>, Vec<u8>) {
    let mut out = vec![BEFORE; length];
    let [shapes, cells, blocks, steps] = tables;
    let written = write_into(c, shapes, cells, blocks, steps, &mut out);
    (written, out)
}

#[test]
fn the_buffer_behind_the_book_is_kept() {
    let rows = packed(&tables_of_a());
    for length in [28, 29, 40, 40_000] {
        let (written, out) = into_buffer(3, &rows, length);
        assert_eq!(written, Ok(28));
        assert_eq!(&out[..28], BOOK_A);
        assert!(out[28..].iter().all(|&byte| byte == BEFORE));
    }
}

#[test]
fn a_refusal_writes_nothing() {
    let refused = |number| Err(Refusal { number, place: 0 });
    let rows = packed(&tables_of_a());
    for length in [0, 1, 27] {
        let kept = vec![BEFORE; length];
        assert_eq!(into_buffer(3, &rows, length), (refused(13), kept));
    }
    for c in [15, 255, 256, 256 + 3, u32::MAX] {
        for length in [27, 28] {
            let kept = vec![BEFORE; length];
            assert_eq!(into_buffer(c, &rows, length), (refused(5), kept));
        }
    }
}

#[test]
fn bytes_behind_the_last_row_play_no_part() {
    let mut rows = packed(&tables_of_a());
    for (table, more) in rows.iter_mut().zip([2, 6, 4, 7]) {
        table.extend(vec![0xFF; more]);
    }
    let (written, out) = into_buffer(3, &rows, 28);
    assert_eq!((written, out), (Ok(28), BOOK_A.to_vec()));
}

/// The longest records of every group, as many as there may be.
fn longest() -> BookTables {
    let shape = |kind, x, y| ShapeRow { kind, x, y };
    let put = StepRow {
        kind: 64,
        number: u32::MAX,
        ..StepRow::default()
    };
    let mut tables = tables_of_a();
    tables.shapes = vec![shape(18, 0, 9); 32];
    tables.shapes[0] = shape(17, 15, 0);
    tables.cells = vec![tables.cells[0]; 32];
    let (bound, steps) = (0, 64);
    tables.blocks = vec![BlockRow { bound, steps }; 64];
    tables.steps = vec![put; 64 * 64];
    tables
}

#[test]
fn the_longest_book_fits() {
    let mut tables = longest();
    let book = write(&tables).unwrap();
    assert_eq!((book.len(), LONGEST_BOOK), (25_057, 25_057));
    assert_eq!(xemdulba::tables(&book), Ok(tables.clone()));
    // One byte more would need a cell shape as shape 0.
    tables.shapes[0] = tables.shapes[1];
    assert_eq!(refused(&tables), (6, 2));
}
