//! Refusal 13: buffers of exactly the length of the output, shorter, none, and longer.

use super::rows::{append_steps, block, broad, lower, small, wide};
use super::Write;
use crate::cases::large::{full_book, mixed_book};
use crate::model::writer::{tables_of, Packed};

pub fn writes() -> Vec<Write> {
    let mut all = Vec::new();
    for book in [full_book(), mixed_book()] {
        let tables = tables_of(&book).expect("they are readable");
        all.extend(lengths(book.len()).map(|length| Write {
            tables: tables.clone(),
            length,
        }));
    }
    for (tables, output) in short() {
        all.extend((0..=output + 9).map(|length| Write {
            tables: tables.clone(),
            length,
        }));
    }
    all.extend(refused());
    all
}

/// Around the length of the output.
fn lengths(output: usize) -> [usize; 9] {
    let around = [output - 1, output, output + 1];
    let far = [0, 1, output / 2, output + 256, 32_768, 70_000];
    [&far[..], &around].concat().try_into().expect("nine")
}

/// Tables with the length of their output.
fn short() -> Vec<(Packed, usize)> {
    let least = Packed {
        blocks: block(0, 0).to_vec(),
        ..Packed::default()
    };
    let mut lowers = small();
    append_steps(&mut lowers, lower(2), 60);
    vec![
        (least, 4),
        (small(), 22),
        (lowers, 22 + 120),
        (broad(), 2 + 15 + 24 + 8 + 117),
        (wide(), 2 + 94 + 256 + 128 + 3 * 12),
    ]
}

/// Every other refusal comes first, whatever the buffer.
fn refused() -> Vec<Write> {
    let (no_block, no_steps) = (vec![], vec![]);
    let mut too_long = small();
    too_long.steps = lower(2).repeat(20_000);
    let mut unknown = small();
    unknown.shapes[0] = 15;
    let mut many = small();
    append_steps(&mut many, lower(2), 65);
    let mut nameless = small();
    nameless.cells[0] = 0;
    let all = [
        too_long,
        Packed {
            blocks: block(12, 3).to_vec(),
            ..small()
        },
        unknown,
        Packed {
            blocks: no_block,
            steps: no_steps,
            ..small()
        },
        many,
        Packed { c: 15, ..small() },
        nameless,
    ];
    let short = |tables: &Packed| {
        [0, 1, 8, 21, 100].map(|length| Write {
            tables: tables.clone(),
            length,
        })
    };
    all.iter().flat_map(short).collect()
}
