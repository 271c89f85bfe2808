//! What the test tables must hold, and that the writer and the reader agree on them.

mod causes;
mod reader;

use super::rows::{block, lower, small, wide, with_byte, with_number, Table, PLAIN_SHAPE};
use super::*;
use crate::cases::{check_books, generate};
use crate::model::book;
use crate::model::writer::{tables_of, write};
use std::collections::BTreeMap;

/// How often each refusal number is answered, 0 standing for none.
fn tally(writes: impl IntoIterator<Item = Write>) -> BTreeMap<u8, usize> {
    let mut tally = BTreeMap::new();
    for case in writes {
        let refusal = outcome(write, &case).0.err();
        let number = refusal.map_or(0, |refusal| refusal.number);
        *tally.entry(number).or_insert(0) += 1;
    }
    tally
}

#[test]
fn the_chosen_tables_are_many_enough() {
    let tally = tally(chosen());
    assert!(tally.values().sum::<usize>() >= 5_000, "{tally:?}");
    let numbers: Vec<u8> = tally.keys().copied().collect();
    assert_eq!(numbers, [0, 1, 2, 3, 4, 5, 6, 13]);
    assert!(tally.values().all(|&count| count >= 50), "{tally:?}");
}

#[test]
fn they_are_the_same_at_every_call() {
    assert_eq!(chosen(), chosen());
}

/// "Any book that passes refusals 1 to 6, read and written again, has the same bytes."
#[test]
fn every_test_book_is_written_again() {
    let tally = tally(of_books());
    assert_eq!(tally[&0], 2 * tally[&13]);
    assert_eq!(tally.len(), 2);
    assert!(tally[&13] >= 5_000);
    let all = generate::books().into_iter().chain(check_books::books());
    for book in all.filter(|book| book::read(book).is_ok()) {
        let tables = tables_of(&book).unwrap();
        let length = book.len();
        let (written, out) = outcome(write, &Write { tables, length });
        assert_eq!((written, out), (Ok(length), book));
    }
}

#[test]
fn the_first_stage_with_a_fault_refuses() {
    let mut tally = BTreeMap::new();
    for (number, case) in stages::numbered() {
        let refusal = outcome(write, &case).0.err();
        assert_eq!(refusal.map_or(0, |refusal| refusal.number), number);
        *tally.entry(number).or_insert(0) += 1;
    }
    assert_eq!(tally.len(), 8);
}

/// What the rows of a choose with each choice of its fields are answered, by hand.
#[test]
fn each_field_of_a_choose_is_at_fault() {
    let tables = choose::fields();
    let tally = tally(tables.into_iter().map(Write::roomy));
    // A register of 2 of 4 is too high, or a number of 5 of 6 is not 0; of 16 pairs of blocks 4 exist.
    let sound = 2 * 4;
    let expected = BTreeMap::from([(0, sound), (5, 4 * 16 * 6 - 2 * 16), (6, 2 * 12)]);
    assert_eq!(tally, expected);
}

/// 2 for C, 4 for the shapes, 8 for the cell, 4 for the blocks, 8 for two chooses.
#[test]
fn two_chooses_have_eight_bytes() {
    let short = choose::writes()
        .into_iter()
        .filter(|case| case.length == 25);
    let full = choose::writes()
        .into_iter()
        .filter(|case| case.length == 26);
    assert_eq!(tally(short)[&13], 1);
    assert_eq!(tally(full)[&0], 1);
}

fn with_blocks(blocks: &[[u8; 5]], steps: usize) -> Packed {
    Packed {
        blocks: blocks.concat(),
        steps: lower(2).repeat(steps),
        ..small()
    }
}

/// Those that chance misses.
#[test]
fn some_are_there() {
    let all: HashSet<Write> = chosen().into_iter().collect();
    let has = |tables: Packed| assert!(all.contains(&Write::roomy(tables)));
    has(Packed::default());
    for c in [14, 15, 255, 256, u32::MAX] {
        has(Packed { c, ..small() });
    }
    has(with_blocks(&[block(5, u32::MAX), block(5, 1)], 0));
    has(with_blocks(&[], 1));
    has(with_blocks(&[block(9, 65)], 65));
    let (mut shapes, cells) = (PLAIN_SHAPE.repeat(33), vec![]);
    (shapes[2], shapes[32 * 3]) = (1, 18);
    has(Packed {
        shapes,
        cells,
        ..small()
    });
    let most = with_byte(&wide(), Table::Cells, 31, 2, 2);
    has(with_number(&most, Table::Cells, 31, 64));
}

#[test]
fn every_buffer_of_a_book_is_tried() {
    let all = chosen();
    for length in 0..=31 {
        let tables = small();
        assert!(all.contains(&Write { tables, length }), "{length}");
    }
}
