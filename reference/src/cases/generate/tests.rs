//! What the file of test books must hold.

use super::*;
use crate::model::book;
use std::collections::BTreeMap;

/// How often each refusal number is answered, 0 standing for none.
fn tally(numbers: impl Iterator<Item = u8>) -> BTreeMap<u8, usize> {
    let mut tally = BTreeMap::new();
    for number in numbers {
        *tally.entry(number).or_insert(0) += 1;
    }
    tally
}

fn readings(books: &[Bytes]) -> BTreeMap<u8, usize> {
    tally(books.iter().map(|book| match book::read(book) {
        Ok(_) => 0,
        Err(refusal) => refusal.number,
    }))
}

/// How many books each refusal must have. Those of refusal 1 are long, so they are few.
fn enough(number: u8) -> usize {
    if number == 1 {
        8
    } else {
        20
    }
}

#[test]
fn the_file_is_rich_enough() {
    let readings = readings(&books());
    assert!(readings.values().sum::<usize>() >= 2_500);
    assert!(readings[&0] >= 300);
    for number in 1..=6 {
        assert!(readings[&number] >= enough(number), "refusal {number}");
    }
}

#[test]
fn every_answer_of_the_block_call_occurs() {
    let books = books();
    let asked = |book| [0, 1, 63].map(|block| book::stretch(book, block));
    let answers: Vec<_> = books.iter().flat_map(|book| asked(book)).collect();
    let tally = tally(answers.iter().map(|answer| match answer {
        Ok(_) => 0,
        Err(refusal) => refusal.number,
    }));
    for number in [0, 1, 2, 3, 4, 5, 6, 12] {
        assert!(tally[&number] >= enough(number), "refusal {number}");
    }
    assert!(answers.iter().any(|answer| matches!(answer, Ok((_, 0)))));
    assert!(answers.iter().any(|answer| matches!(answer, Ok((_, 1..)))));
}

#[test]
fn the_fewest_and_the_most_blocks_occur() {
    let books = books();
    let readable = books.iter().filter_map(|book| book::read(book).ok());
    let numbers = readable.map(|book| book.blocks.len() as u8);
    let tally = tally(numbers);
    assert!(tally.contains_key(&1) && tally.contains_key(&64));
}

#[test]
fn the_books_are_the_same_at_every_call() {
    assert_eq!(books(), books());
}

#[test]
fn the_base_books_are_readable() {
    for draft in [records::small(), records::broad(), records::wide()] {
        assert!(book::read(&draft.concat()).is_ok());
    }
    for book in valid::books() {
        assert!(book::read(&book).is_ok());
    }
}

/// What the books of chooses are answered, by hand.
#[test]
fn each_field_of_a_choose_is_at_fault() {
    // Three of twelve registers are at most 7; each stands in 3 blocks, with 2 drafts.
    let registers = readings(&choose::registers());
    assert_eq!(registers, BTreeMap::from([(0, 3 * 6), (5, 9 * 6)]));
    // Two of seven numbers exist; the choose stands in 2 blocks, in books of 3 counts.
    let blocks = readings(&choose::pairs_of_blocks());
    assert_eq!(blocks, BTreeMap::from([(0, 4 * 6), (6, 45 * 6)]));
    // In half of the books the choose is beyond 64 steps. Of four in the others one is sound, one
    // has a register above 7, and two name a block that is not there.
    let counts = readings(&choose::counts());
    let expected = BTreeMap::from([(0, 8), (4, 32), (5, 8), (6, 16)]);
    assert_eq!(counts, expected);
}

#[test]
fn the_largest_readable_book() {
    let largest = huge::largest();
    // 2 for C, 2 + 31 * 3 for shapes, 32 * 8 for cells, 64 * (2 + 64 * 6) for blocks.
    assert_eq!(largest[0].len(), 2 + 95 + 256 + 24_704);
    assert_eq!(largest[0].len(), 25_057);
    let book = book::read(&largest[0]).unwrap();
    assert_eq!((book.shapes.len(), book.cells.len()), (32, 32));
    assert_eq!(book.blocks.len(), 64);
    assert_eq!(
        (book.blocks[63].start, book.blocks[63].length),
        (24_673, 384)
    );
    // One byte more would need a cell shape as shape 0.
    assert_eq!(largest[1].len(), 25_058);
    let refusal = book::Refusal {
        number: 6,
        place: 2,
    };
    assert_eq!(book::read(&largest[1]), Err(refusal));
}
