//! Refusal 1, and the largest books. Few, for they make most of the file.

use super::dice::Dice;
use super::records::{
    block, c, cell, cell_shape, code_shape, lower, plain_shape, put, small, Draft,
};
use super::Bytes;

const LONGEST: usize = 32_768;

pub fn books() -> Vec<Bytes> {
    let parts = [largest(), longest(), overlong()];
    parts.concat()
}

/// All counts at their limit, the longest records of each group, behind this first shape.
fn full_book(first_shape: Bytes) -> Draft {
    let mut draft = vec![c(14), first_shape];
    draft.extend(vec![cell_shape(0, 15); 31]);
    draft.extend((0..32).map(|number| cell(31, 15, 1, number)));
    for number in 0..64 {
        draft.push(block(number % 16));
        draft.extend((0..64).map(|step| put(step % 8, scattered(number, step))));
    }
    draft
}

/// Another number for every step, in all four bytes.
fn scattered(block: u8, step: u8) -> u32 {
    (u32::from(block) * 64 + u32::from(step)) * 1_048_583
}

/// The largest readable book, 25,057 bytes long; the same with a cell shape as shape 0, whose
/// content cannot be lower-numbered.
pub fn largest() -> Vec<Bytes> {
    vec![
        full_book(code_shape(15)).concat(),
        full_book(cell_shape(0, 15)).concat(),
    ]
}

/// Books of exactly 32,768 bytes: no block stands, a body cut at the end, too many steps.
fn longest() -> Vec<Bytes> {
    let no_block = filled(&c(3), &plain_shape(), LONGEST);
    let cut = filled(&small().concat(), &put(1, 2), LONGEST);
    let steps = filled(&small().concat(), &lower(2), LONGEST + 1);
    vec![no_block, cut, steps[..LONGEST].to_vec()]
}

/// `head`, then `filler` again and again, up to `length` bytes.
fn filled(head: &[u8], filler: &[u8], length: usize) -> Bytes {
    let endless = head.iter().chain(filler.iter().cycle());
    endless.copied().take(length).collect()
}

/// Books that are too long: by one byte, or so long that their length modulo 65,536 is that of a
/// sound book.
fn overlong() -> Vec<Bytes> {
    let mut dice = Dice::new(0x5EED_0003);
    let sound = small().concat();
    let wrapped = filled(&sound, &lower(2), 65_536 + sound.len());
    let noise = (0..=LONGEST).map(|_| dice.byte()).collect();
    let full = full_book(plain_shape()).concat();
    let mut books = vec![wrapped, noise];
    let heads = [vec![], c(3), c(15), sound, full, vec![76]];
    let fillers = [plain_shape(), lower(2), vec![0]];
    for (head, filler) in heads.iter().zip(fillers.iter().cycle()) {
        books.push(filled(head, filler, LONGEST + 1));
    }
    books
}
