//! Books by chance that are not made sound: bytes, records, and changed sound books.

use super::dice::Dice;
use super::records::{specimen, Draft, KINDS};
use super::valid::{draft, size, Size};
use super::Bytes;

const SMALL: Size = size(4, 3, 4, 4);

pub fn books() -> Vec<Bytes> {
    let mut dice = Dice::new(0x5EED_0002);
    let mut books = Vec::new();
    books.extend((0..100).map(|_| any_bytes(&mut dice, SMALL)));
    books.extend((0..100).map(|_| likely_bytes(&mut dice, SMALL)));
    books.extend((0..150).map(|_| any_records(&mut dice, SMALL)));
    books.extend((0..400).map(|_| with_changed_bytes(&mut dice, SMALL)));
    books.extend((0..250).map(|_| with_changed_records(&mut dice, SMALL)));
    books
}

/// The kinds that are drawn.
fn kinds(size: Size) -> &'static [u8] {
    match size.chooses {
        true => &KINDS,
        false => &KINDS[..KINDS.len() - 1],
    }
}

/// A book of any of these sorts, with all kinds of step.
pub fn any_book(dice: &mut Dice) -> Bytes {
    let sorts = [
        any_bytes,
        likely_bytes,
        any_records,
        with_changed_bytes,
        with_changed_records,
    ];
    dice.pick(&sorts)(dice, SMALL.with_choose())
}

fn any_bytes(dice: &mut Dice, _: Size) -> Bytes {
    (0..dice.below(40)).map(|_| dice.byte()).collect()
}

/// Behind a C, bytes that are kinds or small numbers.
fn likely_bytes(dice: &mut Dice, size: Size) -> Bytes {
    let mut book = vec![1, dice.byte_below(16)];
    for _ in 0..dice.below(30) {
        book.push(match dice.below(3) {
            0 => dice.pick(kinds(size)),
            _ => dice.byte_below(10),
        });
    }
    book
}

/// Whole records with any fields, in order of their kinds or in none.
fn any_records(dice: &mut Dice, size: Size) -> Bytes {
    let count = 1 + dice.below(10);
    let mut records: Draft = (0..count).map(|_| any_record(dice, size)).collect();
    if dice.below(3) > 0 {
        records.sort();
        records.insert(0, vec![1, dice.byte_below(16)]);
    }
    records.concat()
}

fn any_record(dice: &mut Dice, size: Size) -> Bytes {
    let mut record = specimen(dice.pick(&kinds(size)[1..]));
    for field in &mut record[1..] {
        if dice.below(3) == 0 {
            *field = dice.pick(&[0, 1, 2, 3, 7, 8, 15, 16, 255]);
        }
    }
    record
}

/// A sound book with one to three bytes changed, removed or put in.
fn with_changed_bytes(dice: &mut Dice, size: Size) -> Bytes {
    let mut book = draft(dice, size).concat();
    for _ in 0..1 + dice.below(3) {
        let place = dice.below(book.len());
        match dice.below(3) {
            0 => book[place] = dice.byte(),
            1 if book.len() > 1 => drop(book.remove(place)),
            _ => book.insert(place, dice.byte()),
        }
    }
    book
}

/// A sound book with one to four records changed, removed, put in, doubled or moved.
fn with_changed_records(dice: &mut Dice, size: Size) -> Bytes {
    let mut records = draft(dice, size);
    for _ in 0..1 + dice.below(4) {
        change_record(dice, &mut records, size);
    }
    records.concat()
}

fn change_record(dice: &mut Dice, records: &mut Draft, size: Size) {
    let (place, other) = (dice.below(records.len()), dice.below(records.len()));
    match dice.below(6) {
        0 if records.len() > 1 => drop(records.remove(place)),
        1 => records.swap(place, other),
        2 => records.insert(place, records[other].clone()),
        3 => records.insert(place, any_record(dice, size)),
        _ => {
            let byte = dice.below(records[place].len());
            records[place][byte] = dice.pick(&[0, 1, 4, 8, 15, 16, 48, 72, 255]);
        }
    }
}
