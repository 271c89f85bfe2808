//! Tables by chance.

use super::LIVELY;
use crate::cases::check_books::walk;
use crate::cases::generate::dice::Dice;
use crate::cases::generate::valid::{self, size, Size};
use crate::cases::runs::lively;
use crate::cases::writes::rows::{
    append_steps, block, cell, count, record_size, step, with_number, Table, PLAIN_SHAPE, TABLES,
};
use crate::cases::writes::Write;
use crate::model::writer::{tables_of, Packed};

const SMALL: Size = size(8, 4, 3, 12).with_choose();
const LARGE: Size = size(32, 32, 12, 64).with_choose();

/// Tables without end, each with a buffer, the same for the same seed, which must not be 0. They are
/// those of readable books, the same with something changed, or rows by chance.
pub fn tables(seed: u64) -> impl Iterator<Item = Write> {
    let mut dice = Dice::new(seed);
    (0..).map(move |number| any_write(&mut dice, number))
}

fn any_write(dice: &mut Dice, number: usize) -> Write {
    let mut tables = match number % 8 {
        0 => any_rows(dice),
        _ => of_book(dice),
    };
    let changes = match number % 8 {
        0 | 1 => 0,
        2..=5 => 1,
        _ => 1 + dice.below(3),
    };
    for _ in 0..changes {
        change(dice, &mut tables);
    }
    with_buffer(dice, tables)
}

/// The tables of a readable book.
fn of_book(dice: &mut Dice) -> Packed {
    let size = match dice.below(64) {
        0 => LARGE,
        _ => SMALL,
    };
    let book = match dice.below(3) {
        0 => lively::book(dice, LIVELY),
        1 => walk::draft(dice, size).concat(),
        _ => valid::draft(dice, size).concat(),
    };
    tables_of(&book).expect("these books are readable")
}

/// Rows with any fields, mostly small, and counts that add up or not.
fn any_rows(dice: &mut Dice) -> Packed {
    let mut tables = Packed {
        c: small_number(dice),
        ..Packed::default()
    };
    for _ in 0..dice.below(5) {
        tables.shapes.push(dice.pick(&[16, 17, 18, 18, 18]));
        tables.shapes.extend([0; 2].map(|_| small_byte(dice)));
    }
    for _ in 0..dice.below(4) {
        let [shape, label, kind] = [0; 3].map(|_| small_byte(dice));
        tables
            .cells
            .extend(cell(shape, label, kind, small_number(dice)));
    }
    for _ in 0..dice.below(4) {
        tables.blocks.extend(block(small_byte(dice), 0));
        for _ in 0..dice.below(6) {
            let row = any_step(dice);
            append_steps(&mut tables, row, 1);
        }
    }
    tables
}

fn any_step(dice: &mut Dice) -> [u8; 8] {
    let fields = [0; 3].map(|_| small_byte(dice));
    step(64 + dice.byte_below(12), fields, small_number(dice))
}

/// Mostly 0, so that many kinds can have it.
fn small_byte(dice: &mut Dice) -> u8 {
    match dice.below(40) {
        0 => dice.byte(),
        1..=10 => dice.byte_below(3),
        _ => 0,
    }
}

fn small_number(dice: &mut Dice) -> u32 {
    match dice.below(20) {
        0 => dice.number(),
        1..=4 => dice.below(4) as u32,
        _ => 0,
    }
}

/// A byte, a kind, a count, a C, or the length of a table is changed, or a row is put in.
fn change(dice: &mut Dice, tables: &mut Packed) {
    match dice.below(16) {
        0 => tables.c = dice.pick(&[14, 15, 255, 256, 259, u32::MAX]),
        1 | 2 => change_count(dice, tables),
        3 | 4 => change_kind(dice, tables),
        5 => change_length(dice, tables),
        6 => crowd(dice, tables),
        _ => change_byte(dice, tables),
    }
}

fn change_byte(dice: &mut Dice, tables: &mut Packed) {
    let bytes = dice.pick(&TABLES).of_mut(tables);
    if !bytes.is_empty() {
        let place = dice.below(bytes.len());
        bytes[place] = match dice.below(4) {
            0 => dice.byte(),
            _ => dice.pick(&[0, 1, 2, 3, 7, 8, 15, 16, 32]),
        };
    }
}

fn change_count(dice: &mut Dice, tables: &mut Packed) {
    let blocks = Table::Blocks.count(tables);
    if blocks > 0 {
        let (row, other) = (dice.below(blocks), dice.below(blocks));
        let by = dice.pick(&[1, 1, 2, 1 << 31, u32::MAX, u32::MAX]);
        let more = count(tables, row).wrapping_add(by);
        *tables = with_number(tables, Table::Blocks, row, more);
        // Mostly the sum in 32 bits stays as it is.
        if dice.below(4) > 0 {
            let fewer = count(tables, other).wrapping_sub(by);
            *tables = with_number(tables, Table::Blocks, other, fewer);
        }
    }
}

fn change_kind(dice: &mut Dice, tables: &mut Packed) {
    let table = dice.pick(&[Table::Shapes, Table::Steps]);
    let rows = table.count(tables);
    if rows > 0 {
        let row = dice.below(rows) * table.row();
        let kinds = [
            0, 1, 15, 16, 17, 18, 19, 32, 48, 63, 64, 65, 67, 72, 73, 74, 75, 76,
        ];
        table.of_mut(tables)[row] = dice.pick(&kinds);
    }
}

/// A few bytes more or less at the end.
fn change_length(dice: &mut Dice, tables: &mut Packed) {
    let table = dice.pick(&TABLES);
    let bytes = table.of_mut(tables);
    match dice.below(3) {
        0 => bytes.truncate(bytes.len().saturating_sub(1 + dice.below(9))),
        _ => bytes.extend((0..1 + dice.below(table.row())).map(|_| small_byte(dice))),
    }
}

/// Many rows more, seldom so many that the book is too long.
fn crowd(dice: &mut Dice, tables: &mut Packed) {
    let times = match dice.below(100) {
        0 => 16_300 + dice.below(200),
        _ => dice.below(70),
    };
    match dice.below(4) {
        0 => tables.shapes.extend(PLAIN_SHAPE.repeat(times)),
        1 => tables.cells.extend(cell(1, 9, 0, 5).repeat(times)),
        2 => tables.blocks.extend(block(9, 0).repeat(times)),
        _ if Table::Blocks.count(tables) == 0 => {}
        _ => append_steps(tables, step(72, [2, 0, 0], 0), times),
    }
}

/// Mostly long enough, and often just so or a little shorter.
fn with_buffer(dice: &mut Dice, tables: Packed) -> Write {
    let roomy = Write::roomy(tables);
    let length = match dice.below(8) {
        0 => dice.below(roomy.length + 1),
        1 => roomy.length / 2,
        2 => output(&roomy.tables),
        3 => output(&roomy.tables).saturating_sub(1),
        _ => roomy.length,
    };
    Write { length, ..roomy }
}

/// About the length of the book: exactly, where the kinds are known.
fn output(tables: &Packed) -> usize {
    let sizes = |table: Table| {
        let rows = 0..table.count(tables);
        rows.map(|row| record_size(table.kind(tables, row))).sum()
    };
    2 + TABLES.map(sizes).iter().sum::<usize>()
}

#[cfg(test)]
mod tests {
    use super::*;
    use crate::cases::writes::outcome;
    use crate::model::writer::write;
    use std::collections::BTreeMap;

    #[test]
    fn every_refusal_is_there() {
        let mut tally = BTreeMap::new();
        for case in tables(1).take(20_000) {
            let refusal = outcome(write, &case).0.err();
            let number = refusal.map_or(0, |refusal| refusal.number);
            *tally.entry(number).or_insert(0) += 1;
        }
        let numbers: Vec<u8> = tally.keys().copied().collect();
        assert_eq!(numbers, [0, 1, 2, 3, 4, 5, 6, 13]);
        assert!(tally[&0] > 4_000 && tally[&5] > 2_000, "{tally:?}");
    }

    #[test]
    fn they_are_the_same_for_the_same_seed() {
        assert!(tables(3).take(200).eq(tables(3).take(200)));
        assert!(!tables(3).take(200).eq(tables(4).take(200)));
    }
}
