//! Books that mostly keep the rules, changed by chance in one to three places, or with a step
//! that breaks its rule.

use super::walk::{any_step, draft, step_record};
use crate::cases::generate::dice::Dice;
use crate::cases::generate::records::Draft;
use crate::cases::generate::valid::{size, Size};
use crate::cases::generate::Bytes;
use crate::model::book;
use crate::model::typing::{check, Verdict};

pub const SMALL: Size = size(8, 4, 2, 10);
pub const MIDDLE: Size = size(12, 6, 4, 20);

pub fn books() -> Vec<Bytes> {
    let mut dice = Dice::new(0x5EED_0011);
    let mut books = Vec::new();
    books.extend((0..900).map(|_| changed(&mut dice, SMALL)));
    books.extend((0..100).map(|_| changed(&mut dice, MIDDLE)));
    books.extend((0..250).map(|_| broken(&mut dice, SMALL)));
    books.extend((0..100).map(|_| broken(&mut dice, MIDDLE)));
    books
}

/// A book with one step replaced by another that breaks its rule, if one is found.
pub fn broken(dice: &mut Dice, size: Size) -> Bytes {
    let records = draft(dice, size);
    let mut bytes = records.concat();
    for _ in 0..200 {
        if matches!(check(&bytes), Verdict::Refused { .. }) {
            break;
        }
        bytes = with_another_step(dice, size, &records);
    }
    bytes
}

fn with_another_step(dice: &mut Dice, size: Size, records: &Draft) -> Bytes {
    let book = book::read(&records.concat()).expect("a sound book is readable");
    let mut changed = records.clone();
    let place = dice.pick(&places_of_steps(records));
    let kind = dice.pick(if size.chooses { &CAN_BREAK } else { OF_01 });
    changed[place] = step_record(any_step(dice, &book, kind, 15));
    changed.concat()
}

/// The kinds of step that can break their rule. Document 01 has those before choose.
const CAN_BREAK: [u8; 8] = [67, 68, 69, 70, 71, 73, 74, 75];
const OF_01: &[u8] = CAN_BREAK.split_at(7).0;

fn places_of_steps(records: &Draft) -> Vec<usize> {
    let places = 0..records.len();
    places.filter(|&place| records[place][0] >= 64).collect()
}

/// A changed book, mostly a readable one.
pub fn changed(dice: &mut Dice, size: Size) -> Bytes {
    loop {
        let mut records = draft(dice, size);
        for _ in 0..1 + dice.below(3) {
            change(dice, &mut records);
        }
        let bytes = records.concat();
        if book::read(&bytes).is_ok() || dice.below(10) == 0 {
            return bytes;
        }
    }
}

/// Mostly a field of a record; else a step taken out, doubled, or put in another place.
fn change(dice: &mut Dice, records: &mut Draft) {
    let steps = places_of_steps(records);
    if steps.is_empty() || dice.below(3) > 0 {
        return change_field(dice, records);
    }
    let (step, other) = (dice.pick(&steps), dice.pick(&steps));
    match dice.below(3) {
        0 => drop(records.remove(step)),
        1 => records.insert(other, records[step].clone()),
        _ => records.swap(step, other),
    }
}

/// One up, one down, or another label or register.
fn change_field(dice: &mut Dice, records: &mut Draft) {
    let chosen = dice.below(records.len());
    let record = &mut records[chosen];
    if record.len() < 2 {
        return;
    }
    let fields = record.len().min(4);
    let field = 1 + dice.below(fields - 1);
    record[field] = match dice.below(4) {
        0 => record[field].wrapping_add(1),
        1 => record[field].saturating_sub(1),
        2 => dice.byte_below(8),
        _ => dice.byte_below(16),
    };
}
