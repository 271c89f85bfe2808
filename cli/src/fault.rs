//! What a refusal means of the bytes at its place.

use crate::layout::Layout;
use xemdulba::Refusal;

/// A refusal, and what the rule says that is broken at its place.
#[derive(Clone, Copy, Debug, PartialEq, Eq)]
pub struct Fault {
    pub refusal: Refusal,
    pub rule: &'static str,
}

impl Fault {
    /// What a refusal means of these bytes.
    pub fn of(layout: &Layout, bytes: &[u8], refusal: Refusal) -> Fault {
        let place = refusal.place;
        let kind = bytes.get(place).copied().unwrap_or(0);
        let rule = match refusal.number {
            1 | 2 | 9 => unreadable(layout, bytes, kind),
            3 => disordered(bytes, place),
            4 => beyond(kind),
            5 => above(kind),
            6 => unnamed(kind),
            _ => refusal.rule(),
        };
        Fault { refusal, rule }
    }
}

/// 1, 2 and 9: too many bytes, a kind that is none, or an end inside a body.
fn unreadable(layout: &Layout, bytes: &[u8], kind: u8) -> &'static str {
    if bytes.len() > layout.longest {
        layout.too_long
    } else if layout.form(kind).is_none() {
        layout.unknown
    } else {
        layout.cut
    }
}

/// 3: the first record is missing or not C, a record is out of order, or no block stands.
fn disordered(book: &[u8], place: usize) -> &'static str {
    if book.is_empty() {
        "the first record is missing"
    } else if book.len() <= place {
        "no block stands"
    } else if place == 0 {
        "the first record is not C"
    } else {
        "the record is out of order"
    }
}

/// 4: a record is beyond 32 shapes, 32 cells, 64 blocks or 64 steps in a block.
fn beyond(kind: u8) -> &'static str {
    match kind {
        16..=18 => "more than 32 shapes",
        32 => "more than 32 cells",
        48 => "more than 64 blocks",
        _ => "more than 64 steps in a block",
    }
}

/// 5: a label, bound or trust is above 15, C above 14, a register above 7, or a value kind above 2.
fn above(kind: u8) -> &'static str {
    match kind {
        1 => "C is above 14",
        17 | 48 => "the bound is above 15",
        18 => "the trust is above 15",
        32 => "the label is above 15 or the value kind above 2",
        71 => "the register is above 7 or the label above 15",
        72 => "the label is above 15",
        _ => "a register is above 7",
    }
}

/// 6: a content shape is not lower-numbered, no cell shape is named, or what is named is not there.
fn unnamed(kind: u8) -> &'static str {
    match kind {
        18 => "the content shape is not lower-numbered",
        32 => "the shape is no cell shape, or the value names what does not exist",
        65 => "the cell does not exist",
        68 => "the shape is no cell shape",
        75 => "a block does not exist",
        _ => "the block does not exist",
    }
}
