//! What stands at an offset.

use crate::library::{self, Told};

/// A record of a book or an event of a list: its kind, its fields of one byte in their order, its
/// number, and where the next begins. Fields that the kind does not have, and the number, are 0.
#[derive(Clone, Copy, Debug, PartialEq, Eq, Hash)]
pub struct Fields {
    pub kind: u8,
    pub first: u8,
    pub second: u8,
    pub third: u8,
    pub number: u32,
    /// The offset past it: that of the next, or the length of the bytes behind the last.
    pub next: usize,
}

impl Fields {
    /// What the library tells, if it is something: kind 0 is nothing. A kind and a field are bytes
    /// of the book or list.
    fn told(told: Told) -> Option<Fields> {
        (told.kind != 0).then_some(Fields {
            kind: told.kind as u8,
            first: told.first as u8,
            second: told.second as u8,
            third: told.third as u8,
            number: told.number,
            next: told.next,
        })
    }
}

/// The record at an offset of a book; none where no whole record stands there: the kind is unknown,
/// the book ends inside the record, or the offset is not in the book. Any bytes are taken, also
/// more than a book may have.
///
/// ```
/// // C is 3; a block with no steps.
/// let book = [1, 3, 48, 12];
/// let block = xemdulba::record(&book, 2).unwrap();
/// assert_eq!((block.kind, block.first, block.next), (48, 12, 4));
/// assert_eq!(xemdulba::record(&book, 4), None);
/// ```
pub fn record(book: &[u8], offset: usize) -> Option<Fields> {
    Fields::told(library::record(book, offset))
}

/// The event at an offset of a list, as `record` has the record of a book.
///
/// ```
/// // Job 0 is asked for a step; an outsider at 3 starts block 0.
/// let list = [80, 0, 85, 3, 0];
/// let start = xemdulba::event(&list, 2).unwrap();
/// assert_eq!((start.kind, start.first, start.second), (85, 3, 0));
/// assert_eq!(start.next, list.len());
/// ```
pub fn event(list: &[u8], offset: usize) -> Option<Fields> {
    Fields::told(library::event(list, offset))
}
