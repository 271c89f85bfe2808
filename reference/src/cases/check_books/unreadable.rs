//! Some of the books for reading that are refused 1 to 6, one of them long.

use crate::cases::generate::{self, Bytes};
use crate::model::book::{self, Refusal};

/// How many books of each refusal, and how long they may be.
const EACH: usize = 60;
const SMALL: usize = 100;

pub fn books() -> Vec<Bytes> {
    let all = generate::books();
    let mut books: Vec<Bytes> = (2..=6).flat_map(|number| some(&all, number)).collect();
    let overlong = all.into_iter().filter(|book| refused(book, 1));
    books.extend(overlong.min_by_key(|book| book.len()));
    books
}

fn refused(book: &Bytes, asked: u8) -> bool {
    matches!(book::read(book), Err(Refusal { number, .. }) if number == asked)
}

/// Small books with this refusal, from all over the list.
fn some(all: &[Bytes], number: u8) -> Vec<Bytes> {
    let fits = |book: &&Bytes| book.len() <= SMALL && refused(book, number);
    let found: Vec<&Bytes> = all.iter().filter(fits).collect();
    let apart = (found.len() / EACH).max(1);
    let chosen = found.into_iter().step_by(apart).take(EACH);
    chosen.cloned().collect()
}
