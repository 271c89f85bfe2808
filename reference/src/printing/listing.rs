//! A book in words: a line for each record with its offset, and the verdict as the last line. The
//! record at fault is marked, and those behind it are listed as they stand: only where a record
//! cannot be read, or the book is too long, the listing ends.

mod fault;
#[cfg(test)]
mod tests;
pub mod told;
mod words;

use crate::model::book::record::{split, Content, Record};
use crate::model::book::Refusal;
use crate::model::typing::{check, Verdict};
use crate::printing::line::{line, Show};

/// How many records of each group stand so far; of steps, how many behind the last block.
#[derive(Clone, Copy, Default)]
struct Numbers {
    shapes: usize,
    cells: usize,
    blocks: usize,
    steps: usize,
}

impl Numbers {
    fn count(&mut self, content: &Content) {
        match content {
            Content::C(_) => {}
            Content::Shape(_) => self.shapes += 1,
            Content::Cell(_) => self.cells += 1,
            Content::Block { .. } => {
                self.blocks += 1;
                self.steps = 0;
            }
            Content::Step(_) => self.steps += 1,
        }
    }
}

/// The listing of a book.
pub fn text(bytes: &[u8], show: Show) -> String {
    let verdict = check(bytes);
    let refusal = refusal_of(verdict);
    let mut numbers = Numbers::default();
    let mut text = String::new();
    for record in readable(bytes, refusal) {
        let (place, content) = (record.place, &record.content);
        let mut words = words::record(content, numbers);
        if let Some(refusal) = refusal.filter(|refusal| refusal.place == place) {
            words += &fault::mark(refusal, fault::reason(content, refusal));
        }
        text += &line(show, place, &bytes[place..place + record.size], &words);
        numbers.count(content);
    }
    if let Some(refusal) = refusal {
        text += &fault::without_record(bytes, refusal, show).unwrap_or_default();
    }
    text + &format!("{verdict}\n")
}

fn refusal_of(verdict: Verdict) -> Option<Refusal> {
    match verdict {
        Verdict::Accepted { .. } => None,
        Verdict::Refused { number, place } => Some(Refusal { number, place }),
    }
}

/// The records that are listed: of a book that is too long none, and else all that can be read.
fn readable(bytes: &[u8], refusal: Option<Refusal>) -> Vec<Record> {
    let end = match refusal {
        Some(Refusal { number: 1, .. }) => 0,
        Some(Refusal { number: 2, place }) => place,
        _ => bytes.len(),
    };
    split(&bytes[..end]).unwrap_or_else(|_| unreachable!("refusal 2 has the first such place"))
}
