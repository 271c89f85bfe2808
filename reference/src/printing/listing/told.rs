//! The verdict on a book in a sentence: a refusal with what it means there, and the record at fault.

use super::{fault, readable, refusal_of, words, Numbers};
use crate::model::book::Refusal;
use crate::model::typing::check;

/// The verdict, on a line.
pub fn text(bytes: &[u8]) -> String {
    let verdict = check(bytes);
    match refusal_of(verdict) {
        Some(refusal) => {
            let (reason, stands) = at_fault(bytes, refusal);
            format!("{verdict}: {reason}: {stands}\n")
        }
        None => format!("{verdict}\n"),
    }
}

/// What the refusal means, and the record at fault or what stands in its place.
fn at_fault(bytes: &[u8], refusal: Refusal) -> (&'static str, String) {
    if let Some((stands, reason)) = fault::stands_there(bytes, refusal) {
        return (reason, stands);
    }
    let mut numbers = Numbers::default();
    for record in readable(bytes, Some(refusal)) {
        let content = &record.content;
        if record.place == refusal.place {
            let reason = fault::reason(content, refusal);
            return (reason, words::told(content, numbers));
        }
        numbers.count(content);
    }
    unreachable!("a refusal's place is where a record begins")
}

#[cfg(test)]
mod tests {
    use super::*;
    use crate::model::book::tests::{hex, A};

    #[test]
    fn book_a_and_its_like() {
        let accepted = "accepted shapes 2 cells 1 blocks 1 steps 3\n";
        assert_eq!(text(&hex(A)), accepted);
        let broken = text(&hex(&A.replace("46 00 01", "47 00 08")));
        let words = "a step breaks its typing rule: block 0, step 2: relabel r0, 8";
        assert_eq!(broken, format!("refused 8 at 25: {words}\n"));
        let low = text(&hex(&A.replace("20 01 09", "20 01 08")));
        let words = "a cell declaration breaks its typing rule: cell 0: shape 1, label 8, plain 5";
        assert_eq!(low, format!("refused 7 at 6: {words}\n"));
    }

    #[test]
    fn the_record_at_fault() {
        let told = |words: &str| {
            let told = text(&hex(words));
            told.trim_end().split_once(": ").unwrap().1.to_string()
        };
        assert_eq!(told(""), "the first record is missing: end of the book");
        assert_eq!(told("01 00"), "no block stands: end of the book");
        let out_of_order = "the record is out of order: step 0: lower 7";
        assert_eq!(told("01 00 48 07"), out_of_order);
        assert_eq!(told("01 00 63"), "no record has this kind: kind 99");
        let cut = "the book ends inside the record: kind 48 (block)";
        assert_eq!(told("01 00 30"), cut);
        assert_eq!(told("01 0F 30 00"), "C is above 14: C: 15");
        let above = "the bound is above 15: shape 0: code, bound 16";
        assert_eq!(told("01 00 11 10 30 00"), above);
        let above = "the bound is above 15: block 1: bound 16";
        assert_eq!(told("01 00 30 00 30 10"), above);
        let put = "a register is above 7: block 1, step 0: put r8, 7";
        assert_eq!(told("01 00 30 00 30 00 40 08 07 00 00 00"), put);
        let choose = "a block does not exist: block 0, step 0: choose r0, block 0, block 1";
        assert_eq!(told("01 00 30 00 4B 00 00 01"), choose);
    }
}
