//! Refusals in words: books that the library refuses, each by its first fault.

use super::*;
use crate::check::check;
use crate::json::Json;
use crate::text;

/// The words on a book.
fn said(hex: &str) -> String {
    let book = text::parse(hex.as_bytes()).unwrap();
    match check(&book) {
        Ok(counts) => counts.to_string(),
        Err(told) => told.to_string(),
    }
}

/// A book of book A's declarations and a block with these steps.
fn with_steps(steps: &str) -> String {
    format!("01 03 10 12 00 09 20 01 09 00 05 00 00 00 30 0C {steps}")
}

#[test]
fn accepted() {
    let steps = with_steps("41 00 00 40 01 07 00 00 00 46 00 01");
    assert_eq!(said(&steps), "accepted shapes 2 cells 1 blocks 1 steps 3");
}

#[test]
fn where_a_record_stands() {
    let step = "refused 8 at 25: a step breaks its typing rule: block 0, step 2: relabel r0, 8";
    assert_eq!(
        said(&with_steps("41 00 00 40 01 07 00 00 00 47 00 08")),
        step
    );
    let put = "refused 5 at 16: a register is above 7: block 0, step 0: put r8, 7";
    assert_eq!(said(&with_steps("40 08 07 00 00 00")), put);
    let shape = "refused 5 at 3: the trust is above 15: shape 1: cell of shape 0, trust 16";
    assert_eq!(said("01 00 10 12 00 10 30 00"), shape);
    let cell = "refused 7 at 6: a cell declaration breaks its typing rule: \
                cell 0: shape 1, label 8, plain 5";
    assert_eq!(
        said("01 03 10 12 00 09 20 01 08 00 05 00 00 00 30 0C"),
        cell
    );
    assert_eq!(said("01 0F 30 00"), "refused 5 at 0: C is above 14: C: 15");
    let block = "refused 5 at 2: the bound is above 15: block 0: bound 16";
    assert_eq!(said("01 00 30 10"), block);
    let early = "refused 3 at 2: the record is out of order: step 0: lower 0";
    assert_eq!(said("01 00 48 00 30 00"), early);
}

#[test]
fn where_no_record_stands() {
    let kind = "refused 2 at 2: no record has this kind: kind 9";
    assert_eq!(said("01 00 09"), kind);
    let cut = "refused 2 at 2: the book ends inside the record: kind 48 (block)";
    assert_eq!(said("01 00 30"), cut);
    let choose = "refused 2 at 16: the book ends inside the record: kind 75 (choose)";
    assert_eq!(said(&with_steps("4B 00 00")), choose);
    let empty = "refused 3 at 0: the first record is missing: end of the book";
    assert_eq!(said(""), empty);
    assert_eq!(
        said("01 00"),
        "refused 3 at 2: no block stands: end of the book"
    );
    let long = "refused 1 at 0: the book is longer than 32768 bytes: start of the book";
    assert_eq!(said(&"01".repeat(32_769)), long);
}

/// The rule alone.
fn rule(hex: &str) -> String {
    let said = said(hex);
    said.split(": ").nth(1).unwrap_or_default().to_string()
}

#[test]
fn order_and_numbers() {
    assert_eq!(rule("30 00"), "the first record is not C");
    assert_eq!(rule("01 00 30 00 10"), "the record is out of order");
    let many = |record: &str, times| format!("01 00 {} 30 00", record.repeat(times));
    assert_eq!(rule(&many("10 ", 33)), "more than 32 shapes");
    let cells = format!("10 12 00 00 {}", "20 01 00 00 00 00 00 00 ".repeat(33));
    assert_eq!(rule(&many(&cells, 1)), "more than 32 cells");
    assert_eq!(rule(&many("30 00 ", 64)), "more than 64 blocks");
    let steps = format!("30 00 {}", "48 00 ".repeat(65));
    assert_eq!(rule(&many(&steps, 1)), "more than 64 steps in a block");
}

#[test]
fn fields() {
    assert_eq!(rule("01 00 11 10 30 00"), "the bound is above 15");
    let cell = "the label is above 15 or the value kind above 2";
    assert_eq!(
        rule("01 00 10 12 00 00 20 01 10 00 00 00 00 00 30 00"),
        cell
    );
    assert_eq!(rule(&with_steps("48 10")), "the label is above 15");
    let relabel = "the register is above 7 or the label above 15";
    assert_eq!(rule(&with_steps("47 08 00")), relabel);
    assert_eq!(
        rule("01 00 12 00 00 30 00"),
        "the content shape is not lower-numbered"
    );
    let cell = "the shape is no cell shape, or the value names what does not exist";
    assert_eq!(rule("01 00 10 20 00 00 00 00 00 00 00 30 00"), cell);
    assert_eq!(rule(&with_steps("41 00 01")), "the cell does not exist");
    assert_eq!(
        rule(&with_steps("44 00 00 00")),
        "the shape is no cell shape"
    );
    assert_eq!(rule(&with_steps("42 00 01")), "the block does not exist");
    assert_eq!(rule(&with_steps("49 01")), "the block does not exist");
}

/// The same, and block 1 of this bound behind it.
fn with_block_1(steps: &str, bound: &str) -> String {
    with_steps(&format!("{steps} 30 {bound}"))
}

#[test]
fn choose_and_its_fields() {
    let said = |steps| said(&with_block_1(steps, "0C"));
    let accepted = "accepted shapes 2 cells 1 blocks 2 steps 1";
    assert_eq!(said("4B 07 01 00"), accepted);
    // A register that is too high comes before blocks that do not exist.
    let above = "refused 5 at 16: a register is above 7: block 0, step 0: ";
    for (step, words) in [
        ("4B 08 01 00", "choose r8, block 1, block 0"),
        ("4B FF 02 02", "choose r255, block 2, block 2"),
    ] {
        assert_eq!(said(step), [above, words].concat());
    }
    // The first block, the second, both.
    let missing = "refused 6 at 16: a block does not exist: block 0, step 0: ";
    for (step, words) in [
        ("4B 07 02 01", "choose r7, block 2, block 1"),
        ("4B 07 01 02", "choose r7, block 1, block 2"),
        ("4B 07 FF 02", "choose r7, block 255, block 2"),
    ] {
        assert_eq!(said(step), [missing, words].concat());
    }
}

/// P is 12. Either bound may be too low, and a cell's name is no number to choose by.
#[test]
fn choose_and_its_rule() {
    for step in ["4B 00 01 00", "4B 00 00 01", "4B 00 01 01"] {
        assert!(said(&with_block_1(step, "0C")).starts_with("accepted "));
        let broken = rule(&with_block_1(step, "0B"));
        assert_eq!(broken, "a step breaks its typing rule");
    }
    let name = "refused 8 at 19: a step breaks its typing rule: block 0, step 1: \
                choose r0, block 1, block 0";
    assert_eq!(said(&with_block_1("41 00 00 4B 00 01 00", "0C")), name);
}

#[test]
fn objects() {
    let file = OsStr::new("a");
    let object = |hex: &str| {
        let book = text::parse(hex.as_bytes()).unwrap();
        Json::Object(pairs(file, &check(&book))).to_string()
    };
    let accepted = r#"{"file":"a","verdict":"accepted","shapes":0,"cells":0,"blocks":1,"steps":0}"#;
    assert_eq!(object("01 00 30 00"), accepted);
    let refused = r#"{"file":"a","verdict":"refused","refusal":5,"place":0,"#;
    let told = r#""rule":"C is above 14","record":"C: 15"}"#;
    assert_eq!(object("01 0F 30 00"), [refused, told].concat());
}
