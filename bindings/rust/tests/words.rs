//! The words, the numbers and the version of `include/xemdulba.h` are the crate's.

use xemdulba::{
    Refusal, BLOCK_ROW, CELL_ROW, KIT, LONGEST_BOOK, MOST_TURNS, SHAPE_ROW, STEP_ROW, VERSION,
};

const HEADER: &str = include_str!("../../../include/xemdulba.h");

fn rule(number: u32) -> &'static str {
    Refusal { number, place: 0 }.rule()
}

/// The refusals of the header's list: each number, with the comment before it.
fn header_rules() -> Vec<(u32, String)> {
    let (_, list) = HEADER.split_once("enum xemdulba_refusal {").unwrap();
    let (list, _) = list.split_once("};").unwrap();
    let commented = list.split("/*").skip(1);
    commented.map(comment_and_number).collect()
}

/// Of `COMMENT */ NAME = NUMBER,`.
fn comment_and_number(part: &str) -> (u32, String) {
    let (comment, constant) = part.split_once("*/").unwrap();
    let (name, number) = constant.split_once('=').unwrap();
    assert!(name.trim().starts_with("XEMDULBA_REFUSED_"), "{name}");
    let words = comment.split_whitespace().filter(|word| *word != "*");
    let number = number.trim().trim_end_matches(',');
    (number.parse().unwrap(), words.collect::<Vec<_>>().join(" "))
}

#[test]
fn the_rules_are_the_headers() {
    let rules = header_rules();
    assert_eq!(rules.len(), 15);
    for (at, (number, words)) in (1..).zip(rules) {
        assert_eq!((number, rule(number)), (at, words.as_str()));
    }
}

#[test]
fn rules_that_a_reader_knows() {
    assert_eq!(rule(1), "the book is longer than 32768 bytes");
    assert_eq!(rule(7), "a cell declaration breaks its typing rule");
    assert_eq!(rule(8), "a step breaks its typing rule");
    assert_eq!(rule(12), "the block asked for does not exist");
    assert_eq!(rule(13), "the output buffer is too short");
    assert_eq!(rule(14), "the launch label is above block 0's bound");
    assert_eq!(rule(15), "a round is given more than 4096 turns");
}

#[test]
fn other_numbers_have_no_rule() {
    for number in [0, 16, u32::MAX] {
        assert_eq!(rule(number), "no refusal has this number");
    }
}

#[test]
fn the_version_is_the_headers() {
    let line = format!("#define XEMDULBA_VERSION \"{VERSION}\"");
    assert!(HEADER.lines().any(|stands| stands == line));
}

#[test]
fn the_sizes_of_a_writing_are_the_headers() {
    for (name, size) in [
        ("REQUEST", 6),
        ("MOST_TURNS", MOST_TURNS as usize),
        ("SHAPE_ROW", SHAPE_ROW),
        ("CELL_ROW", CELL_ROW),
        ("BLOCK_ROW", BLOCK_ROW),
        ("STEP_ROW", STEP_ROW),
        ("LONGEST_BOOK", LONGEST_BOOK),
    ] {
        let line = format!("#define XEMDULBA_{name} {size}");
        assert!(HEADER.lines().any(|stands| stands == line), "{line}");
    }
}

#[test]
fn the_kit_is_a_line() {
    assert!(!KIT.is_empty() && KIT.trim() == KIT && KIT.lines().count() == 1);
}
