//! Expectations derived by hand from document 01, and from 02, Four.

mod choose;
mod steps;

use super::*;
use crate::model::book::tests::{hex, A};
use crate::model::book::Shape;

fn line(text: &str) -> String {
    check(&hex(text)).to_string()
}

fn assert_accepted(text: &str) {
    assert!(line(text).starts_with("accepted"), "{text}: {}", line(text));
}

fn assert_refused(text: &str, number: u8, place: usize) {
    let refused = Verdict::Refused { number, place };
    assert_eq!(check(&hex(text)), refused, "{text}");
}

/// A with one part replaced.
fn a_with(old: &str, new: &str) -> String {
    assert!(A.contains(old));
    A.replace(old, new)
}

#[test]
fn samples_a1_to_a15() {
    let three = "accepted shapes 2 cells 1 blocks 1 steps 3";
    let four = "accepted shapes 2 cells 1 blocks 1 steps 4";
    let a15 = a_with("30 0C", "30 02").replace("46 00 01", "48 03 44 02 01 01");
    let samples = [
        (A.to_string(), three),
        (a_with("30 0C", "30 08"), three),
        (a_with("30 0C", "30 03"), three),
        (a_with("20 01 09", "20 01 08"), "refused 7 at 6"),
        (a_with("12 00 09", "12 00 03"), three),
        (a_with("46 00 01", "47 00 08"), "refused 8 at 25"),
        (a_with("46 00 01", "47 00 09"), three),
        (a_with("46 00 01", "47 00 0D"), three),
        (a_with("46 00 01", "44 02 01 01"), "refused 8 at 25"),
        (a_with("46 00 01", "48 0C 44 02 01 01"), four),
        (a_with("46 00 01", "48 08 44 02 01 01"), "refused 8 at 27"),
        (String::new(), "refused 3 at 0"),
        ("01 0F".to_string(), "refused 3 at 2"),
        ("01 0F 30 00".to_string(), "refused 5 at 0"),
        (a15, "refused 8 at 27"),
    ];
    for (number, (text, expected)) in samples.iter().enumerate() {
        assert_eq!(&line(text), expected, "A{}", number + 1);
    }
}

#[test]
fn acceptance_counts_all_records() {
    let counts = "accepted shapes 3 cells 2 blocks 3 steps 4";
    let head = "01 03 10 12 00 09 11 02 20 01 0F 00 00 00 00 00 20 01 0F 00 00 00 00 00";
    let blocks = "30 05 48 06 48 07 30 05 30 05 41 00 00 41 01 01";
    assert_eq!(line(&[head, blocks].join(" ")), counts);
    assert_eq!(
        line("01 03 30 00"),
        "accepted shapes 0 cells 0 blocks 1 steps 0"
    );
}

/// One plain cell of the given trust and label, C being 3; its record is at 6.
fn plain_cell(trust: &str, label: &str) -> String {
    format!("01 03 10 12 00 {trust} 20 01 {label} 00 05 00 00 00 30 00")
}

#[test]
fn a_declared_cell_needs_label_at_least_trust() {
    assert_accepted(&plain_cell("04", "04"));
    assert_accepted(&plain_cell("04", "0F"));
    assert_refused(&plain_cell("04", "03"), 7, 6);
    assert_accepted(&plain_cell("0F", "0F"));
    assert_refused(&plain_cell("0F", "0E"), 7, 6);
    // "Others need nothing."
    assert_accepted(&plain_cell("03", "02"));
    assert_accepted(&plain_cell("03", "00"));
    assert_accepted(&plain_cell("00", "00"));
}

#[test]
fn a_declared_cell_needs_a_fitting_value() {
    // Shapes: plain, code 9, a plain cell, and the tested cell; cell 0 is the plain cell. The
    // tested cell is at 19; the blocks' bounds are 8, 9 and 10.
    let with = |content: &str, trust: &str, value: &str| {
        let shapes = format!("01 03 10 11 09 12 00 05 12 {content} {trust}");
        let cells = format!("20 02 0F 00 00 00 00 00 20 03 0F {value} 00 00 00");
        format!("{shapes} {cells} 30 08 30 09 30 0A")
    };
    let fitting = ["00 00", "02 01", "01 00"];
    for (content, value) in ["00", "01", "02"].into_iter().zip(fitting) {
        assert_accepted(&with(content, "04", value));
        for other in fitting.into_iter().filter(|other| *other != value) {
            assert_refused(&with(content, "04", other), 7, 19);
            assert_accepted(&with(content, "03", other));
        }
    }
    assert_accepted(&with("01", "04", "02 02"));
    assert_refused(&with("01", "04", "02 00"), 7, 19);
    // A cell that names itself is never of its own content's shape.
    assert_refused(&with("02", "04", "01 01"), 7, 19);
    assert_accepted(&with("02", "03", "01 01"));
}

#[test]
fn the_first_cell_at_fault_counts_and_comes_before_the_steps() {
    let head = "01 03 10 12 00 09 ";
    let (sound, faulty) = ("20 01 09 00 05 00 00 00 ", "20 01 08 00 05 00 00 00 ");
    assert_refused(&[head, sound, faulty, sound, "30 00"].concat(), 7, 14);
    assert_refused(&[head, sound, faulty, faulty, "30 00"].concat(), 7, 14);
    assert_refused(&[head, sound, sound, faulty, "30 09 4A 00"].concat(), 7, 22);
    assert_refused(&[head, sound, sound, "30 09 4A 00"].concat(), 8, 24);
}

#[test]
fn refusals_1_to_6_come_first() {
    // A declared cell and a step at fault, then a start of no block.
    let head = "01 03 10 12 00 09 20 01 08 00 05 00 00 00 30 09 4A 00 ";
    assert_refused(&[head, "49 01"].concat(), 6, 18);
    assert_refused(&[head, "48 10"].concat(), 5, 18);
    assert_refused(&[head, "10"].concat(), 3, 18);
    assert_refused(&[head, "4C"].concat(), 2, 18);
    assert_refused(&[head, "4B 00 00"].concat(), 2, 18);
    assert_refused(head, 7, 6);
}

/// Shapes with C 3: 0 plain, 1 plain, 2 code 7, 3 code 8, then cells.
fn shapes_of(cells: &[(u8, u8)]) -> Book {
    let mut shapes = vec![
        Shape::Plain,
        Shape::Plain,
        Shape::Code { bound: 7 },
        Shape::Code { bound: 8 },
    ];
    let cells = cells.iter();
    shapes.extend(cells.map(|&(content, trust)| Shape::Cell { content, trust }));
    Book {
        c: 3,
        shapes,
        ..Book::default()
    }
}

#[test]
fn likeness() {
    let book = shapes_of(&[
        (0, 9),  // 4
        (1, 9),  // 5, alike to 4
        (0, 10), // 6
        (0, 3),  // 7
        (1, 0),  // 8, alike to 7
        (2, 9),  // 9
        (3, 9),  // 10
        (7, 9),  // 11
        (8, 9),  // 12, alike to 11
        (4, 9),  // 13
        (6, 9),  // 14
        (11, 2), // 15
        (12, 1), // 16, alike to 15
        (13, 1), // 17
    ]);
    let shapes = Shapes::of(&book);
    let pairs = [(0, 1), (4, 5), (7, 8), (11, 12), (15, 16)];
    for one in 0..18 {
        for other in 0..18 {
            let alike = one == other || pairs.contains(&(one.min(other), one.max(other)));
            assert_eq!(shapes.alike(one, other), alike, "{one} {other}");
        }
    }
}

#[test]
fn fitting() {
    let book = shapes_of(&[(0, 9), (1, 9), (0, 10)]);
    let shapes = Shapes::of(&book);
    let fits = |value, content| shapes.fits(value, content);
    assert!(fits(Known::Plain, 0) && !fits(Known::Plain, 2) && !fits(Known::Plain, 4));
    assert!(fits(Known::Code(7), 2) && fits(Known::Code(8), 2) && fits(Known::Code(8), 3));
    assert!(!fits(Known::Code(7), 3) && !fits(Known::Code(6), 2));
    assert!(!fits(Known::Code(7), 0) && !fits(Known::Code(7), 4));
    assert!(fits(Known::CellOf(4), 5) && !fits(Known::CellOf(4), 6));
    assert!(!fits(Known::CellOf(4), 0) && !fits(Known::CellOf(4), 2));
    for content in 0..7 {
        assert!(!fits(Known::Unknown, content));
    }
}

#[test]
fn labels_up_to_c_count_as_0() {
    let book = shapes_of(&[(0, 3), (0, 4)]);
    let shapes = Shapes::of(&book);
    assert_eq!((shapes.counted(3), shapes.counted(4)), (0, 4));
    assert!(shapes.is_low(3) && !shapes.is_low(4));
    assert_eq!((shapes.cell(4), shapes.cell(5)), ((0, 0), (0, 4)));
}

#[test]
fn a_block_begins_with_plain_registers_of_effect_p() {
    let book = Book {
        c: 3,
        ..Book::default()
    };
    let plain = Register {
        shape: Known::Plain,
        effect: 4,
    };
    let rules = Rules::new(&book);
    assert_eq!(rules.start(4).registers, [plain; 8]);
    assert_eq!(rules.start(3).registers, [Register::LOW; 8]);
    assert!(!rules.start(4).lowered);
    assert_eq!((rules.start(3).p, rules.start(15).p), (3, 15));
}

#[test]
fn blocks_are_typed_apart() {
    let book = |first: &str, second: &str| {
        let head = "01 03 10 12 00 09 20 01 0F 00 05 00 00 00";
        format!("{head} 30 0C {first} 30 0C {second}")
    };
    assert_refused(&book("48 0C", "44 02 01 00"), 8, 20);
    assert_refused(&book("48 03", "45 02 00"), 8, 20);
    assert_refused(&book("48 0D", "45 02 00"), 8, 20);
    assert_refused(&book("41 00 00", "46 00 01"), 8, 21);
    assert_accepted(&book("41 00 00", "43 01 00 00"));
    assert_refused(&book("43 01 00 00 4A 00", "4A 00"), 8, 20);
}
