//! Expectations written by hand.

use crate::model::book::tests::{hex, A};
use crate::printing::line::Show;

fn text(bytes: &[u8]) -> String {
    super::text(bytes, Show::Words)
}

const LISTED_A: &str = "    0  C          3
    2  shape 0    plain
    3  shape 1    cell of shape 0, trust 9
    6  cell 0     shape 1, label 9, plain 5
   14  block 0    bound 12
   16    step 0   name    r0, cell 0
   19    step 1   put     r1, 7
   25    step 2   write   r0, r1
accepted shapes 2 cells 1 blocks 1 steps 3
";

#[test]
fn book_a() {
    assert_eq!(text(&hex(A)), LISTED_A);
}

#[test]
fn a_refused_book_is_listed_to_its_end() {
    let a4 = hex(&A.replace("20 01 09", "20 01 08"));
    let cell = "cell 0     shape 1, label 9, plain 5";
    let fault =
        "cell 0     shape 1, label 8, plain 5  <- refused 7: a cell declaration breaks its \
                 typing rule";
    let expected = LISTED_A.replace(cell, fault);
    let counts = "accepted shapes 2 cells 1 blocks 1 steps 3";
    assert_eq!(text(&a4), expected.replace(counts, "refused 7 at 6"));
}

#[test]
fn records_behind_a_fault_are_numbered_on() {
    let words = "48 01  48 02  10  30 03  48 04  01 05  48 06  20 07 08 09 0A 00 00 00  10  30 0B
        48 0C";
    let expected = "    0    step 0   lower   1  <- refused 3: the first record is not C
    2    step 1   lower   2
    4  shape 0    plain
    5  block 0    bound 3
    7    step 0   lower   4
    9  C          5
   11    step 1   lower   6
   13  cell 0     shape 7, label 8, value kind 9 10
   21  shape 1    plain
   22  block 1    bound 11
   24    step 0   lower   12
refused 3 at 0
";
    assert_eq!(text(&hex(words)), expected);
}

#[test]
fn records_with_their_bytes() {
    let listed = |words: &str| super::text(&hex(words), Show::BytesAndWords);
    let c = "    0  01 0C                    C          12\n";
    let shape = "    2  10                       shape 0    plain\n";
    let blank = " ".repeat(25);
    let end = format!("    3  {blank}end of the book  <- refused 3: no block stands\n");
    let expected = format!("{c}{shape}{end}refused 3 at 3\n");
    assert_eq!(listed("01 0C 10"), expected);
    let cut = "    2  20 01 09 00 05 00 00     kind 32 (cell)  <- refused 2: the book ends inside \
               the record\n";
    let expected = format!("{c}{cut}refused 2 at 2\n");
    assert_eq!(listed("01 0C 20 01 09 00 05 00 00"), expected);
    let unknown =
        "    2  AB CD EF 01 02 03 04 05  kind 171  <- refused 2: no record has this kind\n";
    let expected = format!("{c}{unknown}refused 2 at 2\n");
    assert_eq!(listed("01 0C AB CD EF 01 02 03 04 05 06"), expected);
    let start = format!("    0  {blank}start of the book  <- refused 1: ");
    assert!(super::text(&[1; 32_769], Show::BytesAndWords).starts_with(&start));
}

/// The line that is marked, from its offset on.
fn fault(bytes: &[u8]) -> String {
    let text = text(bytes);
    let marked: Vec<&str> = text.lines().filter(|line| line.contains("<-")).collect();
    assert_eq!(marked.len(), 1);
    marked[0].trim_start().to_string()
}

#[test]
fn every_kind_of_record() {
    let words = "01 02  10  11 0F  12 01 0E  20 02 0D 01 00 00 00 00  20 02 0D 02 00 01 00 00
        30 0C  40 01 FF FF FF FF  41 02 03  42 04 05  43 06 07 08  44 01 02 03  45 04 05  46 06 07
        47 01 0A  48 0B  49 0C  4A 02  4B 03 04 05  63";
    let text = text(&hex(words));
    let words: Vec<&str> = text.lines().map(|line| &line[7..]).collect();
    let expected = [
        "C          2",
        "shape 0    plain",
        "shape 1    code, bound 15",
        "shape 2    cell of shape 1, trust 14",
        "cell 0     shape 2, label 13, cell 0",
        "cell 1     shape 2, label 13, code 256",
        "block 0    bound 12",
        "  step 0   put     r1, 4294967295",
        "  step 1   name    r2, cell 3",
        "  step 2   code    r4, block 5",
        "  step 3   add     r6, r7, r8",
        "  step 4   new     r1, shape 2, r3",
        "  step 5   read    r4, r5",
        "  step 6   write   r6, r7",
        "  step 7   relabel r1, 10",
        "  step 8   lower   11",
        "  step 9   start   block 12",
        "  step 10  exec    r2",
        "  step 11  choose  r3, block 4, block 5",
        "kind 99  <- refused 2: no record has this kind",
    ];
    assert_eq!(words[..20], expected);
    assert_eq!(text.lines().last(), Some("refused 2 at 65"));
}

#[test]
fn refusals_that_no_record_is_at_fault_for() {
    let long = [1; 32_769];
    let start = "0  start of the book  <- refused 1: the book is longer than 32768 bytes";
    assert_eq!(fault(&long), start);
    assert_eq!(text(&long).lines().count(), 2);
    let empty = "    0  end of the book  <- refused 3: the first record is missing";
    assert_eq!(text(&[]), format!("{empty}\nrefused 3 at 0\n"));
    let end = "2  end of the book  <- refused 3: no block stands";
    assert_eq!(fault(&[1, 15]), end);
}

#[test]
fn refusals_with_their_reason() {
    let marked = |words: &str| {
        let line = fault(&hex(words));
        line.split("  <- refused ").nth(1).unwrap().to_string()
    };
    assert_eq!(marked("01"), "2: the book ends inside the record");
    assert_eq!(marked("30 00"), "3: the first record is not C");
    assert_eq!(marked("01 00 48 00"), "3: the record is out of order");
    let many = |record: &str, times| format!("01 00 {} 30 00", record.repeat(times));
    assert_eq!(marked(&many("10 ", 33)), "4: more than 32 shapes");
    assert_eq!(marked(&many("30 00 ", 64)), "4: more than 64 blocks");
    assert_eq!(marked("01 0F 30 00"), "5: C is above 14");
    assert_eq!(marked("01 00 30 10"), "5: the bound is above 15");
    assert_eq!(marked("01 00 30 00 4A 08"), "5: a register is above 7");
    assert_eq!(
        marked("01 00 30 00 4B 08 00 00"),
        "5: a register is above 7"
    );
    assert_eq!(marked("01 00 30 00 49 01"), "6: the block does not exist");
    let no_block = "6: a block does not exist";
    assert_eq!(marked("01 00 30 00 4B 00 01 00"), no_block);
    assert_eq!(marked("01 00 30 00 4B 00 00 01"), no_block);
    let no_shape = "6: the shape is no cell shape";
    assert_eq!(marked("01 00 30 00 44 00 00 00"), no_shape);
    let broken = A.replace("46 00 01", "47 00 08");
    assert_eq!(marked(&broken), "8: a step breaks its typing rule");
}

#[test]
fn a_cut_record_is_named() {
    let line = "4  kind 70 (write)  <- refused 2: the book ends inside the record";
    assert_eq!(fault(&hex("01 00 30 00 46 00")), line);
    let line = "4  kind 75 (choose)  <- refused 2: the book ends inside the record";
    assert_eq!(fault(&hex("01 00 30 00 4B 00 00")), line);
    let line = "4  kind 76  <- refused 2: no record has this kind";
    assert_eq!(fault(&hex("01 00 30 00 4C 00 00")), line);
}
