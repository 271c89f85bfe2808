//! Listings, written by hand from docs/FORMAT.md.

use super::*;
use crate::layout::{BOOK, LIST};
use crate::text;
use xemdulba::Refusal;

const A: &str =
    "01 03 10 12 00 09 20 01 09 00 05 00 00 00 30 0C 41 00 00 40 01 07 00 00 00 46 00 01";

/// The lines of text in a layout, with a refusal of a number at a place, or none for number 0.
fn listed(layout: &'static Layout, hex: &str, (number, place): (u32, usize)) -> Vec<String> {
    let bytes = text::parse(hex.as_bytes()).unwrap();
    let refusal = Refusal { number, place };
    let fault = (number != 0).then(|| Fault::of(layout, &bytes, refusal));
    let lines = lines(layout, &bytes, fault);
    lines.map(|line| line.text(false)).collect()
}

#[test]
fn book_a() {
    let expected = [
        "    0  C          3",
        "    2  shape 0    plain",
        "    3  shape 1    cell of shape 0, trust 9",
        "    6  cell 0     shape 1, label 9, plain 5",
        "   14  block 0    bound 12",
        "   16    step 0   name    r0, cell 0",
        "   19    step 1   put     r1, 7",
        "   25    step 2   write   r0, r1",
    ];
    assert_eq!(listed(&BOOK, A, (0, 0)), expected);
}

#[test]
fn bytes() {
    let book = text::parse(A.as_bytes()).unwrap();
    let lines: Vec<Line> = lines(&BOOK, &book, None).collect();
    let expected = "    6  20 01 09 00 05 00 00 00  cell 0     shape 1, label 9, plain 5";
    assert_eq!(lines[3].text(true), expected);
    let expected = "    2  10                       shape 0    plain";
    assert_eq!(lines[1].text(true), expected);
}

#[test]
fn every_kind_of_record() {
    let book = "01 02  10  11 0F  12 01 0E  20 02 0D 01 00 00 00 00  20 02 0D 02 00 01 00 00
        20 02 0D 07 09 00 00 00  30 0C  40 01 FF FF FF FF  41 02 03  42 04 05  43 06 07 08
        44 01 02 03  45 04 05  46 06 07  47 01 0A  48 0B  49 0C  4A 02  4B 03 04 05";
    let expected = [
        "C          2",
        "shape 0    plain",
        "shape 1    code, bound 15",
        "shape 2    cell of shape 1, trust 14",
        "cell 0     shape 2, label 13, cell 0",
        "cell 1     shape 2, label 13, code 256",
        "cell 2     shape 2, label 13, value kind 7 9",
        "block 0    bound 12",
        "  step 0   put     r1, 4294967295",
        "  step 1   name    r2, cell 3",
        "  step 2   code    r4, block 5",
        "  step 3   add     r6, r7, r8",
        "  step 4   new     r1, shape 2, r3",
        "  step 5   read    r4, r5",
        "  step 6   write   r6, r7",
        "  step 7   relabel r1, 10",
        "  step 8   lower   11",
        "  step 9   start   block 12",
        "  step 10  exec    r2",
        "  step 11  choose  r3, block 4, block 5",
    ];
    let lines = listed(&BOOK, book, (0, 0));
    let words: Vec<&str> = lines.iter().map(|line| &line[7..]).collect();
    assert_eq!(words, expected);
}

#[test]
fn every_kind_of_event() {
    let list = "50 00  51 03 00 00 07 00 00 00  52 02 03 04  53 03 01 00 07 00 00 00  54 03 00
        55 03 00";
    let expected = [
        "    0  event 0    step    job 0",
        "    2  event 1    write   by 3, cell 0, plain 7",
        "   10  event 2    relabel by 2, cell 3, label 4",
        "   14  event 3    new     by 3, shape 1, plain 7",
        "   22  event 4    exec    by 3, cell 0",
        "   25  event 5    start   by 3, block 0",
    ];
    assert_eq!(listed(&LIST, list, (0, 0)), expected);
}

#[test]
fn a_listing_goes_on_behind_the_fault() {
    let expected = [
        "    0  C          0",
        "    2    step 0   lower   1  <- refused 3: the record is out of order",
        "    4    step 1   lower   2",
        "    6  block 0    bound 0",
        "    8    step 0   exec    r0",
        "   10  shape 0    plain",
        "   11    step 1   exec    r1",
        "   13  block 1    bound 1",
        "   15    step 0   exec    r2",
    ];
    let book = "01 00 48 01 48 02 30 00 4A 00 10 4A 01 30 01 4A 02";
    assert_eq!(listed(&BOOK, book, (3, 2)), expected);
}

#[test]
fn what_cannot_be_read() {
    let cut = "    4  kind 70 (write)  <- refused 2: the book ends inside the record";
    assert_eq!(listed(&BOOK, "01 00 30 00 46 00", (2, 4))[2], cut);
    let unknown = "    2  kind 99  <- refused 2: no record has this kind";
    assert_eq!(listed(&BOOK, "01 00 63", (2, 2))[1], unknown);
    let choose = "    4  kind 75 (choose)  <- refused 2: the book ends inside the record";
    assert_eq!(listed(&BOOK, "01 00 30 00 4B 00 00", (2, 4))[2], choose);
    let next = "    4  kind 76  <- refused 2: no record has this kind";
    assert_eq!(listed(&BOOK, "01 00 30 00 4C 00 00 00", (2, 4))[2], next);
    let shape = "    2  kind 18 (cell shape)  <- refused 2: the book ends inside the record";
    assert_eq!(listed(&BOOK, "01 00 12", (2, 2))[1], shape);
    let cut = "    2  event 1    kind 81 (write)  <- refused 9: the list ends inside the event";
    assert_eq!(listed(&LIST, "50 00 51 00", (9, 2))[1], cut);
    let unknown = "    2  event 1    kind 9  <- refused 9: no event has this kind";
    assert_eq!(listed(&LIST, "50 00 09", (9, 2))[1], unknown);
}

#[test]
fn edges() {
    let end = "    2  end of the book  <- refused 3: no block stands";
    assert_eq!(listed(&BOOK, "01 0F", (3, 2))[1..], [end]);
    let empty = "    0  end of the book  <- refused 3: the first record is missing";
    assert_eq!(listed(&BOOK, "", (3, 0)), [empty]);
    let long = "    0  start of the book  <- refused 1: the book is longer than 32768 bytes";
    assert_eq!(listed(&BOOK, &"01".repeat(32_769), (1, 0)), [long]);
    let long = "    0  start of the list  <- refused 9: the list is longer than 65536 bytes";
    assert_eq!(listed(&LIST, &"50".repeat(65_537), (9, 0)), [long]);
}

/// The object of the last line, with its bytes.
fn last_object(layout: &'static Layout, hex: &str, refusal: Option<(u32, usize)>) -> String {
    let bytes = text::parse(hex.as_bytes()).unwrap();
    let fault = refusal.map(|(number, place)| Fault::of(layout, &bytes, Refusal { number, place }));
    let last = lines(layout, &bytes, fault).last().unwrap();
    Json::Object(last.pairs(true)).to_string()
}

#[test]
fn objects() {
    let c = r#"{"offset":0,"bytes":"01 03","record":"C","label":3}"#;
    assert_eq!(last_object(&BOOK, "01 03", None), c);
    let cell = r#"{"offset":0,"bytes":"20 01 09 03 05 00 00 00","record":"cell","number":0,"#;
    let fields = r#""shape":1,"label":9,"value":{"kind":"3","number":5}}"#;
    let line = last_object(&BOOK, "20 01 09 03 05 00 00 00", None);
    assert_eq!(line, [cell, fields].concat());
    let step = r#"{"offset":2,"bytes":"47 00 08","record":"step","number":0,"kind":"relabel","#;
    let fault = r#""w":0,"label":8,"refusal":8,"rule":"a step breaks its typing rule"}"#;
    let line = last_object(&BOOK, "30 00 47 00 08", Some((8, 2)));
    assert_eq!(line, [step, fault].concat());
    let choose = r#"{"offset":2,"bytes":"4B 00 01 02","record":"step","number":0,"kind":"choose","#;
    let fields = r#""r":0,"first_block":1,"second_block":2}"#;
    let line = last_object(&BOOK, "30 00 4B 00 01 02", None);
    assert_eq!(line, [choose, fields].concat());
    let cut = r#"{"offset":0,"bytes":"51 00","record":null,"number":0,"byte":81,"refusal":9,"#;
    let rule = r#""rule":"the list ends inside the event"}"#;
    let line = last_object(&LIST, "51 00", Some((9, 0)));
    assert_eq!(line, [cut, rule].concat());
    let end = r#"{"offset":0,"bytes":"","record":null,"refusal":3,"#;
    let rule = r#""rule":"the first record is missing"}"#;
    assert_eq!(last_object(&BOOK, "", Some((3, 0))), [end, rule].concat());
}
