//! Expectations derived by hand from document 01, and from 02, Four.

mod fields;

use super::*;

pub(crate) const A: &str =
    "01 03  10  12 00 09  20 01 09 00 05 00 00 00  30 0C  41 00 00  40 01 07 00 00 00  46 00 01";

/// The bytes of a text in hexadecimal; the offset of a word is its number from 0.
pub(crate) fn hex(text: &str) -> Vec<u8> {
    let words = text.split_whitespace();
    words
        .map(|word| u8::from_str_radix(word, 16).unwrap())
        .collect()
}

fn assert_refused(text: &str, number: u8, place: usize) {
    assert_bytes_refused(&hex(text), number, place);
}

fn assert_bytes_refused(bytes: &[u8], number: u8, place: usize) {
    assert_eq!(read(bytes), Err(Refusal { number, place }), "{bytes:?}");
}

fn assert_readable(text: &str) {
    assert!(read(&hex(text)).is_ok(), "{text}: {:?}", read(&hex(text)));
}

/// `head`, then `record` so many times, then `tail`.
fn repeated(head: &str, record: &str, times: usize, tail: &str) -> Vec<u8> {
    [hex(head), hex(record).repeat(times), hex(tail)].concat()
}

#[test]
fn a_is_read_in_full() {
    let block = Block {
        bound: 12,
        start: 16,
        length: 12,
        steps: vec![
            Step::Name { r: 0, cell: 0 },
            Step::Put { r: 1, number: 7 },
            Step::Write { w: 0, a: 1 },
        ],
    };
    let cell = DeclaredCell {
        place: 6,
        shape: 1,
        label: 9,
        value_kind: 0,
        number: 5,
    };
    let cell_shape = Shape::Cell {
        content: 0,
        trust: 9,
    };
    let book = Book {
        c: 3,
        shapes: vec![Shape::Plain, cell_shape],
        cells: vec![cell],
        blocks: vec![block],
    };
    assert_eq!(read(&hex(A)), Ok(book));
}

#[test]
fn samples_a1_to_a11_and_a15_are_readable() {
    let from_a = |old: &str, new: &str| {
        assert!(A.contains(old));
        assert_readable(&A.replace(old, new));
    };
    assert_readable(A);
    from_a("30 0C", "30 08");
    from_a("30 0C", "30 03");
    from_a("20 01 09", "20 01 08");
    from_a("12 00 09", "12 00 03");
    from_a("46 00 01", "47 00 08");
    from_a("46 00 01", "47 00 09");
    from_a("46 00 01", "47 00 0D");
    from_a("46 00 01", "44 02 01 01");
    from_a("46 00 01", "48 0C 44 02 01 01");
    from_a("46 00 01", "48 08 44 02 01 01");
    let a15 = A.replace("30 0C", "30 02");
    assert_readable(&a15.replace("46 00 01", "48 03 44 02 01 01"));
}

#[test]
fn samples_a12_to_a14_are_refused() {
    assert_refused("", 3, 0);
    assert_refused("01 0F", 3, 2);
    assert_refused("01 0F 30 00", 5, 0);
}

#[test]
fn every_step_is_read() {
    let steps = "40 07 78 56 34 12  41 06 00  42 05 01  43 01 02 03  44 04 01 02  45 03 04 \
                 46 02 05  47 01 0F  48 0E  49 01  4A 07  4B 06 01 00";
    let head = "01 00  11 0F  12 00 0E  20 01 0D 02 01 00 00 00  30 0C  30 0B ";
    let book = read(&hex(&[head, steps].concat())).unwrap();
    let expected = vec![
        Step::Put {
            r: 7,
            number: 0x1234_5678,
        },
        Step::Name { r: 6, cell: 0 },
        Step::Code { r: 5, block: 1 },
        Step::Add { r: 1, a: 2, b: 3 },
        Step::New {
            r: 4,
            shape: 1,
            a: 2,
        },
        Step::Read { r: 3, w: 4 },
        Step::Write { w: 2, a: 5 },
        Step::Relabel { w: 1, label: 15 },
        Step::Lower { label: 14 },
        Step::Start { block: 1 },
        Step::Exec { w: 7 },
        Step::Choose {
            r: 6,
            first: 1,
            second: 0,
        },
    ];
    assert_eq!(book.shapes[0], Shape::Code { bound: 15 });
    assert_eq!((book.blocks[0].start, book.blocks[0].length), (17, 0));
    assert_eq!((book.blocks[1].start, book.blocks[1].length), (19, 39));
    assert_eq!(book.blocks[1].steps, expected);
}

#[test]
fn refusal_1_comes_before_all_others() {
    assert_bytes_refused(&[0; 32_769], 1, 0);
    assert_bytes_refused(&[0; 32_768], 2, 0);
    let shapes = repeated("01 03", "10", 32_766, "");
    assert_bytes_refused(&shapes, 3, 32_768);
    assert_bytes_refused(&[shapes, vec![16]].concat(), 1, 0);
    let steps = repeated("01 03 30 00", "48 00", 16_382, "");
    assert_bytes_refused(&steps, 4, 4 + 64 * 2);
}

#[test]
fn refusal_2_is_at_the_record_with_the_unknown_kind_or_the_cut_body() {
    for kind in 0..=255 {
        let known = [1, 16, 17, 18, 32, 48].contains(&kind) || (64..=75).contains(&kind);
        let book = [&hex("01 03 30 05")[..], &[kind], &[0; 7]].concat();
        let refusal = Refusal {
            number: 2,
            place: 4,
        };
        assert_eq!(read(&book) == Err(refusal), !known, "{kind}");
        let alone = read(&[kind]).unwrap_err();
        assert_eq!(alone.number == 2, kind != 16, "{kind}");
    }
    assert_refused("01", 2, 0);
    assert_refused("01 03 20 00 00 00 00 00 00", 2, 2);
    assert_refused("01 03 30 05 40 00 01 02 03", 2, 4);
    assert_refused("01 03 30 05 48", 2, 4);
    for cut in ["4B", "4B 00", "4B 00 00"] {
        assert_refused(&["01 03 30 05", cut].join(" "), 2, 4);
    }
    assert_refused("01 03 30 05 4B 00 00 00 4C", 2, 8);
}

#[test]
fn a_cut_at_every_byte() {
    let whole = hex(A);
    let starts = [0, 2, 3, 6, 14, 16, 19, 25, 28];
    for length in 0..28 {
        let record = starts.iter().rposition(|&start| start <= length).unwrap();
        if starts[record] != length {
            assert_bytes_refused(&whole[..length], 2, starts[record]);
        } else if length < 16 {
            assert_bytes_refused(&whole[..length], 3, length);
        } else {
            assert!(read(&whole[..length]).is_ok());
        }
    }
}

#[test]
fn refusal_3_first_record_not_c() {
    assert_refused("10", 3, 0);
    assert_refused("30 00", 3, 0);
    assert_refused("10 01 03 30 00", 3, 0);
    assert_refused("48 00 30 00", 3, 0);
}

#[test]
fn refusal_3_out_of_order() {
    assert_refused("01 03 01 03 30 00", 3, 2);
    assert_refused("01 03 30 00 01 03", 3, 4);
    assert_refused("01 03 30 00 48 00 01 03", 3, 6);
    assert_refused("01 03 48 00 30 00", 3, 2);
    assert_refused("01 03 4B 00 00 00 30 00", 3, 2);
    assert_refused("4B 00 00 00 30 00", 3, 0);
    assert_refused("01 03 10 48 00 30 00", 3, 3);
    assert_refused("01 03 20 00 00 00 00 00 00 00 48 00 30 00", 3, 10);
    assert_refused("01 03 20 00 00 00 00 00 00 00 10 30 00", 3, 10);
    assert_refused("01 03 30 00 10", 3, 4);
    assert_refused("01 03 30 00 48 00 12 00 00", 3, 6);
    assert_refused("01 03 30 00 20 00 00 00 00 00 00 00", 3, 4);
    assert_refused("01 03 30 00 48 00 20 00 00 00 00 00 00 00", 3, 6);
}

#[test]
fn refusal_3_no_block_comes_after_out_of_order() {
    assert_refused("01 03", 3, 2);
    assert_refused("01 03 10 10", 3, 4);
    assert_refused("01 03 20 00 00 00 00 00 00 00", 3, 10);
    assert_refused("01 03 20 00 00 00 00 00 00 00 10", 3, 10);
    assert_refused("01 03 10 48 00 10", 3, 3);
}

#[test]
fn groups_may_be_missing() {
    assert_readable("01 03 30 00");
    assert_readable("01 03 10 30 00");
    assert_readable("01 03 30 00 30 00 48 00 30 00");
}

#[test]
fn refusal_4_at_the_record_beyond() {
    assert!(read(&repeated("01 03", "10", 32, "30 00")).is_ok());
    assert_bytes_refused(&repeated("01 03", "10", 33, "30 00"), 4, 34);
    let cell = "20 01 09 00 05 00 00 00";
    assert!(read(&repeated("01 03 10 12 00 09", cell, 32, "30 00")).is_ok());
    let cells = repeated("01 03 10 12 00 09", cell, 33, "30 00");
    assert_bytes_refused(&cells, 4, 6 + 32 * 8);
    assert!(read(&repeated("01 03", "30 00", 64, "")).is_ok());
    assert_bytes_refused(&repeated("01 03", "30 00", 65, ""), 4, 130);
    assert!(read(&repeated("01 03 30 00", "48 00", 64, "")).is_ok());
    assert_bytes_refused(&repeated("01 03 30 00", "48 00", 65, "30 00"), 4, 132);
}

#[test]
fn refusal_4_counts_steps_in_each_block() {
    let full = repeated("30 00", "48 00", 64, "");
    let two = [hex("01 03"), full.clone(), full].concat();
    assert!(read(&two).is_ok());
    let last = 2 + 130 + 130;
    assert_bytes_refused(&[&two[..], &[72, 0]].concat(), 4, last);
    assert_bytes_refused(&[&two[..], &[75, 0, 0, 0]].concat(), 4, last);
    // The 65th step's own fault belongs to a later stage.
    assert_bytes_refused(&[&two[..], &[75, 8, 2, 2]].concat(), 4, last);
    assert_bytes_refused(&[&two[..], &[72, 16]].concat(), 4, last);
    assert!(read(&[&two[..], &[48, 0, 72, 0]].concat()).is_ok());
    // 64 steps of 4 bytes each, and one more.
    assert!(read(&repeated("01 03 30 00", "4B 00 00 00", 64, "30 00")).is_ok());
    let chooses = repeated("01 03 30 00", "4B 00 00 00", 65, "30 00");
    assert_bytes_refused(&chooses, 4, 4 + 64 * 4);
}

#[test]
fn stages_are_tried_one_after_another() {
    // C 15 (5), content of its own number (6), start of no block (6), 65 blocks (4).
    let many = "30 00 ".repeat(65);
    let head = "01 0F 12 00 00 ";
    assert_refused(&[head, "30 00 49 07 10 00"].concat(), 2, 10);
    assert_refused(&[head, "30 00 49 07 10"].concat(), 3, 9);
    assert_refused(&[head, &many].concat(), 4, 5 + 128);
    assert_refused(&[head, "30 00 49 07"].concat(), 5, 0);
    assert_refused(&["01 0E 12 00 00 ", "30 00 49 07"].concat(), 6, 2);
    assert_refused("01 0E 12 00 00 30 00 48 10", 5, 7);
    // A later kind is looked at before an earlier order.
    assert_refused("10 01 03 FF", 2, 3);
}

#[test]
fn a_block_is_handed_back() {
    let bytes = hex(A);
    let place = 0;
    assert_eq!(stretch(&bytes, 0), Ok((16, 12)));
    assert_eq!(stretch(&bytes, 1), Err(Refusal { number: 12, place }));
    assert_eq!(stretch(&[], 0), Err(Refusal { number: 3, place }));
    let blocks = hex("01 03 30 00 48 00 30 00 30 00 48 01 4A 02");
    assert_eq!(stretch(&blocks, 0), Ok((4, 2)));
    assert_eq!(stretch(&blocks, 1), Ok((8, 0)));
    assert_eq!(stretch(&blocks, 2), Ok((10, 4)));
    assert_eq!(stretch(&blocks, 3), Err(Refusal { number: 12, place }));
    let chooses = hex("01 03 30 00 4B 00 01 00 30 00 48 01 4B 07 00 01");
    assert_eq!(stretch(&chooses, 0), Ok((4, 4)));
    assert_eq!(stretch(&chooses, 1), Ok((10, 6)));
}

#[test]
fn an_empty_last_block_starts_at_the_end() {
    assert_eq!(stretch(&hex("01 03 30 00"), 0), Ok((4, 0)));
}
