//! choose in books for reading: refusals 2 to 6 at each of its fields, alone and beside others. Behind
//! them books by chance with all kinds of step.

use super::dice::Dice;
use super::records::{
    block, c, choose, code, lower, name, plain_shape, put, small, start, with_inserted, with_last,
    Draft,
};
use super::valid::{draft, of_sizes, size, Size};
use super::{chance, Bytes};

pub fn books() -> Vec<Bytes> {
    let parts = [
        registers(),
        pairs_of_blocks(),
        last_blocks(),
        counts(),
        cuts(),
        order(),
        two_faults(),
        vec![full_of_chooses()],
        by_chance(),
    ];
    parts.concat()
}

/// So many blocks, and these steps in the one of this number.
pub fn blocks(count: usize, at: usize, steps: &[Bytes]) -> Draft {
    let mut draft = vec![c(3)];
    for number in 0..count {
        draft.push(block(9));
        if number == at {
            draft.extend_from_slice(steps);
        }
    }
    draft
}

/// Every register that is about the limit, and some that are in their lowest bits.
pub fn registers() -> Vec<Bytes> {
    let mut books = Vec::new();
    for r in [0, 6, 7, 8, 9, 15, 16, 64, 127, 128, 135, 255] {
        for at in 0..3 {
            let steps = [lower(2), choose(r, 0, 2), lower(2)];
            books.push(blocks(3, at, &steps).concat());
            books.push(blocks(3, at, &steps[1..2]).concat());
        }
    }
    books
}

/// Every pair of numbers about the count of blocks: the first alone is not there, the second alone,
/// both or neither. The choose stands in the first block and in the last.
pub fn pairs_of_blocks() -> Vec<Bytes> {
    let mut books = Vec::new();
    for count in [1, 2, 3] {
        let numbers = [0, count - 1, count, count + 1, 64, 128, 255];
        for first in numbers {
            for second in numbers {
                for at in [0, count - 1] {
                    let step = choose(7, first, second);
                    books.push(blocks(count.into(), at.into(), &[step]).concat());
                }
            }
        }
    }
    books
}

/// The same with as many blocks as there may be, and with one more.
fn last_blocks() -> Vec<Bytes> {
    let mut books = Vec::new();
    for count in [63, 64, 65] {
        for (first, second) in [(62, 62), (63, 0), (0, 63), (63, 63), (64, 63), (63, 64)] {
            for at in [0, 31, count - 1] {
                books.push(blocks(count, at, &[choose(0, first, second)]).concat());
            }
        }
    }
    books
}

/// A choose in the 64th and in the 65th place of a block, sound or with a fault of a later stage;
/// blocks of nothing else.
pub fn counts() -> Vec<Bytes> {
    let mut books = Vec::new();
    for last in [
        choose(7, 0, 1),
        choose(8, 0, 1),
        choose(7, 2, 0),
        choose(7, 0, 2),
    ] {
        for before in [62, 63, 64, 65] {
            for step in [lower(2), choose(1, 1, 0)] {
                let steps = [vec![step; before], vec![last.clone()]].concat();
                books.push(blocks(2, 0, &steps).concat());
                books.push(blocks(2, 1, &steps).concat());
            }
        }
    }
    books
}

/// Cut at each byte: as the first record, as the last of a book, and before another step, whose bytes
/// then belong to it.
fn cuts() -> Vec<Bytes> {
    let step = choose(7, 0, 0);
    let mut books = Vec::new();
    for length in 0..=4 {
        let cut = step[..length].to_vec();
        books.push(cut.clone());
        books.push([c(3), cut.clone()].concat());
        books.push(with_last(&small(), cut.clone()));
        books.push(blocks(1, 0, &[step.clone(), cut.clone()]).concat());
        for behind in [lower(0), name(0, 0), choose(0, 0, 0), vec![76]] {
            books.push(blocks(1, 0, &[cut.clone(), behind]).concat());
        }
    }
    for next in [74, 75, 76] {
        books.push(blocks(1, 0, &[step.clone(), vec![next]]).concat());
        books.push(blocks(1, 0, &[vec![next; 4]]).concat());
        books.push(blocks(1, 0, &[vec![next; 8]]).concat());
    }
    books
}

/// Before the first block, and a shape or C behind it.
fn order() -> Vec<Bytes> {
    let mut books = Vec::new();
    for before in 0..=small().len() {
        books.push(with_inserted(&small(), before, choose(0, 0, 0)));
    }
    for late in [c(3), plain_shape()] {
        books.push(blocks(1, 0, &[choose(0, 0, 0), late.clone()]).concat());
        books.push(blocks(1, 0, &[late, choose(0, 0, 0)]).concat());
    }
    books
}

/// Beside a record with a fault of its own, before it and behind it.
fn two_faults() -> Vec<Bytes> {
    let faulty = [
        choose(8, 0, 0),
        choose(0, 1, 0),
        choose(0, 0, 1),
        choose(8, 1, 1),
    ];
    let others = [start(1), code(0, 1), name(0, 0), put(8, 1), lower(16)];
    let mut books = Vec::new();
    for one in &faulty {
        for other in faulty.iter().chain(&others) {
            books.push(blocks(1, 0, &[one.clone(), other.clone()]).concat());
            books.push(blocks(1, 0, &[other.clone(), one.clone()]).concat());
        }
    }
    books
}

/// 64 chooses in each of 64 blocks.
fn full_of_chooses() -> Bytes {
    let steps = |own: u8| (0..64).map(move |other| choose(other % 8, own, other));
    let each = (0..64).flat_map(|own| std::iter::once(block(own % 16)).chain(steps(own)));
    std::iter::once(c(3)).chain(each).flatten().collect()
}

/// How many readable books of each size.
const SIZES: [(usize, Size); 4] = [
    (60, size(4, 3, 3, 6).with_choose()),
    (30, size(6, 5, 12, 3).with_choose()),
    (10, size(4, 3, 64, 4).with_choose()),
    (5, size(5, 4, 3, 64).with_choose()),
];

fn by_chance() -> Vec<Bytes> {
    let mut dice = Dice::new(0x5EED_0070);
    let mut books = of_sizes(&mut dice, &SIZES, draft);
    books.extend((0..300).map(|_| chance::any_book(&mut dice)));
    books
}
