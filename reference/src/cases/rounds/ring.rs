//! Which job is next: from the one after the last stepped, wrapping at the jobs in use.

use super::Round;
use crate::cases::check_books::scene::{Scene, Value};
use crate::cases::generate::records::{choose, exec, name, put, start, Draft};
use crate::cases::generate::Bytes;

pub fn rounds() -> Vec<Round> {
    let parts = [
        chains(),
        growing(),
        lengths(),
        gaps(),
        alone(),
        with_each(&few_jobs(), &[0, 1, 2, 3, 4, 5, 6, 7, 8, 9, 10, 12, 16, 64]),
    ];
    parts.concat()
}

/// Each book with each number of turns.
fn with_each(books: &[Bytes], turns: &[u32]) -> Vec<Round> {
    let with = |book: &Bytes| {
        let book = book.clone();
        turns.iter().map(move |&t| Round::new(book.clone(), t))
    };
    books.iter().flat_map(with).collect()
}

fn puts(count: usize) -> Draft {
    vec![put(6, 9); count]
}

/// C is 3. Cells 0 to 2, of trust 2 and label 9, hold blocks 1 to 3, and all blocks have bound 12:
/// there are four at least, the last ones empty.
fn book(blocks: &[Draft]) -> Bytes {
    let mut scene = Scene::new(3);
    let shape = scene.plain_cell(2);
    for block in 1..4 {
        scene.declare(shape, 9, Value::Code(block));
    }
    for block in blocks {
        scene.block(12, block);
    }
    for _ in blocks.len()..4 {
        scene.block(12, &[]);
    }
    scene.book()
}

/// How many ways there are to start a block.
const STARTERS: usize = 4;

/// Steps of which the last starts block 1, 2 or 3.
fn starter(which: usize, block: u8) -> Draft {
    match which % STARTERS {
        0 => vec![start(block)],
        1 => vec![name(0, block - 1), exec(0)],
        2 => vec![put(1, 256), choose(1, block, 0)],
        _ => vec![choose(2, 0, block)],
    }
}

/// So many puts, the starter, and so many puts.
fn starting(which: usize, block: u8, [before, behind]: [usize; 2]) -> Draft {
    [puts(before), starter(which, block), puts(behind)].concat()
}

/// Job 0 starts job 1 and job 1 starts job 2, at each place, by each starter. The last of the table
/// mostly starts the next.
fn chains() -> Vec<Round> {
    let mut books = Vec::new();
    for which in 0..STARTERS {
        for first in [[0, 0], [0, 1], [0, 3], [1, 0], [2, 2]] {
            for second in [[0, 0], [0, 2], [1, 1], [3, 0]] {
                for third in [0, 1, 4] {
                    let blocks = [
                        starting(which, 1, first),
                        starting(which + first[1], 2, second),
                        puts(third),
                    ];
                    books.push(book(&blocks));
                }
            }
        }
    }
    with_each(&books, &[2, 3, 5, 40])
}

/// Jobs that start jobs of their own block, until the table is full; then they are blocked, or go
/// on.
fn growing() -> Vec<Round> {
    let own = |block: Draft| Scene::new(3).with_block(12, &block).book();
    let [one, two, three] = [1, 2, 3].map(|count| vec![start(0); count]);
    let books = [
        own(one.clone()),
        own(two.clone()),
        own([puts(1), one.clone()].concat()),
        own([one.clone(), puts(2)].concat()),
        own([one, puts(1), two, puts(30)].concat()),
        own(vec![choose(0, 0, 0), put(0, 1), choose(0, 0, 0)]),
        book(&[
            starter(1, 1),
            [starter(1, 1), puts(1), starter(1, 2)].concat(),
        ]),
        book(&[three, starter(2, 1), [puts(2), starter(3, 3)].concat()]),
    ];
    let turns = [1, 2, 5, 10, 31, 62, 63, 64, 65, 127, 128, 129, 300, 4_096];
    with_each(&books, &turns)
}

/// Three jobs of 0 to 3 steps more; job 0 starts both at once or not.
fn lengths() -> Vec<Round> {
    let mut books = Vec::new();
    for first in 0..4 {
        for second in 0..4 {
            for third in 0..4 {
                let together = [starter(0, 1), starter(0, 2), puts(first)].concat();
                let apart = [starter(0, 1), puts(first), starter(0, 2)].concat();
                for block in [together, apart] {
                    books.push(book(&[block, puts(second), puts(third)]));
                }
            }
        }
    }
    with_each(&books, &[4, 20])
}

/// Job 0 starts five jobs, each of which has steps or none: every pattern.
fn gaps() -> Vec<Round> {
    let mut books = Vec::new();
    for pattern in 0..32_u8 {
        let each = |job: u8| start(if pattern >> job & 1 == 1 { 1 } else { 3 });
        let starts: Draft = (0..5).map(each).collect();
        books.push(book(&[[starts, puts(2)].concat(), puts(7)]));
    }
    with_each(&books, &[9, 60])
}

/// One job alone has steps left when the others are done: job 0, or one of so many that it starts.
/// It is found after a whole ring.
fn alone() -> Vec<Round> {
    let mut books = Vec::new();
    for count in [0, 1, 2, 3, 30, 62] {
        for short in [0, 1] {
            let others = vec![start(2); count];
            // Job 0 has at most 64 steps.
            let own = puts(40.min(64 - count));
            books.push(book(&[[others.clone(), own].concat(), vec![], puts(short)]));
            for place in [0, count / 2, count] {
                let mut starts = others.clone();
                starts.insert(place, start(1));
                books.push(book(&[starts, puts(64), puts(short)]));
            }
        }
    }
    with_each(&books, &[50, 200, 4_096])
}

/// Books with two to five jobs.
pub fn few_jobs() -> Vec<Bytes> {
    vec![
        book(&[vec![start(1), start(1), put(6, 9)], puts(2)]),
        book(&[
            vec![start(1), put(6, 9)],
            vec![start(2), put(6, 9)],
            puts(1),
        ]),
        book(&[vec![start(1), start(2)], vec![exec(7)], puts(2)]),
        book(&[vec![start(1); 4], vec![put(6, 9), exec(7)]]),
        book(&[vec![start(1), exec(7)], puts(3)]),
    ]
}
