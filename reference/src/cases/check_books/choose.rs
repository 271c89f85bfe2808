//! 02, Four: "With P above C, both bounds must be at least P, and r must be plain unless its effect is
//! low." Behind them books by chance with all kinds of step.

use super::change::{broken, changed, MIDDLE, SMALL};
use super::scene::{all_triples, levels, Scene, Value, COMPROMISED};
use super::walk::draft;
use crate::cases::generate::dice::Dice;
use crate::cases::generate::records::{
    add, choose, code, exec, lower, name, new, put, read, relabel, start, write, Draft,
};
use crate::cases::generate::valid::{of_sizes, size, Size};
use crate::cases::generate::Bytes;

pub fn books() -> Vec<Bytes> {
    let parts = [
        bounds(),
        next_to_p(),
        lowered(),
        own_block(),
        registers(),
        one_register(),
        behind_stuck(),
        before_others(),
        places(),
        full_blocks(),
        by_chance(),
    ];
    parts.concat()
}

/// Block 0 of bound P with these steps, and blocks 1 and 2 of these bounds.
fn between(scene: &Scene, p: u8, steps: &[Bytes], [first, second]: [u8; 2]) -> Bytes {
    let scene = scene.with_block(p, steps).with_block(first, &[]);
    scene.with_block(second, &[]).book()
}

/// P and both bounds about C.
pub fn bounds() -> Vec<Bytes> {
    let mut books = Vec::new();
    for (c, [p, first, second]) in all_triples() {
        let bounds = [first, second];
        books.push(between(&Scene::new(c), p, &[choose(0, 1, 2)], bounds));
    }
    books
}

/// Every P with a bound one below it, at it and one above, the first or the second; the other is the
/// top, or the same.
pub fn next_to_p() -> Vec<Bytes> {
    let mut books = Vec::new();
    for p in 0..16_u8 {
        for bound in [p.saturating_sub(1), p, (p + 1).min(15)] {
            for bounds in [[bound, 15], [15, bound], [bound, bound]] {
                let scene = Scene::new(3);
                books.push(between(&scene, p, &[choose(0, 1, 2)], bounds));
                books.push(between(&scene, p, &[choose(0, 2, 1)], bounds));
            }
        }
    }
    books
}

/// After a lower: P counts, not the block's bound. A choose before it as well.
fn lowered() -> Vec<Bytes> {
    let mut books = Vec::new();
    for (c, [p, first, second]) in all_triples() {
        let steps = [lower(p), choose(0, 1, 2)];
        books.push(between(&Scene::new(c), 15, &steps, [first, second]));
        if first == second {
            let steps = [choose(0, 1, 2), lower(p), choose(0, 0, 0)];
            books.push(between(&Scene::new(c), p, &steps, [first, second]));
        }
    }
    books
}

/// A block that chooses itself, alone or beside another; both blocks the same.
fn own_block() -> Vec<Bytes> {
    let mut books = Vec::new();
    for c in COMPROMISED {
        for p in levels(c) {
            for bound in levels(c) {
                for (first, second) in [(0, 0), (0, 1), (1, 0), (1, 1)] {
                    let scene = Scene::new(c).with_block(p, &[choose(3, first, second)]);
                    books.push(scene.with_block(bound, &[choose(3, 1, 1)]).book());
                }
            }
        }
    }
    books
}

/// Cells 0 to 4: plain, code and a plain cell in cells of trust above C; plain and a cell in cells of
/// low trust.
fn cells(c: u8) -> Scene {
    let mut scene = Scene::new(c);
    let plain = scene.plain();
    // Every block fits this content.
    let code = scene.code(0);
    let trust = c + 1;
    let of_plain = scene.cell_of(plain, trust);
    let of_code = scene.cell_of(code, trust);
    let of_cell = scene.cell_of(of_plain, trust);
    let low_plain = scene.cell_of(plain, c);
    let low_cell = scene.cell_of(of_plain, c);
    scene.top(of_plain, Value::Plain);
    scene.top(of_code, Value::Code(1));
    scene.top(of_cell, Value::Cell(0));
    scene.top(low_plain, Value::Plain);
    scene.top(low_cell, Value::Cell(0));
    scene
}

/// The shape of cells that hold plain with low trust.
const LOW_PLAIN: u8 = 5;

/// Ways to fill register 1.
fn sources() -> Vec<Draft> {
    let mut sources = vec![
        vec![],
        vec![put(1, 0)],
        vec![put(1, 7)],
        vec![code(1, 1)],
        vec![add(1, 0, 0)],
        vec![new(1, LOW_PLAIN, 0)],
        vec![name(2, 3), read(2, 2), add(1, 2, 0)],
        vec![name(2, 4), read(2, 2), read(1, 2)],
        vec![name(2, 2), read(2, 2), read(1, 2)],
        vec![name(1, 0), put(1, 1)],
        vec![put(1, 1), name(1, 3)],
    ];
    for cell in 0..5 {
        sources.push(vec![name(1, cell)]);
        sources.push(vec![name(2, cell), read(1, 2)]);
    }
    sources
}

/// r of every sort, plain, code, cell and unknown, at each P about C; with bounds that are enough, and
/// with one that is not. Before the choose P may fall.
pub fn registers() -> Vec<Bytes> {
    let mut books = Vec::new();
    for c in COMPROMISED {
        for source in sources() {
            let steps = [&source[..], &[choose(1, 1, 2)]].concat();
            for p in [c, c + 1, 15] {
                for bounds in [[p, p], [p - u8::from(p > 0), p], [p, p - u8::from(p > 0)]] {
                    books.push(between(&cells(c), p, &steps, bounds));
                }
            }
            for label in [c, c + 1] {
                let steps = [&source[..], &[lower(label), choose(1, 1, 2)]].concat();
                books.push(between(&cells(c), 15, &steps, [label, label]));
            }
        }
    }
    books
}

/// One register is a cell, code or low, and one is chosen by.
fn one_register() -> Vec<Bytes> {
    let mut books = Vec::new();
    for other in 0..8 {
        let fills = [
            vec![name(other, 0)],
            vec![code(other, 1)],
            vec![name(other, 4), read(other, other)],
        ];
        for fill in fills {
            for r in 0..8 {
                let steps = [&fill[..], &[choose(r, 1, 2)]].concat();
                books.push(between(&cells(3), 12, &steps, [12, 13]));
            }
        }
    }
    books
}

/// Steps that break their rule at P 12, since block 1 has bound 11 and block 2 bound 12: by the first
/// bound, the second, both, and the register.
fn breakers() -> [Bytes; 5] {
    [
        choose(0, 1, 2),
        choose(0, 2, 1),
        choose(0, 1, 1),
        [code(6, 0), choose(6, 2, 2)].concat(),
        [name(6, 0), choose(6, 0, 2)].concat(),
    ]
}

/// The cells and blocks that `breakers` ask for, block 0 of bound 12 having these steps.
fn with_breakers(steps: &[Bytes]) -> Bytes {
    let mut scene = Scene::new(3);
    let top = scene.plain_cell(15);
    let middle = scene.plain_cell(9);
    scene.top(top, Value::Plain);
    scene.top(middle, Value::Plain);
    between(&scene, 12, steps, [11, 12])
}

/// "After a stuck step the rest of the block passes." The last of these causes are not stuck.
fn behind_stuck() -> Vec<Bytes> {
    let causes = [
        lower(13),
        [name(1, 0), write(1, 2)].concat(),
        [name(1, 0), relabel(1, 15)].concat(),
        [name(1, 1), relabel(1, 13)].concat(),
        lower(12),
        [name(1, 1), write(1, 2)].concat(),
        start(2),
    ];
    let mut books = Vec::new();
    for cause in &causes {
        for breaker in breakers() {
            books.push(with_breakers(&[cause.clone(), breaker.clone()]));
            books.push(with_breakers(&[breaker, cause.clone()]));
        }
        books.push(with_breakers(&[cause.clone(), choose(0, 2, 0)]));
    }
    books
}

/// It leaves P, the registers and the need of a lower as they are: what stands behind it passes and
/// breaks as without it.
fn before_others() -> Vec<Bytes> {
    let behind: [Draft; 12] = [
        vec![start(1)],
        vec![start(2)],
        vec![choose(0, 2, 2)],
        vec![choose(0, 1, 2)],
        vec![new(5, 3, 0)],
        vec![write(4, 0)],
        vec![write(4, 4)],
        vec![read(5, 0)],
        vec![read(5, 4)],
        vec![add(5, 0, 4)],
        vec![exec(0)],
        vec![lower(11), start(1)],
    ];
    let mut books = Vec::new();
    for steps in behind {
        for head in [vec![name(4, 1)], vec![lower(12), name(4, 1)]] {
            for r in [0, 3] {
                let all = [&head[..], &[choose(r, 2, 0)], &steps].concat();
                books.push(with_breakers(&all));
                books.push(with_breakers(&[&head[..], &steps].concat()));
            }
        }
    }
    books
}

/// A choose at fault in every step of three blocks, alone and behind another fault.
fn places() -> Vec<Bytes> {
    let sound = [put(0, 1), choose(0, 0, 2), name(2, 0), lower(12)];
    let with = |faults: &[(usize, Bytes)]| {
        let mut scene = Scene::new(3);
        let shape = scene.plain_cell(9);
        scene.top(shape, Value::Plain);
        for number in 0..3 {
            let mut steps = sound.to_vec();
            for (at, fault) in faults.iter().filter(|fault| fault.0 / 4 == number) {
                steps[at % 4] = fault.clone();
            }
            // Block 1, of which breakers know, has a bound at C.
            scene.block([12, 3, 15][number], &steps);
        }
        scene.book()
    };
    let mut books = Vec::new();
    for second in 0..12 {
        for fault in [choose(7, 1, 0), choose(7, 0, 1), choose(7, 1, 1)] {
            books.push(with(&[(second, fault.clone())]));
            books.extend((0..second).map(|first| {
                let other = if first % 2 == 0 {
                    exec(7)
                } else {
                    fault.clone()
                };
                with(&[(first, other), (second, fault.clone())])
            }));
        }
    }
    books
}

/// The 64th step of a block, the 65th, and a step in the 64th block.
fn full_blocks() -> Vec<Bytes> {
    let mut books = Vec::new();
    for last in [
        choose(0, 2, 2),
        choose(0, 1, 2),
        choose(0, 2, 1),
        choose(4, 2, 2),
    ] {
        for before in [63, 64] {
            let mut steps = vec![name(4, 0); before];
            steps.push(last.clone());
            books.push(with_breakers(&steps));
        }
        let mut scene = Scene::new(3).with_block(12, &[]);
        scene.block(11, &[]);
        for _ in 2..63 {
            scene.block(12, &[]);
        }
        books.push(scene.with_block(12, &[code(4, 0), last]).book());
    }
    books
}

/// How many books of each size, which are accepted.
const SIZES: [(usize, Size); 3] = [
    (80, size(8, 4, 3, 12).with_choose()),
    (30, size(12, 8, 4, 24).with_choose()),
    (6, size(16, 12, 8, 64).with_choose()),
];

fn by_chance() -> Vec<Bytes> {
    let mut dice = Dice::new(0x5EED_0071);
    let mut books = of_sizes(&mut dice, &SIZES, draft);
    books.extend((0..200).map(|_| changed(&mut dice, SMALL.with_choose())));
    books.extend((0..200).map(|_| broken(&mut dice, MIDDLE.with_choose())));
    books
}
