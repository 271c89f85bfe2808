//! "Two shapes are alike when both are plain, both code with one bound, or both cells with equal
//! trust and alike contents."

use super::scene::{Scene, Value};
use crate::cases::generate::records::{lower, name, new, write};
use crate::cases::generate::Bytes;

/// What is at the bottom of cells of cells.
#[derive(Clone, Copy)]
enum Bottom {
    Plain,
    Code(u8),
}

/// Cells of cells: the bottom, then the trusts from the innermost cell to the outermost.
#[derive(Clone)]
struct Chain {
    bottom: Bottom,
    trusts: Vec<u8>,
}

/// Trusts from the innermost cell on, with C. Some are low and lie between high ones.
const PATTERNS: [(u8, [u8; 6]); 5] = [
    (3, [9, 9, 9, 9, 9, 9]),
    (3, [9, 2, 12, 3, 15, 8]),
    (3, [3, 10, 1, 4, 2, 11]),
    (0, [1, 0, 2, 15, 0, 1]),
    (14, [15, 13, 15, 14, 0, 15]),
];

pub fn books() -> Vec<Bytes> {
    let mut books = Vec::new();
    for (c, trusts) in PATTERNS {
        let deepest = if c == 3 { 5 } else { 3 };
        for depth in 1..=deepest {
            for bottom in [Bottom::Plain, Bottom::Code(7)] {
                let chain = Chain {
                    bottom,
                    trusts: trusts[..depth].to_vec(),
                };
                books.extend(compared(c, &chain, trusts[depth]));
            }
        }
    }
    books
}

/// The chain with itself and with each of its neighbours.
fn compared(c: u8, chain: &Chain, next_trust: u8) -> Vec<Bytes> {
    let mut books = Vec::new();
    for other in neighbours(c, chain, next_trust) {
        books.push(declared(c, chain, &other));
        books.push(made(c, &other, chain));
        if chain.trusts.len() < 4 {
            books.push(written(c, chain, &other));
        }
    }
    books
}

/// The chain itself, with one trust changed at each depth, with another bottom, one cell deeper
/// and one less deep.
fn neighbours(c: u8, chain: &Chain, next_trust: u8) -> Vec<Chain> {
    let mut all = vec![chain.clone()];
    for place in 0..chain.trusts.len() {
        for trust in other_trusts(c, chain.trusts[place]) {
            let mut other = chain.clone();
            other.trusts[place] = trust;
            all.push(other);
        }
    }
    all.extend(other_bottoms(chain));
    let mut deeper = chain.clone();
    deeper.trusts.push(next_trust);
    all.push(deeper);
    if chain.trusts.len() > 1 {
        let mut shallower = chain.clone();
        shallower.trusts.pop();
        all.push(shallower);
    }
    all
}

/// A low and a high trust other than this one, as far as there are two.
fn other_trusts(c: u8, trust: u8) -> Vec<u8> {
    let low = if trust == c { c.saturating_sub(1) } else { c };
    let high = if trust == c + 1 {
        (c + 2).min(15)
    } else {
        c + 1
    };
    vec![low, high]
}

fn other_bottoms(chain: &Chain) -> Vec<Chain> {
    let bottoms = match chain.bottom {
        Bottom::Plain => vec![Bottom::Code(0)],
        Bottom::Code(bound) => vec![
            Bottom::Plain,
            Bottom::Code(bound - 1),
            Bottom::Code(bound + 1),
        ],
    };
    let with = |bottom| Chain {
        bottom,
        trusts: chain.trusts.clone(),
    };
    bottoms.into_iter().map(with).collect()
}

/// Adds the chain's shapes: the number of the innermost cell shape.
fn add_shapes(scene: &mut Scene, chain: &Chain) -> u8 {
    let mut shape = match chain.bottom {
        Bottom::Plain => scene.plain(),
        Bottom::Code(bound) => scene.code(bound),
    };
    let innermost = shape + 1;
    for &trust in &chain.trusts {
        shape = scene.cell_of(shape, trust);
    }
    innermost
}

/// Declares a cell for each shape of the chain, each naming the one before: the last one.
fn add_cells(scene: &mut Scene, chain: &Chain, innermost: u8) -> u8 {
    let mut value = match chain.bottom {
        Bottom::Plain => Value::Plain,
        Bottom::Code(_) => Value::Code(0),
    };
    let mut last = 0;
    for depth in 0..chain.trusts.len() {
        last = scene.top(innermost + depth as u8, value);
        value = Value::Cell(last);
    }
    last
}

/// Both chains' shapes, the second within one more cell, and a cell for each of the first: the
/// scene, the first chain's outermost cell and the shape around the second, with the second's
/// innermost.
fn both(c: u8, one: &Chain, other: &Chain) -> (Scene, u8, u8, u8) {
    let mut scene = Scene::new(c);
    let innermost = add_shapes(&mut scene, one);
    let other_innermost = add_shapes(&mut scene, other);
    let holder = scene.cell_of(other_innermost + other.trusts.len() as u8 - 1, 15);
    let cell = add_cells(&mut scene, one, innermost);
    (scene, cell, holder, other_innermost)
}

/// A declared cell whose content is of one shape and whose value of the other.
fn declared(c: u8, one: &Chain, other: &Chain) -> Bytes {
    let (mut scene, cell, holder, _) = both(c, one, other);
    scene.top(holder, Value::Cell(cell));
    scene.with_block(15, &[]).book()
}

/// As `declared`, by new.
fn made(c: u8, one: &Chain, other: &Chain) -> Bytes {
    let (scene, cell, holder, _) = both(c, one, other);
    let steps = [lower(15), name(1, cell), new(2, holder, 1)];
    scene.with_block(15, &steps).book()
}

/// As `declared`, by write.
fn written(c: u8, one: &Chain, other: &Chain) -> Bytes {
    let (mut scene, cell, holder, other_innermost) = both(c, one, other);
    let inside = add_cells(&mut scene, other, other_innermost);
    let target = scene.top(holder, Value::Cell(inside));
    let steps = [name(1, cell), name(2, target), write(2, 1)];
    scene.with_block(15, &steps).book()
}
