//! "lower Q, at every P: stuck if Q is above both P and C; else P is Q."

use super::scene::{breaker, levels, misfit, Scene, COMPROMISED};
use crate::cases::generate::records::{lower, new, put, start, Draft};
use crate::cases::generate::Bytes;

pub fn books() -> Vec<Bytes> {
    let parts = [probed(), neighbours_of_a15(), twice(), stairs()];
    parts.concat()
}

/// Every bound and Q around C, and what may follow the lower.
fn probed() -> Vec<Bytes> {
    let mut books = Vec::new();
    for c in COMPROMISED {
        let mut labels = levels(c);
        labels.extend([0, 9]);
        for &bound in &labels {
            for &label in &labels {
                books.extend(all_probes(c, bound, label));
            }
        }
    }
    books
}

fn all_probes(c: u8, bound: u8, label: u8) -> Vec<Bytes> {
    let mut scene = Scene::new(c);
    let just_high = scene.plain_cell(c + 1);
    let misfit = misfit(&mut scene);
    let which = usize::from(bound + 3 * label);
    let probes: [Draft; 6] = [
        vec![],
        vec![breaker(which, misfit)],
        vec![new(2, just_high, 0)],
        vec![lower(bound), breaker(which, misfit)],
        vec![start(2)],
        vec![start(3)],
    ];
    let with_probe = |probe: Draft| {
        let steps = [vec![lower(label)], probe].concat();
        let mut scene = scene.with_block(bound, &steps);
        scene.block(0, &[]);
        scene.block(label, &[]);
        scene.block(label.saturating_sub(1), &[]);
        scene.book()
    };
    probes.map(with_probe).to_vec()
}

/// A15 with other bounds, labels and trusts.
fn neighbours_of_a15() -> Vec<Bytes> {
    const LABELS: [u8; 9] = [0, 2, 3, 4, 5, 8, 9, 10, 15];
    let mut books = Vec::new();
    for bound in LABELS {
        for label in LABELS {
            for trust in [3, 4, 9] {
                books.push(like_a15(bound, label, trust));
            }
        }
    }
    books
}

fn like_a15(bound: u8, label: u8, trust: u8) -> Bytes {
    let mut scene = Scene::new(3);
    let shape = scene.plain_cell(trust);
    let steps = [put(1, 7), lower(label), new(2, shape, 1)];
    scene.with_block(bound, &steps).book()
}

/// Two lowers, then a new of least high trust, or a breaker.
fn twice() -> Vec<Bytes> {
    let mut scene = Scene::new(3);
    let just_high = scene.plain_cell(4);
    let misfit = misfit(&mut scene);
    let mut books = Vec::new();
    for bound in [0, 2, 3, 4, 9] {
        for first in [0, 2, 3, 4, 9] {
            for second in [0, 2, 3, 4, 8, 9, 10] {
                for last in [new(2, just_high, 0), breaker(books.len() / 2, misfit)] {
                    let steps = [lower(first), lower(second), last];
                    books.push(scene.with_block(bound, &steps).with_block(0, &[]).book());
                }
            }
        }
    }
    books
}

/// P goes down by one label after another, and up again in a low block; at each place a new.
fn stairs() -> Vec<Bytes> {
    let mut scene = Scene::new(5);
    let shape = scene.plain_cell(6);
    let down: Vec<u8> = (0..16).rev().collect();
    let up: Vec<u8> = (0..16).collect();
    let mut books = Vec::new();
    for labels in [down, up] {
        for place in 0..16 {
            let mut steps: Draft = labels.iter().map(|&label| lower(label)).collect();
            steps.insert(place + 1, new(1, shape, 0));
            books.push(scene.with_block(labels[0], &steps).book());
        }
    }
    books
}
