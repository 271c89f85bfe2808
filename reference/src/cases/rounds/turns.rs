//! Numbers of turns: up to 4,096, above, and such whose lower bytes are few turns.

use super::{Round, LONGEST};
use crate::cases::check_books::scene::Scene;
use crate::cases::generate::records::{exec, put, start};
use crate::cases::generate::{samples, Bytes};

const FEW: [u32; 10] = [0, 1, 2, 3, 4, 63, 64, 65, 255, 256];
const MOST: [u32; 4] = [4_094, 4_095, 4_096, 4_097];
const ABOVE: [u32; 11] = [
    4_098, 4_352, 5_000, 8_191, 8_192, 65_535, 65_536, 65_537, 65_539, 69_631, 69_632,
];
const FAR_ABOVE: [u32; 7] = [
    70_001,
    1 << 24,
    (1 << 24) + 3,
    1 << 31,
    (1 << 31) + 4_096,
    u32::MAX - 1,
    u32::MAX,
];

pub fn rounds() -> Vec<Round> {
    let mut rounds = Vec::new();
    for book in books() {
        let all = FEW.iter().chain(&MOST).chain(&ABOVE).chain(&FAR_ABOVE);
        rounds.extend(all.flat_map(|&turns| about(&book, turns)));
    }
    rounds
}

/// A job of three steps; one of none; one that is blocked for ever; 64 steps; two jobs, of which one
/// is blocked when the other is done.
fn books() -> [Bytes; 5] {
    let scene = Scene::new(3);
    let two = scene.with_block(9, &[start(1), exec(0)]);
    [
        samples::books().swap_remove(0),
        scene.with_block(12, &[]).book(),
        scene.with_block(12, &[put(1, 1), exec(0)]).book(),
        scene.with_block(2, &vec![put(1, 1); 64]).book(),
        two.with_block(0, &vec![put(1, 1); 5]).book(),
    ]
}

/// Answer bytes about the turns, none, few and the most.
fn about(book: &[u8], turns: u32) -> Vec<Round> {
    let round = Round::new(book.to_vec(), turns);
    let asked = turns as usize;
    let lengths = [asked.saturating_sub(1), asked, asked + 1, 0, 3, 4_096];
    let mut lengths: Vec<usize> = lengths.into_iter().filter(|&l| l <= LONGEST[2]).collect();
    lengths.sort();
    lengths.dedup();
    lengths.iter().map(|&l| round.with_answers(l)).collect()
}
