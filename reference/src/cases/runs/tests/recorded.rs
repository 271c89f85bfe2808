//! "Existing tools and 01's sample runs relied on the bound, so each of them now passes it, and
//! their recorded runs must give the same answers": the test runs that there were before 02, Three.

use super::*;

/// How many there were.
const COUNT: usize = 9_159;

/// The sum over those runs and what they gave, reckoned by the code below with the reference as it
/// was before 02, Three: its file had no launch label, and its machine began at the bound.
const SUM: u64 = 0x53BA_A7BC_2FF3_D493;

/// A run as it stood in the file without a launch label. Behind it what it gives: 0, the cells and
/// jobs in use, or the refusal's number, its place and 0; and all of the lent memory.
fn recorded(run: &Run) -> Vec<u8> {
    let mut bytes = file::join(std::slice::from_ref(run));
    bytes.truncate(bytes.len() - 4);
    let (outcome, lent) = outcome(machine::run, run);
    let numbers = match outcome {
        Ok(ran) => [0, ran.cells, ran.jobs],
        Err(refusal) => [refusal.number.into(), refusal.place, 0],
    };
    bytes.extend(numbers.iter().flat_map(|&n| (n as u32).to_le_bytes()));
    bytes.extend(lent.concat());
    bytes
}

/// FNV-1a of 64 bits: the sum with more bytes.
fn with(sum: u64, bytes: &[u8]) -> u64 {
    let next = |sum: u64, byte: &u8| (sum ^ u64::from(*byte)).wrapping_mul(0x0100_0000_01B3);
    bytes.iter().fold(sum, next)
}

const EMPTY_SUM: u64 = 0xCBF2_9CE4_8422_2325;

#[test]
fn the_runs_of_before_stand_first_and_give_the_same() {
    let runs = &all()[..COUNT];
    let sum = runs
        .iter()
        .fold(EMPTY_SUM, |sum, run| with(sum, &recorded(run)));
    assert_eq!(sum, SUM);
}

#[test]
fn each_of_them_passes_the_bound() {
    for run in &all()[..COUNT] {
        assert_eq!(run.launch, at_bound(&run.book));
    }
    // Those behind them have other launches.
    let all = all();
    let others = all[COUNT..].iter();
    let other = others.filter(|run| run.launch != at_bound(&run.book));
    assert!(other.count() >= 1_000);
}
