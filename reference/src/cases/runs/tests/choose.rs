//! The runs of chooses, with numbers by hand.

use super::*;
use crate::cases::runs::choose::{
    by_steps, full, histories, labels, launches, never_again, not_plain, numbers, refused,
    registers, NUMBERS,
};
use crate::model::machine::JOB_SIZE;

/// Block, position, label and source of a job.
type Job = [u8; 4];

/// The answers of a run, and its jobs in use.
fn after(run: &Run) -> (Vec<u8>, Vec<Job>) {
    let (outcome, [_, jobs, answers]) = outcome(machine::run, run);
    let used = outcome.expect("it is not refused").jobs;
    let heads = jobs.chunks(JOB_SIZE).take(used);
    let heads = heads.map(|record| record[..4].try_into().expect("four bytes"));
    (answers, heads.collect())
}

#[test]
fn only_0_takes_the_second_block() {
    let runs = numbers();
    assert_eq!(runs.len(), 11 * 4);
    for (run, number) in runs
        .iter()
        .zip(NUMBERS.iter().flat_map(|number| [number; 4]))
    {
        let (_, jobs) = after(run);
        // Block 2 has one step and block 1 two. The number may be from an outsider at 0 or 3.
        let chosen = if *number == 0 { [2, 1] } else { [1, 2] };
        assert_eq!(jobs.len(), 2);
        assert_eq!(jobs[1], [chosen[0], chosen[1], 12, 12], "{run:?}");
    }
}

#[test]
fn one_of_eight_registers_is_looked_at() {
    for (number, run) in registers().iter().enumerate() {
        let (_, jobs) = after(run);
        let same = number / 8 == number % 8;
        assert_eq!(jobs[1][0], if same { 1 } else { 2 }, "{run:?}");
    }
}

#[test]
fn what_is_not_plain_blocks() {
    let runs = not_plain();
    assert_eq!(runs.len(), 10 * 4);
    for (number, run) in runs.iter().enumerate() {
        let mut blocked = 0;
        trace(run, |cause, machine| {
            blocked += usize::from(cause.why == Some(Why::NotPlain));
            assert_eq!(machine.jobs.len(), 1);
        });
        // It is tried where it stands, where the put behind it stands, for the step more that is
        // asked for, and once or twice again.
        assert_eq!(blocked, 3 + 1 + number % 2, "{run:?}");
    }
}

#[test]
fn a_blocked_chooser_stays_for_ever() {
    let runs = never_again();
    assert_eq!(runs.len(), 4 * 3);
    for (number, run) in runs.iter().enumerate() {
        let (_, jobs) = after(run);
        let chosen = if number % 3 == 0 { [2, 1] } else { [1, 2] };
        assert_eq!(jobs.len(), 3);
        assert_eq!(jobs[0], [0, 2, 12, 12]);
        // An outsider at 3 has started the chooser, and one at 2 has written the number.
        assert_eq!(jobs[1], [0, 4, 3, 3]);
        assert_eq!(jobs[2], [chosen[0], chosen[1], 3, 3]);
    }
}

#[test]
fn no_job_fits_in_a_full_table() {
    let runs = full();
    assert_eq!(runs.len(), 5 * 7);
    for (number, run) in runs.iter().enumerate() {
        let (free, which) = (number / 7, number % 7);
        let (_, jobs) = after(run);
        if which == 6 {
            assert_eq!((jobs.len(), jobs[0]), (64 - free, [0, 1, 12, 12]));
            continue;
        }
        // A put and three chooses; then start, name and exec.
        let position = [1, 2, 3, 4, 6][free];
        assert_eq!((jobs.len(), jobs[0][1]), (64, position));
        let blocks = if which < 2 { [2, 1, 1] } else { [1, 2, 1] };
        let chosen = jobs[64 - free..].iter().take(3).map(|job| job[0]);
        assert_eq!(chosen.collect::<Vec<_>>(), blocks[..free.min(3)]);
    }
}

#[test]
fn chooses_alone_fill_the_table() {
    let runs = by_steps();
    let [.., many, alone] = &runs[..] else {
        panic!("there are more");
    };
    let (answers, jobs) = after(many);
    assert_eq!(answers, [&[0; 63][..], &[1; 3]].concat());
    assert_eq!((jobs.len(), jobs[0][1]), (64, 63));
    // Each chooses its own block and has no step left; the last is blocked, and then there is no
    // other.
    let (answers, jobs) = after(alone);
    let done = [0, 2].repeat(63);
    assert_eq!(answers, [&done[..], &[1, 1, 3, 3]].concat());
    assert_eq!((jobs[62], jobs[63]), ([0, 1, 15, 15], [0, 0, 15, 15]));
}

#[test]
fn the_started_job_has_the_choosers_label_and_history_alone() {
    let runs = histories();
    let choices = [(0, 0), (0, 9), (1, 0), (1, 9), (3, 65_536), (15, 0)];
    assert_eq!(runs.len(), 6 * 4 * 6 * 2);
    for (number, run) in runs.iter().enumerate() {
        let touched = number % 2 == 1;
        let (q, written) = choices[number / 2 % 6];
        let (r, lowers) = (1 + number / 12 % 4, number / 48);
        let label = [if touched { 11 } else { 12 }, 9, 9, 2, 4, 0][lowers];
        let source = if touched { label.min(q.min(3)) } else { label };
        // Of an untouched cell 5 is read. A sum with 5 is not 0, and register 4 is.
        let is_0 = match r {
            1 => written == 0 && (touched || q != 15),
            2 | 3 => false,
            _ => true,
        };
        let (_, jobs) = after(run);
        let [.., chooser, started] = &jobs[..] else {
            panic!("a job is started");
        };
        assert_eq!(chooser[2..], [label, source], "{run:?}");
        assert_eq!(*started, [2 + u8::from(is_0), 3, label, source], "{run:?}");
    }
}

#[test]
fn every_label_with_every_source() {
    for (number, run) in labels().iter().enumerate() {
        let (bound, q) = (number as u8 / 16, number as u8 % 16);
        let is_0 = q != 15 && (bound + q) % 2 == 0;
        let (_, jobs) = after(run);
        assert_eq!(jobs[1], [2 + u8::from(is_0), 1, bound, bound], "{run:?}");
    }
}

#[test]
fn a_launched_chooser_starts_at_its_label() {
    let runs = launches();
    // Without a label, with 0 to 13, and by outsiders at 0 to 3.
    assert_eq!(runs.len(), 2 * (1 + 14 + 4));
    for (number, run) in runs.iter().enumerate() {
        let label = match number % 19 {
            0 => 4,
            14 => {
                assert!(outcome(machine::run, run).0.is_err());
                continue;
            }
            given if given < 14 => given as u8 - 1,
            outsider => outsider as u8 - 15,
        };
        let (_, jobs) = after(run);
        let [.., chooser, one, two] = &jobs[..] else {
            panic!("two jobs are started");
        };
        assert_eq!(chooser[2..], [label, label]);
        let is_0 = number < 19;
        assert_eq!(*one, [2 + u8::from(is_0), 3, label, label], "{run:?}");
        assert_eq!(*two, [3, 3, label, label], "{run:?}");
    }
}

#[test]
fn runs_are_refused_for_a_choose() {
    let mut tally = BTreeMap::new();
    for run in refused() {
        let refusal = outcome(machine::run, &run).0.expect_err("it is refused");
        assert_eq!(run.book[refusal.place], 75);
        *tally.entry(refusal.number).or_insert(0) += 1;
    }
    let numbers: Vec<u8> = tally.keys().copied().collect();
    assert_eq!(numbers, [2, 3, 4, 5, 6]);
    assert!(tally.values().all(|&count| count >= 10), "{tally:?}");
}
