//! The runs of sums about the top, with numbers by hand.

use super::*;
use crate::cases::runs::top::{doublings, for_ever, pairs, two_causes, DOUBLED};

/// The causes of a run, in order.
fn causes_of(run: &Run) -> Vec<Cause> {
    let mut causes = Vec::new();
    trace(run, |cause, _| causes.push(cause));
    causes
}

const PASSES_TOP: Cause = Cause {
    kind: 67,
    why: Some(Why::SumPassesTop),
};

/// From the first sum past the top on, which has to be job 0's, that job stays as it is. How many
/// events are done behind it; none if there is no such sum.
fn done_behind(run: &Run) -> Option<usize> {
    let (mut blocked, mut done) = (None, 0);
    trace(run, |cause, machine| {
        if blocked.is_none() && cause == PASSES_TOP {
            blocked = Some(machine.jobs[0]);
        }
        if let Some(job) = blocked {
            assert_eq!(machine.jobs[0], job);
            done += usize::from(cause.why.is_none());
        }
    });
    blocked.map(|_| done)
}

#[test]
fn of_36_pairs_15_pass_the_top() {
    // No sum with 0 does, and with 1 both that it has with 4,294,967,295. The other four numbers
    // have 16 sums: of these 2,147,483,647 with itself fits, and with 2,147,483,648 in both orders.
    let runs = pairs();
    let (passing, others): (Vec<_>, Vec<_>) =
        runs.iter().partition(|run| done_behind(run) == Some(0));
    assert_eq!([passing.len(), others.len()], [15 * 27, 21 * 27]);
    assert!(passing
        .iter()
        .all(|run| causes_of(run).ends_with(&[PASSES_TOP; 4])));
    assert!(others.iter().all(|run| done_behind(run).is_none()));
}

#[test]
fn a_blocked_job_stays_for_ever_and_others_go_on() {
    // Of jobs 2 and 4 each goes four steps, and adds to 7 and to 2,147,483,648 where the sum fits.
    let steps = [None, Some(10), Some(10), Some(9), Some(8), Some(8)];
    // Two jobs are started and one write is done between them; job 1 goes four steps, and the
    // outsider writes or does not.
    let rest = [3 + 4 + 1, 3 + 4, 3 + 4 + 1];
    let runs = for_ever();
    assert_eq!(runs.len(), 6 * 9);
    for (number, run) in runs.iter().enumerate() {
        let expected = steps[number / 9].map(|steps| steps + rest[number % 3]);
        assert_eq!(done_behind(run), expected, "{run:?}");
    }
}

#[test]
fn another_cause_is_kept() {
    let runs = two_causes();
    let causes: Vec<Cause> = runs.iter().flat_map(causes_of).collect();
    let often = |why| causes.iter().filter(|cause| cause.why == Some(why)).count();
    // In two of three runs the first operand is not plain. Each add is tried five times.
    assert_eq!(often(Why::FirstNotPlain), 24 * 5);
    assert_eq!(often(Why::SecondNotPlain), 12 * 5);
    assert_eq!(often(Why::SumPassesTop), 0);
}

#[test]
fn a_doubling_is_blocked_where_it_should_be() {
    let often = DOUBLED.map(|(_, often)| often);
    for (run, often) in doublings().iter().zip([often, often].concat()) {
        let causes = causes_of(run);
        let (done, rest) = causes.split_at(1 + often);
        assert!(done.iter().all(|cause| cause.why.is_none()), "{run:?}");
        let why = if often == 40 {
            Why::NoStepLeft
        } else {
            Why::SumPassesTop
        };
        assert!(rest.iter().all(|cause| cause.why == Some(why)), "{run:?}");
    }
}
