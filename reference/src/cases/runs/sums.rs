//! For tests: the exact sums that a run asks for, and what the run gave before 02, Two.

use super::{Run, BEFORE};
use crate::model::book::Step;
use crate::model::machine::event::Event;
use crate::model::machine::{run_by, Datum, Job, Lent, Machine, Outcome, Value};

/// The least sum that is no plain number.
pub const TOP: u64 = 4_294_967_296;

/// What a run gives, the buffers behind it, and the exact sum of each add that an event lets a job
/// try, done or not, if both operands are plain.
pub type Played = ((Outcome, Lent), Vec<u64>);

pub fn play(run: &Run) -> Played {
    play_by(run, |machine, event| machine.take(event).answer())
}

/// The same by the machine of document 01: add gives "the sum modulo 4,294,967,296".
pub fn play_before(run: &Run) -> Played {
    play_by(run, |machine, event| match adding(machine, event) {
        Some((job, registers)) => add_before(&mut machine.jobs[job], registers),
        None => machine.take(event).answer(),
    })
}

fn play_by(run: &Run, take: impl Fn(&mut Machine, Event) -> u8) -> Played {
    let mut lent = run.lengths.map(|length| vec![BEFORE; length]);
    let mut sums = Vec::new();
    let outcome = run_by(
        &run.book,
        run.launch,
        &run.events,
        &mut lent,
        |machine, event| {
            sums.extend(exact_sum(machine, event));
            take(machine, event)
        },
    );
    ((outcome, lent), sums)
}

/// The job that an event lets try an add, and the add's registers r, a and b.
fn adding(machine: &Machine, event: Event) -> Option<(usize, [u8; 3])> {
    let Event::Step { job: number } = event else {
        return None;
    };
    let job = machine.jobs.get(usize::from(number))?;
    match machine.book.blocks[job.block].steps.get(job.position)? {
        Step::Add { r, a, b } => Some((number.into(), [*r, *a, *b])),
        _ => None,
    }
}

fn exact_sum(machine: &Machine, event: Event) -> Option<u64> {
    let (number, [_, a, b]) = adding(machine, event)?;
    let job = &machine.jobs[number];
    match (job.register(a).datum, job.register(b).datum) {
        (Datum::Plain(first), Datum::Plain(second)) => Some(u64::from(first) + u64::from(second)),
        _ => None,
    }
}

/// "add: blocked unless both are plain; the sum modulo 4,294,967,296; both histories, then the
/// act." The answer.
fn add_before(job: &mut Job, [r, a, b]: [u8; 3]) -> u8 {
    let (first, second) = (job.register(a), job.register(b));
    let (Datum::Plain(one), Datum::Plain(two)) = (first.datum, second.datum) else {
        return 1;
    };
    let sum = Value {
        datum: Datum::Plain(one.wrapping_add(two)),
        history: first.history.with(second.history),
    };
    job.registers[usize::from(r)] = sum.after(job.history);
    job.position += 1;
    0
}
