//! What the runs must reach beyond the causes of the answers.

use super::super::{all, Run};
use crate::model::book::Step;
use crate::model::machine::event::Event;
use crate::model::machine::{admitted, check_launch, Datum, Job, Machine, Value, TABLE};
use std::collections::{BTreeMap, BTreeSet};

/// What a run reaches, by name.
type Reached = BTreeSet<String>;

/// The step that an event lets a job take, if it is done; its job and the machine as they are
/// before it.
struct Taken<'m> {
    machine: &'m Machine<'m>,
    job: &'m Job,
    step: Step,
}

impl Taken<'_> {
    /// The values that the step moves or looks at.
    fn moved(&self) -> Vec<(&str, Value)> {
        let register = |number| self.job.register(number);
        let content = |w| match register(w).datum {
            Datum::Cell(number) => self.machine.cells[number].value,
            _ => unreachable!("the step is done"),
        };
        match self.step {
            Step::Add { a, b, .. } => vec![("first", register(a)), ("second", register(b))],
            Step::New { a, .. } | Step::Write { a, .. } => vec![("value", register(a))],
            Step::Read { w, .. } => vec![("content", content(w)), ("name", register(w))],
            Step::Relabel { w, .. } => vec![("name", register(w))],
            Step::Exec { w } => vec![("code", content(w)), ("name", register(w))],
            Step::Choose { r, .. } => vec![("number", register(r))],
            _ => vec![],
        }
    }

    fn note(&self, reached: &mut Reached) {
        let kind = self.step.kind();
        let own = self.job.history.source();
        if own < self.job.label {
            reached.insert(format!("{kind} by a job touched below its label"));
        }
        for (what, value) in self.moved() {
            if value.history.source() < own {
                reached.insert(format!("{kind} of a touched {what}"));
            }
            if value.history.source() > own {
                reached.insert(format!("{kind} of a clean {what} by a lower job"));
            }
            let declared = self.machine.book.cells.len();
            if matches!(value.datum, Datum::Cell(number) if number >= declared) {
                reached.insert(format!("{kind} of a made cell as {what}"));
            }
        }
        if let (Step::Add { .. }, [first, second]) = (self.step, &self.moved()[..]) {
            if let (Datum::Plain(one), Datum::Plain(two)) = (first.1.datum, second.1.datum) {
                if u64::from(one) + u64::from(two) == u64::from(u32::MAX) {
                    reached.insert("67 of the greatest sum".to_string());
                }
            }
        }
    }
}

/// The job that an event steps, and its step.
fn taken<'m>(machine: &'m Machine<'m>, event: Event) -> Option<(usize, Taken<'m>)> {
    let Event::Step { job: number } = event else {
        return None;
    };
    let job = machine.jobs.get(usize::from(number))?;
    let step = *machine.book.blocks[job.block].steps.get(job.position)?;
    let taken = Taken { machine, job, step };
    Some((number.into(), taken))
}

fn would_be_done(machine: &Machine, event: Event) -> bool {
    let mut copy = Machine {
        book: machine.book,
        cells: machine.cells.clone(),
        jobs: machine.jobs.clone(),
    };
    copy.take(event).answer() == 0
}

fn reached(run: &Run) -> Reached {
    let mut reached = Reached::new();
    let Ok((book, events)) = admitted(&run.book, &run.events) else {
        return reached;
    };
    let Ok(label) = check_launch(&book, run.launch) else {
        return reached;
    };
    let mut machine = Machine::new(&book, label);
    let mut blocked = BTreeSet::new();
    for event in events {
        let mut noted = Reached::new();
        let mut key = None;
        if let Some((number, taken)) = taken(&machine, event) {
            key = Some((number, taken.job.position));
            if would_be_done(&machine, event) {
                taken.note(&mut noted);
            }
        }
        let cause = machine.take(event);
        reached.extend(noted);
        match (cause.answer(), key) {
            (1, Some(key)) => drop(blocked.insert(key)),
            (0, Some(key)) if blocked.contains(&key) => {
                reached.insert(format!("{} done after it was blocked", cause.kind));
            }
            _ => {}
        }
        let (cells, jobs) = (machine.cells.len(), machine.jobs.len());
        if cells == TABLE && jobs == TABLE {
            reached.insert("both tables full".to_string());
        }
    }
    reached
}

const EXPECTED: [&str; 43] = [
    "both tables full",
    "64 by a job touched below its label",
    "65 by a job touched below its label",
    "66 by a job touched below its label",
    "67 by a job touched below its label",
    "68 by a job touched below its label",
    "69 by a job touched below its label",
    "70 by a job touched below its label",
    "71 by a job touched below its label",
    "72 by a job touched below its label",
    "73 by a job touched below its label",
    "74 by a job touched below its label",
    "75 by a job touched below its label",
    "67 of a touched first",
    "67 of a touched second",
    "67 of a clean first by a lower job",
    "67 of a clean second by a lower job",
    "67 of the greatest sum",
    "68 of a touched value",
    "68 of a clean value by a lower job",
    "68 of a made cell as value",
    "69 of a touched content",
    "69 of a touched name",
    "69 of a clean content by a lower job",
    "69 of a clean name by a lower job",
    "69 of a made cell as name",
    "69 of a made cell as content",
    "70 of a touched value",
    "70 of a clean value by a lower job",
    "70 of a made cell as value",
    "70 done after it was blocked",
    "71 of a touched name",
    "71 of a clean name by a lower job",
    "71 of a made cell as name",
    "71 done after it was blocked",
    "74 of a touched code",
    "74 of a touched name",
    "74 of a clean code by a lower job",
    "74 of a clean name by a lower job",
    "74 of a made cell as name",
    "74 done after it was blocked",
    "75 of a touched number",
    "75 of a clean number by a lower job",
];

#[test]
fn the_runs_reach_what_random_ones_miss() {
    let mut tally: BTreeMap<String, usize> = BTreeMap::new();
    for run in all() {
        for name in reached(&run) {
            *tally.entry(name).or_insert(0) += 1;
        }
    }
    println!("{tally:#?}");
    for name in EXPECTED {
        assert!(tally.get(name).is_some_and(|&count| count >= 5), "{name}");
    }
}
