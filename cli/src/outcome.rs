//! What a run or a round gives, in words and as objects.

use crate::answer::{Answer, Status};
use crate::arguments::Options;
use crate::check;
use crate::json::{Json, Pairs};
use crate::launch::Launch;
use crate::layout::BOOK;
use crate::verdict::Told;
use std::ffi::OsStr;
use xemdulba::{Cell, Job, Refusal, Run, Value};

/// A file, and what it holds.
#[derive(Clone, Copy)]
pub struct Input<'f> {
    pub file: &'f OsStr,
    pub bytes: &'f [u8],
}

/// The bytes of a file; where there are none the outcome is none.
pub fn read(answer: &mut Answer, file: &OsStr, options: Options) -> Option<Vec<u8>> {
    match answer.read(file, options.content) {
        Ok(bytes) => Some(bytes),
        Err(failure) => {
            if options.json {
                let mut pairs = vec![("outcome", Json::Null), ("file", file.into())];
                pairs.extend(failure.pairs());
                answer.tell_object(pairs);
            }
            None
        }
    }
}

/// A refusal of a book, or of the label that it is launched at, in words.
pub fn refused(book: &[u8], launch: Launch, refusal: Refusal) -> Told {
    match (refusal.number, launch, xemdulba::bound(book)) {
        (14, Launch::At(label), Ok(bound)) => Told::of_launch(refusal, label, bound),
        _ => Told::of(&BOOK, book, refusal),
    }
}

/// A refusal, by the file that is at fault.
pub fn tell_refusal(answer: &mut Answer, file: &OsStr, told: &Told, json: bool) {
    answer.end_with(Status::Refused);
    if json {
        let mut pairs = vec![("outcome", "refused".into()), ("file", file.into())];
        pairs.extend(told.pairs());
        answer.tell_object(pairs);
    } else {
        answer.tell_line(told.fault.refusal.to_string());
        answer.note_on(file, told);
    }
}

/// What is told of a book that was run.
#[derive(Clone, Copy)]
pub enum Outcome<'r> {
    Ran(&'r Run),
    Rounded(&'r Run),
}

/// Names and numbers, which stand in a line of words as they do in an object.
type Named = Vec<(&'static str, usize)>;

impl<'r> Outcome<'r> {
    fn run(self) -> &'r Run {
        match self {
            Outcome::Ran(run) | Outcome::Rounded(run) => run,
        }
    }

    fn word(self) -> &'static str {
        match self {
            Outcome::Ran(_) => "ran",
            Outcome::Rounded(_) => "rounded",
        }
    }

    /// What is in use, and of a round the turns that were used.
    fn counts(self) -> Named {
        let run = self.run();
        let mut counts = vec![("cells", run.cells.len()), ("jobs", run.jobs.len())];
        if let Outcome::Rounded(_) = self {
            counts.push(("turns", run.answers.len()));
        }
        counts
    }

    /// All of it, and whether check refuses the book.
    pub fn tell(self, answer: &mut Answer, book: Input, json: bool) {
        let check_refusal = check::check(book.bytes).err();
        if json {
            self.tell_objects(answer, check_refusal);
        } else {
            self.tell_words(answer, book.file, check_refusal);
        }
    }

    /// The outcome in words, and on standard error that check refuses the book, if it does.
    fn tell_words(self, answer: &mut Answer, book_file: &OsStr, check_refusal: Option<Told>) {
        if let Some(told) = check_refusal {
            answer.note_on(book_file, format!("check refuses this book: {told}"));
        }
        let run = self.run();
        answer.tell_line(format!("{} {}", self.word(), words(self.counts())));
        let answers: String = answers(run).map(|byte| format!(" {byte}")).collect();
        answer.tell_line(format!("answers{answers}"));
        for (i, cell) in run.cells.iter().enumerate() {
            let value = value_words(&cell.value);
            answer.tell_line(format!("{} {value}", words(of_cell(i, cell))));
        }
        for (i, job) in run.jobs.iter().enumerate() {
            answer.tell_line(words(of_job(i, job)));
            for (r, value) in job.registers.iter().enumerate() {
                answer.tell_line(format!("  register {r} {}", value_words(value)));
            }
        }
    }

    /// The outcome as objects; the first says whether check refuses the book.
    fn tell_objects(self, answer: &mut Answer, check_refusal: Option<Told>) {
        let run = self.run();
        let mut outcome = vec![("outcome", self.word().into())];
        outcome.extend(pairs(self.counts()));
        outcome.extend(check_refusal.map(|told| ("check", Json::Object(told.pairs()))));
        answer.tell_object(outcome);
        let answers = answers(run).map(Json::from).collect();
        answer.tell_object(vec![("answers", Json::List(answers))]);
        for (i, cell) in run.cells.iter().enumerate() {
            let mut object = pairs(of_cell(i, cell));
            object.push(("value", value_object(&cell.value)));
            answer.tell_object(object);
        }
        for (i, job) in run.jobs.iter().enumerate() {
            let mut object = pairs(of_job(i, job));
            let registers = job.registers.iter().map(value_object).collect();
            object.push(("registers", Json::List(registers)));
            answer.tell_object(object);
        }
    }
}

fn of_cell(index: usize, cell: &Cell) -> Named {
    vec![
        ("cell", index),
        ("shape", cell.shape.into()),
        ("trust", cell.trust.0.into()),
        ("label", cell.label.0.into()),
    ]
}

fn of_job(index: usize, job: &Job) -> Named {
    vec![
        ("job", index),
        ("block", job.block.into()),
        ("position", job.position.into()),
        ("label", job.label.0.into()),
        ("source", job.source.0.into()),
    ]
}

fn answers(run: &Run) -> impl Iterator<Item = u8> + '_ {
    run.answers.iter().map(|answer| answer.byte())
}

/// `cells 1 jobs 1`.
fn words(named: Named) -> String {
    let words: Vec<String> = named
        .iter()
        .map(|(name, n)| format!("{name} {n}"))
        .collect();
    words.join(" ")
}

fn value_words(value: &Value) -> String {
    let Value {
        kind,
        number,
        source,
    } = value;
    format!("{kind} {number} source {source}")
}

fn pairs(named: Named) -> Pairs {
    let pairs = named.into_iter();
    pairs.map(|(name, number)| (name, number.into())).collect()
}

fn value_object(value: &Value) -> Json {
    Json::Object(vec![
        ("kind", value.kind.to_string().into()),
        ("number", value.number.into()),
        ("source", value.source.0.into()),
    ])
}
