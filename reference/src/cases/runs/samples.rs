//! "Sample books" with short lists.

use super::events::{code, exec, new, plain, relabel, start, steps, write};
use super::Run;
use crate::cases::generate::{samples, Bytes};

pub fn runs() -> Vec<Run> {
    let mut runs = Vec::new();
    for book in samples::books() {
        for events in lists() {
            runs.push(Run::new(book.clone(), events));
        }
    }
    runs
}

pub fn lists() -> Vec<Bytes> {
    let mut lists: Vec<Bytes> = (0..7).map(|count| steps(0, count)).collect();
    for q in [3, 4] {
        lists.push(write(q, 0, plain(7)));
        lists.push([write(q, 0, plain(7)), steps(0, 4)].concat());
        lists.push([steps(0, 4), relabel(q, 0, 0), write(q, 0, code(0))].concat());
        lists.push([start(q, 0), steps(1, 4), steps(0, 4)].concat());
        lists.push([new(q, 1, plain(9)), exec(q, 1), exec(q, 0)].concat());
    }
    lists
}
