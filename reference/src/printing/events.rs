//! A list of events in words: a line for each event with its offset, up to the one at fault, and
//! how many there are, or the refusal, as the last line.

#[cfg(test)]
mod tests;

use crate::model::book::Refusal;
use crate::model::machine::event::{decode, split, Brought, Event, LONGEST_LIST};
use crate::model::machine::event::{EXEC, NEW, RELABEL, START, STEP, WRITE};
use crate::printing::line::{self, line, Show};

/// The listing of a list of events.
pub fn text(list: &[u8], show: Show) -> String {
    let verdict = match split(list) {
        Ok(events) => format!("events {}\n", events.len()),
        Err(Refusal { number, place }) => format!("refused {number} at {place}\n"),
    };
    if list.len() > LONGEST_LIST {
        let reason = "the list is longer than 65536 bytes";
        let words = format!("start of the list  <- refused 9: {reason}");
        return line(show, 0, &[], &words) + &verdict;
    }
    let (mut text, mut rest, mut number) = (String::new(), list, 0);
    while let Some((event, behind)) = decode(rest) {
        let size = rest.len() - behind.len();
        let words = named(number, &event_words(event));
        text += &line(show, list.len() - rest.len(), &rest[..size], &words);
        (rest, number) = (behind, number + 1);
    }
    if let Some(&kind) = rest.first() {
        let words = named(number, &unreadable(kind));
        text += &line(show, list.len() - rest.len(), rest, &words);
    }
    text + &verdict
}

/// An event's number before its words, in a column as wide as that of a record's.
fn named(number: usize, words: &str) -> String {
    let name = format!("event {number}");
    format!("{name:<9}  {words}")
}

fn event_words(event: Event) -> String {
    let (kind, fields) = match event {
        Event::Step { job } => (STEP, format!("job {job}")),
        Event::Write { q, cell, value } => {
            (WRITE, format!("by {q}, cell {cell}, {}", brought(value)))
        }
        Event::Relabel { q, cell, label } => {
            (RELABEL, format!("by {q}, cell {cell}, label {label}"))
        }
        Event::New { q, shape, value } => {
            (NEW, format!("by {q}, shape {shape}, {}", brought(value)))
        }
        Event::Exec { q, cell } => (EXEC, format!("by {q}, cell {cell}")),
        Event::Start { q, block } => (START, format!("by {q}, block {block}")),
    };
    format!("{:<7} {fields}", name(kind).unwrap_or_default())
}

fn brought(value: Brought) -> String {
    line::value(value.kind, value.number)
}

fn name(kind: u8) -> Option<&'static str> {
    match kind {
        STEP => Some("step"),
        WRITE => Some("write"),
        RELABEL => Some("relabel"),
        NEW => Some("new"),
        EXEC => Some("exec"),
        START => Some("start"),
        _ => None,
    }
}

/// Refusal 9: "has an unknown kind or a cut body".
fn unreadable(kind: u8) -> String {
    match name(kind) {
        Some(name) => format!("kind {kind} ({name})  <- refused 9: the list ends inside the event"),
        None => format!("kind {kind}  <- refused 9: no event has this kind"),
    }
}
