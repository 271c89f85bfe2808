//! A book or a list of events record by record, with the place of a refusal marked: what `list` and
//! `events` print, and what a refusal's message says of its record.

use crate::fault::Fault;
use crate::json::{Json, Pairs};
use crate::layout::{Form, Group, Layout};
use crate::walk::{Entry, Walk};
use std::fmt::Write;

#[cfg(test)]
mod tests;

/// What stands at an offset.
#[derive(Debug)]
enum Stands<'b> {
    Whole(Entry<'b>),
    /// A kind with no whole record behind it. An event has a number even so.
    Cut {
        kind: u8,
        form: Option<&'static Form>,
        head: Option<Head>,
    },
    /// The start or the end.
    Edge(&'static str),
}

/// A group, and a number in it.
type Head = (Group, Option<usize>);

/// A line of a listing.
#[derive(Debug)]
pub struct Line<'b> {
    pub offset: usize,
    bytes: &'b [u8],
    stands: Stands<'b>,
    /// The fault whose place this is.
    fault: Option<Fault>,
}

/// The lines of a book or a list as far as its records can be read, and the line of the fault.
pub fn lines<'b>(
    layout: &'static Layout,
    bytes: &'b [u8],
    fault: Option<Fault>,
) -> impl Iterator<Item = Line<'b>> {
    let is_long = bytes.len() > layout.longest;
    Lines {
        layout,
        bytes,
        walk: Walk::new(layout, if is_long { &[] } else { bytes }),
        fault,
    }
}

struct Lines<'b> {
    layout: &'static Layout,
    bytes: &'b [u8],
    walk: Walk<'b>,
    /// The fault, until its line has come.
    fault: Option<Fault>,
}

impl<'b> Iterator for Lines<'b> {
    type Item = Line<'b>;

    fn next(&mut self) -> Option<Line<'b>> {
        let Some(entry) = self.walk.next() else {
            let fault = self.fault.take()?;
            return Some(self.behind(fault));
        };
        let is_here = |fault: &mut Fault| fault.refusal.place == entry.offset;
        Some(Line {
            offset: entry.offset,
            bytes: entry.bytes,
            fault: self.fault.take_if(is_here),
            stands: Stands::Whole(entry),
        })
    }
}

/// So many bytes of a cut record are shown at most, as many as the longest record has.
const SHOWN: usize = 8;

impl<'b> Lines<'b> {
    /// The line behind all whole records, where the fault is at none of them.
    fn behind(&mut self, fault: Fault) -> Line<'b> {
        let offset = fault.refusal.place;
        let rest = self.bytes.get(offset..).unwrap_or(&[]);
        let is_long = self.bytes.len() > self.layout.longest;
        let (bytes, stands) = match rest.first() {
            _ if is_long => (&[][..], Stands::Edge(self.layout.start)),
            None => (rest, Stands::Edge(self.layout.end)),
            Some(&kind) => (&rest[..rest.len().min(SHOWN)], self.cut(kind)),
        };
        Line {
            offset,
            bytes,
            stands,
            fault: Some(fault),
        }
    }

    fn cut(&mut self, kind: u8) -> Stands<'b> {
        let group = self.layout.group;
        Stands::Cut {
            kind,
            form: self.layout.form(kind),
            head: group.map(|group| (group, self.walk.numbers.next(group))),
        }
    }
}

impl Stands<'_> {
    fn head(&self) -> Option<Head> {
        match self {
            Stands::Whole(entry) => Some((entry.form.group, entry.number)),
            Stands::Cut { head, .. } => *head,
            Stands::Edge(_) => None,
        }
    }

    /// The words behind the head. The name of a step or an event has so many columns.
    fn words(&self, width: usize) -> String {
        match self {
            Stands::Whole(entry) => entry_words(entry, width),
            Stands::Cut {
                kind,
                form: Some(form),
                ..
            } => format!("kind {kind} ({})", form.name()),
            Stands::Cut { kind, .. } => format!("kind {kind}"),
            Stands::Edge(words) => words.to_string(),
        }
    }

    /// The keys of an object.
    fn pairs(&self) -> Pairs {
        let record = match self {
            Stands::Whole(entry) => entry.form.group.name().into(),
            _ => Json::Null,
        };
        let mut pairs = vec![("record", record)];
        let number = self.head().and_then(|(_, number)| number);
        pairs.extend(number.map(|number| ("number", number.into())));
        match self {
            Stands::Whole(entry) => {
                let word = Some(entry.form.word).filter(|word| !word.is_empty());
                pairs.extend(word.map(|word| ("kind", word.into())));
                pairs.extend(entry.fields().map(|(key, _, amount)| (key, amount.into())));
            }
            Stands::Cut { kind, .. } => pairs.push(("byte", (*kind).into())),
            Stands::Edge(_) => {}
        }
        pairs
    }
}

fn head_words((group, number): Head) -> String {
    match number {
        Some(number) => format!("{} {number}", group.name()),
        None => group.name().to_string(),
    }
}

fn entry_words(entry: &Entry, width: usize) -> String {
    let word = entry.form.word;
    let mut words = match entry.form.group {
        Group::Step | Group::Event => format!("{word:<width$} "),
        _ => word.to_string(),
    };
    for (_, before, amount) in entry.fields() {
        // A String takes all that is written to it.
        let _ = write!(words, "{before}{amount}");
    }
    words
}

/// Two digits for each byte.
fn hex(bytes: &[u8]) -> String {
    let digits: Vec<String> = bytes.iter().map(|byte| format!("{byte:02X}")).collect();
    digits.join(" ")
}

impl Line<'_> {
    /// What stands there, in a sentence: `block 0, step 2: relabel r0, 8`.
    pub fn sentence(&self) -> String {
        let block = match &self.stands {
            Stands::Whole(entry) => entry.block,
            _ => None,
        };
        let block = block.map_or(String::new(), |block| format!("block {block}, "));
        let head = self.stands.head();
        let head = head.map_or(String::new(), |head| head_words(head) + ": ");
        block + &head + &self.stands.words(0)
    }

    /// What stands there, in columns: `  step 2   relabel r0, 8`.
    fn columns(&self) -> String {
        let words = self.stands.words(7);
        match self.stands.head() {
            Some(head @ (Group::Step, _)) => format!("  {:<7}  {words}", head_words(head)),
            Some(head) => format!("{:<9}  {words}", head_words(head)),
            None => words,
        }
    }

    /// The line in words, with its bytes or without.
    pub fn text(&self, with_bytes: bool) -> String {
        let mut text = format!("{:>5}  ", self.offset);
        if with_bytes {
            text += &format!("{:<23}  ", hex(self.bytes));
        }
        text += &self.columns();
        if let Some(Fault { refusal, rule }) = self.fault {
            text += &format!("  <- refused {}: {rule}", refusal.number);
        }
        text
    }

    /// The line as the keys of an object, with its bytes or without.
    pub fn pairs(&self, with_bytes: bool) -> Pairs {
        let mut pairs = vec![("offset", self.offset.into())];
        if with_bytes {
            pairs.push(("bytes", hex(self.bytes).into()));
        }
        pairs.extend(self.stands.pairs());
        if let Some(Fault { refusal, rule }) = self.fault {
            pairs.push(("refusal", refusal.number.into()));
            pairs.push(("rule", rule.into()));
        }
        pairs
    }
}
