//! From record to record, by the library's calls.

use crate::json::Json;
use crate::layout::{Form, Group, Layout, Slot};
use std::fmt;
use xemdulba::Fields;

/// A whole record of a book, or an event of a list.
#[derive(Debug)]
pub struct Entry<'b> {
    pub offset: usize,
    pub bytes: &'b [u8],
    pub form: &'static Form,
    /// Its number in its group; C has none.
    pub number: Option<usize>,
    /// The block that a step stands in, if one stands before it.
    pub block: Option<usize>,
    fields: Fields,
}

/// What a field holds.
#[derive(Clone, Copy, Debug, PartialEq, Eq)]
pub enum Amount {
    Number(u32),
    Value { kind: u8, number: u32 },
}

impl Entry<'_> {
    /// Each field: its name, the words in front of it, and what it holds.
    pub fn fields(&self) -> impl Iterator<Item = (&'static str, &'static str, Amount)> + '_ {
        let parts = self.form.parts.iter();
        parts.map(|(key, before, slot)| (*key, *before, self.amount(*slot)))
    }

    fn amount(&self, slot: Slot) -> Amount {
        let Fields {
            first,
            second,
            third,
            number,
            ..
        } = self.fields;
        match slot {
            Slot::First => Amount::Number(first.into()),
            Slot::Second => Amount::Number(second.into()),
            Slot::Third => Amount::Number(third.into()),
            Slot::Number => Amount::Number(number),
            Slot::Value => Amount::Value {
                kind: third,
                number,
            },
        }
    }
}

/// The name of a value's kind, if it is one.
fn value_kind(kind: u8) -> Option<&'static str> {
    ["plain", "cell", "code"].get(usize::from(kind)).copied()
}

impl fmt::Display for Amount {
    fn fmt(&self, out: &mut fmt::Formatter<'_>) -> fmt::Result {
        match *self {
            Amount::Number(number) => write!(out, "{number}"),
            Amount::Value { kind, number } => match value_kind(kind) {
                Some(name) => write!(out, "{name} {number}"),
                None => write!(out, "value kind {kind} {number}"),
            },
        }
    }
}

impl From<Amount> for Json {
    fn from(amount: Amount) -> Json {
        match amount {
            Amount::Number(number) => Json::from(number),
            Amount::Value { kind, number } => {
                let name = value_kind(kind).map_or(kind.to_string(), str::to_string);
                let number = Json::from(number);
                Json::Object(vec![("kind", name.into()), ("number", number)])
            }
        }
    }
}

/// How many records of each group stand so far; of steps, how many behind the last block.
#[derive(Clone, Copy, Debug, Default)]
pub struct Numbers {
    shapes: usize,
    cells: usize,
    blocks: usize,
    steps: usize,
    events: usize,
}

impl Numbers {
    /// The number of the next record of a group, which is counted from then on.
    pub fn next(&mut self, group: Group) -> Option<usize> {
        let count = match group {
            Group::C => return None,
            Group::Shape => &mut self.shapes,
            Group::Cell => &mut self.cells,
            Group::Block => {
                self.steps = 0;
                &mut self.blocks
            }
            Group::Step => &mut self.steps,
            Group::Event => &mut self.events,
        };
        *count += 1;
        Some(*count - 1)
    }
}

/// The whole records from the start, up to the first place where none stands.
pub struct Walk<'b> {
    layout: &'static Layout,
    bytes: &'b [u8],
    offset: usize,
    pub numbers: Numbers,
}

impl<'b> Walk<'b> {
    pub fn new(layout: &'static Layout, bytes: &'b [u8]) -> Walk<'b> {
        Walk {
            layout,
            bytes,
            offset: 0,
            numbers: Numbers::default(),
        }
    }
}

impl<'b> Iterator for Walk<'b> {
    type Item = Entry<'b>;

    fn next(&mut self) -> Option<Entry<'b>> {
        let offset = self.offset;
        let fields = (self.layout.told_at)(self.bytes, offset)?;
        let form = self.layout.form(fields.kind)?;
        let bytes = self.bytes.get(offset..fields.next)?;
        self.offset = fields.next;
        let is_step = form.group == Group::Step;
        let block = self.numbers.blocks.checked_sub(1).filter(|_| is_step);
        Some(Entry {
            offset,
            bytes,
            form,
            number: self.numbers.next(form.group),
            block,
            fields,
        })
    }
}
