//! The words for the kinds of records and of events: what each is called, and its fields in order.

use xemdulba::Fields;

/// What a record is counted with.
#[derive(Clone, Copy, Debug, PartialEq, Eq)]
pub enum Group {
    C,
    Shape,
    Cell,
    Block,
    Step,
    Event,
}

impl Group {
    pub fn name(self) -> &'static str {
        match self {
            Group::C => "C",
            Group::Shape => "shape",
            Group::Cell => "cell",
            Group::Block => "block",
            Group::Step => "step",
            Group::Event => "event",
        }
    }
}

/// Where a field stands in what the library tells of a record. A value is a kind, which is always
/// the third field, and a number.
#[derive(Clone, Copy, Debug, PartialEq, Eq)]
pub enum Slot {
    First,
    Second,
    Third,
    Number,
    Value,
}

use Group::{Block, Cell, Event, Shape, Step, C};
use Slot::{First, Number, Second, Third, Value};

/// A field: its name, the words in front of it, and where it stands.
pub type Part = (&'static str, &'static str, Slot);

/// A kind of record.
#[derive(Debug)]
pub struct Form {
    pub kind: u8,
    pub group: Group,
    /// What it is of its group; empty where the group has one kind alone.
    pub word: &'static str,
    pub parts: &'static [Part],
}

impl Form {
    /// What a record of the kind is called.
    pub fn name(&self) -> String {
        match (self.group, self.word) {
            (group, "") => group.name().to_string(),
            (Shape, word) => format!("{word} shape"),
            (_, word) => word.to_string(),
        }
    }
}

const fn form(kind: u8, group: Group, word: &'static str, parts: &'static [Part]) -> Form {
    Form {
        kind,
        group,
        word,
        parts,
    }
}

/// What bytes are read as: a book, or a list of events.
pub struct Layout {
    /// The library's call that tells of the record at an offset.
    pub told_at: fn(&[u8], usize) -> Option<Fields>,
    /// More bytes are refused.
    pub longest: usize,
    /// The group of all its records, if they have one alone.
    pub group: Option<Group>,
    /// What is said of its edges.
    pub start: &'static str,
    pub end: &'static str,
    /// What is said of bytes that cannot be read.
    pub too_long: &'static str,
    pub unknown: &'static str,
    pub cut: &'static str,
    forms: &'static [Form],
}

impl Layout {
    /// The form of a kind, if it is one.
    pub fn form(&self, kind: u8) -> Option<&'static Form> {
        self.forms.iter().find(|form| form.kind == kind)
    }
}

// The fields that stand in several forms, or that are long to say.
const BOUND: Part = ("bound", "bound ", First);
const CONTENT: Part = ("content", " of shape ", First);
const R: Part = ("r", "r", First);
const W: Part = ("w", "r", First);
const BY: Part = ("by", "by ", First);
const TRUST: Part = ("trust", ", trust ", Second);
const CELL: Part = ("cell", ", cell ", Second);
const BLOCK: Part = ("block", ", block ", Second);
const FIRST_BLOCK: Part = ("first_block", ", block ", Second);
const SECOND_BLOCK: Part = ("second_block", ", block ", Third);
const SHAPE: Part = ("shape", ", shape ", Second);
const VALUE: Part = ("value", ", ", Value);

pub static BOOK: Layout = Layout {
    told_at: xemdulba::record,
    longest: 32_768,
    group: None,
    start: "start of the book",
    end: "end of the book",
    too_long: "the book is longer than 32768 bytes",
    unknown: "no record has this kind",
    cut: "the book ends inside the record",
    forms: &[
        form(1, C, "", &[("label", "", First)]),
        form(16, Shape, "plain", &[]),
        form(17, Shape, "code", &[("bound", ", bound ", First)]),
        form(18, Shape, "cell", &[CONTENT, TRUST]),
        form(
            32,
            Cell,
            "",
            &[
                ("shape", "shape ", First),
                ("label", ", label ", Second),
                VALUE,
            ],
        ),
        form(48, Block, "", &[BOUND]),
        form(64, Step, "put", &[R, ("plain", ", ", Number)]),
        form(65, Step, "name", &[R, CELL]),
        form(66, Step, "code", &[R, BLOCK]),
        form(
            67,
            Step,
            "add",
            &[R, ("a", ", r", Second), ("b", ", r", Third)],
        ),
        form(68, Step, "new", &[R, SHAPE, ("a", ", r", Third)]),
        form(69, Step, "read", &[R, ("w", ", r", Second)]),
        form(70, Step, "write", &[W, ("a", ", r", Second)]),
        form(71, Step, "relabel", &[W, ("label", ", ", Second)]),
        form(72, Step, "lower", &[("label", "", First)]),
        form(73, Step, "start", &[("block", "block ", First)]),
        form(74, Step, "exec", &[W]),
        form(75, Step, "choose", &[R, FIRST_BLOCK, SECOND_BLOCK]),
    ],
};

pub static LIST: Layout = Layout {
    told_at: xemdulba::event,
    longest: 65_536,
    group: Some(Event),
    start: "start of the list",
    end: "end of the list",
    too_long: "the list is longer than 65536 bytes",
    unknown: "no event has this kind",
    cut: "the list ends inside the event",
    forms: &[
        form(80, Event, "step", &[("job", "job ", First)]),
        form(81, Event, "write", &[BY, CELL, VALUE]),
        form(
            82,
            Event,
            "relabel",
            &[BY, CELL, ("label", ", label ", Third)],
        ),
        form(83, Event, "new", &[BY, SHAPE, VALUE]),
        form(84, Event, "exec", &[BY, CELL]),
        form(85, Event, "start", &[BY, BLOCK]),
    ],
};

#[cfg(test)]
mod tests {
    use super::*;

    /// How many bytes a record of a form has.
    fn length(form: &Form) -> usize {
        let bytes = form.parts.iter().map(|(_, _, slot)| match slot {
            First | Second | Third => 1,
            Number => 4,
            Value => 5,
        });
        1 + bytes.sum::<usize>()
    }

    #[test]
    fn every_kind_that_the_library_tells_has_words() {
        for layout in [&BOOK, &LIST] {
            for kind in 0..=255 {
                let bytes = [kind, 1, 2, 3, 4, 5, 6, 7];
                let told = (layout.told_at)(&bytes, 0).map(|fields| fields.next);
                assert_eq!(told, layout.form(kind).map(length), "kind {kind}");
            }
        }
    }

    #[test]
    fn names() {
        let name = |kind| BOOK.form(kind).map(Form::name).unwrap_or_default();
        assert_eq!(name(1), "C");
        assert_eq!(
            [16, 17, 18].map(name),
            ["plain shape", "code shape", "cell shape"]
        );
        assert_eq!([32, 48, 70].map(name), ["cell", "block", "write"]);
        assert_eq!([75, 76].map(name), ["choose", ""]);
    }
}
