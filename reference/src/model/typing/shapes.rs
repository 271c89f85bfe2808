//! Labels as typing counts them, likeness and fitting.

use super::state::Known;
use crate::model::book::{Book, Shape};

/// The shapes of a book, and its C.
#[derive(Clone, Copy)]
pub struct Shapes<'b> {
    c: u8,
    all: &'b [Shape],
}

impl<'b> Shapes<'b> {
    pub fn of(book: &'b Book) -> Shapes<'b> {
        Shapes {
            c: book.c,
            all: &book.shapes,
        }
    }

    /// "at or below C".
    pub fn is_low(self, label: u8) -> bool {
        label <= self.c
    }

    /// "In typing, a trust or effect at or below C counts as 0."
    pub fn counted(self, label: u8) -> u8 {
        if self.is_low(label) {
            0
        } else {
            label
        }
    }

    fn shape(self, number: u8) -> Shape {
        self.all[usize::from(number)]
    }

    /// What a value of this shape is known to be.
    pub fn known(self, number: u8) -> Known {
        match self.shape(number) {
            Shape::Plain => Known::Plain,
            Shape::Code { bound } => Known::Code(bound),
            Shape::Cell { .. } => Known::CellOf(number),
        }
    }

    /// The content shape and the counted trust of a cell shape.
    pub fn cell(self, number: u8) -> (u8, u8) {
        match self.shape(number) {
            Shape::Cell { content, trust } => (content, self.counted(trust)),
            _ => unreachable!("refusal 6 leaves only cell shapes here"),
        }
    }

    /// "Two shapes are alike when both are plain, both code with one bound, or both cells with
    /// equal trust and alike contents." Trusts are counted, bounds are not. Contents are
    /// lower-numbered, so the walk down ends; a shape is alike to itself.
    pub fn alike(self, mut one: u8, mut other: u8) -> bool {
        while one != other {
            match (self.shape(one), self.shape(other)) {
                (Shape::Cell { .. }, Shape::Cell { .. }) => {
                    let (first, second) = (self.cell(one), self.cell(other));
                    if first.1 != second.1 {
                        return false;
                    }
                    (one, other) = (first.0, second.0);
                }
                (plain_or_code, its_like) => return plain_or_code == its_like,
            }
        }
        true
    }

    /// "A code register of bound B fits a code content of bound at most B; others fit when
    /// alike." What is unknown is alike to nothing.
    pub fn fits(self, value: Known, content: u8) -> bool {
        match (value, self.shape(content)) {
            (Known::Plain, Shape::Plain) => true,
            (Known::Code(bound), Shape::Code { bound: asked }) => asked <= bound,
            (Known::CellOf(shape), Shape::Cell { .. }) => self.alike(shape, content),
            _ => false,
        }
    }
}
