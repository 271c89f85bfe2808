//! The label that job 0 is launched at.

use crate::model::book::{refuse, Book, Refusal};

/// 02, Three: "Without one it is the smaller of C plus 1 and the bound."
fn default_launch(book: &Book) -> u8 {
    book.bound().min(book.c + 1)
}

/// Refusal 14, "after 11, when the launch label is above block 0's bound." Gives the label of job
/// 0, whether one is given or not.
pub fn check_launch(book: &Book, launch: Option<u32>) -> Result<u8, Refusal> {
    match launch {
        Some(label) if label > book.bound().into() => refuse(14, 0),
        Some(label) => Ok(label as u8),
        None => Ok(default_launch(book)),
    }
}
