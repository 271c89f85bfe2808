//! The test books. They are the same at every call: all chance comes from fixed seeds.

pub(crate) mod chance;
pub(crate) mod choose;
mod counts;
pub(crate) mod dice;
pub(crate) mod huge;
mod kinds;
mod limits;
mod names;
mod order;
pub(crate) mod records;
pub(crate) mod samples;
mod stages;
#[cfg(test)]
mod tests;
pub(crate) mod valid;

/// A test book.
pub type Bytes = Vec<u8>;

/// All test books, in the order in which they stand in the file.
pub fn books() -> Vec<Bytes> {
    let parts = [
        samples::books(),
        kinds::books(),
        order::books(),
        valid::books(),
        limits::books(),
        names::books(),
        samples::books(),
        stages::books(),
        chance::books(),
        counts::books(),
        huge::books(),
        samples::books(),
        choose::books(),
    ];
    parts.concat()
}
