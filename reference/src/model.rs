//! What document 01 says, the job book, typing and the machine; and the writer of document 02.

pub mod book;
pub mod machine;
pub mod typing;
pub mod writer;
