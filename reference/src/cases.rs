//! What makes test books, runs, rounds and tables, by rule and by chance, and the files of books, runs
//! and rounds.

pub mod check_books;
pub mod differ;
pub mod event_lists;
pub mod file;
pub mod generate;
pub mod large;
pub mod rounds;
pub mod runs;
pub mod writes;
