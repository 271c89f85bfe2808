//! The three sides of a call, in the order of the columns: the verified library, the reference, the
//! limit. The reference runs on the faster of its two machines.

use crate::limit;
use reference::model::machine::{fast, Rounder, Runner};
use reference::model::writer::{self, Writer};
use reference::Verdict;

pub const SIDES: [&str; 3] = ["verified", "reference", "limit"];

pub type Checker = fn(&[u8]) -> Verdict;

pub const CHECKERS: [Checker; 3] = [verified::check, reference::check, limit::check];

pub const RUNNERS: [Runner; 3] = [verified::run, fast::run, limit::run];

pub const ROUNDERS: [Rounder; 3] = [verified::round_exported, fast::round, limit::round];

pub const WRITERS: [Writer; 3] = [verified::write, writer::write, limit::write];
