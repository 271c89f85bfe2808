//! What the lent buffers hold before a round. It plays no part.

use super::{ring, Round};
use crate::cases::generate::samples;
use crate::model::machine::Lent;

#[derive(Clone, Copy, Debug, PartialEq, Eq)]
pub enum Before {
    /// This byte everywhere.
    Byte(u8),
    /// Another byte at each place of a few.
    Places,
    /// Tables that are all in use: each job has done no step of block 0 yet.
    Busy,
}

/// Every sort of them.
pub const SORTS: [Before; 6] = [
    Before::Byte(0xA5),
    Before::Byte(0),
    Before::Byte(1),
    Before::Byte(0xFF),
    Before::Places,
    Before::Busy,
];

/// A cell of shape 1, trust 2 and label 0 that is plain 7, of source 15.
const CELL: [u8; 9] = [1, 2, 0, 0, 7, 0, 0, 0, 15];

/// Block, position, label and source of a job; and a register, plain 0 of source 15.
const JOB: [u8; 4] = [0, 0, 15, 15];
const REGISTER: [u8; 6] = [0, 0, 0, 0, 0, 15];

impl Before {
    /// Buffers of these lengths.
    pub fn lent(self, lengths: [usize; 3]) -> Lent {
        let busy = [CELL.to_vec(), job(), vec![0]];
        let mut record = busy.into_iter();
        lengths.map(|length| match self {
            Before::Byte(byte) => vec![byte; length],
            Before::Places => (0..length).map(|place| 0xA5 + (place % 11) as u8).collect(),
            Before::Busy => {
                let record = record.next().unwrap_or_default();
                record.into_iter().cycle().take(length).collect()
            }
        })
    }
}

fn job() -> Vec<u8> {
    [&JOB[..], &REGISTER.repeat(8)].concat()
}

/// Books that leave most of a table unused, with each sort: all of them give the same.
pub fn rounds() -> Vec<Round> {
    let mut books = vec![samples::books().swap_remove(0), vec![1, 3, 48, 12]];
    books.extend(ring::few_jobs());
    let mut rounds = Vec::new();
    for book in books {
        for turns in [0, 1, 3, 40] {
            let round = Round::new(book.clone(), turns);
            let spare = round.with_answers(turns as usize + 70);
            rounds.extend(SORTS.map(|before| spare.with_before(before)));
        }
    }
    // Refused rounds leave it as it is.
    let refused = Round::new(vec![1, 3, 48, 12, 72, 3], 9).with_answers(8);
    rounds.extend(SORTS.map(|before| refused.with_before(before)));
    rounds
}
