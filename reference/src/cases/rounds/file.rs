//! The file of test rounds: for each round the book with its length before it in 4 bytes,
//! little-endian, then five such numbers: the turns, the lengths of the cell table, the job table and
//! the answer buffer, and the launch label, the greatest number standing for none. What the buffers
//! hold before is not there: read from a file, it is always the same.

use super::{Before, Round};
use crate::cases::file::{all, first, push};
use std::io;

const NO_LAUNCH: u32 = u32::MAX;

pub fn join(rounds: &[Round]) -> Vec<u8> {
    let mut bytes = Vec::new();
    for round in rounds {
        push(&mut bytes, &round.book);
        let [cells, jobs, answers] = round.lengths.map(|length| length as u32);
        let launch = round.launch.unwrap_or(NO_LAUNCH);
        for number in [round.turns, cells, jobs, answers, launch] {
            bytes.extend_from_slice(&number.to_le_bytes());
        }
    }
    bytes
}

pub fn split(bytes: &[u8]) -> io::Result<Vec<Round>> {
    all(bytes, first_round)
}

fn first_round(bytes: &[u8]) -> Option<(Round, &[u8])> {
    let (book, mut rest) = first(bytes)?;
    let mut numbers = [0; 5];
    for number in &mut numbers {
        let (bytes, behind) = rest.split_first_chunk::<4>()?;
        *number = u32::from_le_bytes(*bytes);
        rest = behind;
    }
    let [turns, cells, jobs, answers, launch] = numbers;
    let round = Round {
        book: book.to_vec(),
        launch: (launch != NO_LAUNCH).then_some(launch),
        turns,
        lengths: [cells, jobs, answers].map(|length| length as usize),
        before: Before::Byte(0xA5),
    };
    Some((round, rest))
}

#[cfg(test)]
mod tests {
    use super::*;

    #[test]
    fn split_gives_back_what_join_wrote() {
        let round = Round::new(vec![1, 3, 48, 0], 258).with_launch(Some(0x0100_0005));
        let other = round.with([0, 1, 2]).with_launch(None);
        let bytes = join(&[round.clone(), other.clone()]);
        let lengths = [64, 2, 0, 0, 0, 13, 0, 0, 2, 1, 0, 0];
        let start = [4, 0, 0, 0, 1, 3, 48, 0, 2, 1, 0, 0];
        assert_eq!(&bytes[..24], [start, lengths].concat());
        assert_eq!(&bytes[24..28], [5, 0, 0, 1]);
        assert_eq!(&bytes[52..], [255; 4]);
        assert_eq!(split(&bytes).unwrap(), [round, other]);
        assert!(split(&bytes[..55]).is_err());
        assert!(split(&[]).unwrap().is_empty());
    }
}
