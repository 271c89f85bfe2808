//! The file of test runs: for each run the book and the event list, each with its length before
//! it in 4 bytes, little-endian, then four such numbers: the lengths of the cell table, the job
//! table and the answer buffer, and the launch label, the greatest number standing for none.

use super::Run;
use crate::cases::file::{all, first, push};
use std::io;

const NO_LAUNCH: u32 = u32::MAX;

pub fn join(runs: &[Run]) -> Vec<u8> {
    let mut bytes = Vec::new();
    for run in runs {
        push(&mut bytes, &run.book);
        push(&mut bytes, &run.events);
        for length in run.lengths {
            bytes.extend_from_slice(&(length as u32).to_le_bytes());
        }
        let launch = run.launch.unwrap_or(NO_LAUNCH);
        bytes.extend_from_slice(&launch.to_le_bytes());
    }
    bytes
}

pub fn split(bytes: &[u8]) -> io::Result<Vec<Run>> {
    all(bytes, first_run)
}

fn first_run(bytes: &[u8]) -> Option<(Run, &[u8])> {
    let (book, rest) = first(bytes)?;
    let (events, mut rest) = first(rest)?;
    let mut numbers = [0; 4];
    for number in &mut numbers {
        let (bytes, behind) = rest.split_first_chunk::<4>()?;
        *number = u32::from_le_bytes(*bytes);
        rest = behind;
    }
    let [cells, jobs, answers, launch] = numbers;
    let run = Run {
        book: book.to_vec(),
        events: events.to_vec(),
        lengths: [cells, jobs, answers].map(|length| length as usize),
        launch: (launch != NO_LAUNCH).then_some(launch),
    };
    Some((run, rest))
}

#[cfg(test)]
mod tests {
    use super::*;

    #[test]
    fn split_gives_back_what_join_wrote() {
        let run = Run {
            book: vec![1, 3, 48, 0],
            events: vec![80, 0],
            lengths: [576, 3_328, 1],
            launch: Some(0x0100_0005),
        };
        let other = run.with([0, 1, 258]).with_launch(None);
        let bytes = join(&[run.clone(), other.clone()]);
        let numbers = [64, 2, 0, 0, 0, 13, 0, 0, 1, 0, 0, 0, 5, 0, 0, 1];
        let start = [4, 0, 0, 0, 1, 3, 48, 0, 2, 0, 0, 0, 80, 0];
        assert_eq!(&bytes[..30], [&start[..], &numbers].concat());
        assert_eq!(&bytes[56..], [255; 4]);
        assert_eq!(split(&bytes).unwrap(), [run, other]);
        assert!(split(&bytes[..59]).is_err());
        assert!(split(&[]).unwrap().is_empty());
    }
}
