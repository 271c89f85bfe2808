//! What a run or a round gives, in words.

use crate::model::book::Refusal;
use crate::model::machine::{Lent, Outcome, Ran, RoundOutcome, CELL_SIZE, JOB_SIZE};

/// `refused N at PLACE`, or the counts, the answers, a line for each cell in use, and for each job
/// in use a line and one for each of its registers.
pub fn text(outcome: Outcome, lent: &Lent) -> String {
    match outcome {
        Err(refusal) => refused(refusal),
        Ok(ran) => {
            let head = format!("ran cells {} jobs {}", ran.cells, ran.jobs);
            lines(head, lent[2].len(), ran, lent)
        }
    }
}

/// The same of a round, with the turns used and an answer for each.
pub fn round_text(outcome: RoundOutcome, lent: &Lent) -> String {
    match outcome {
        Err(refusal) => refused(refusal),
        Ok(rounded) => {
            let (cells, jobs, turns) = (rounded.cells, rounded.jobs, rounded.turns);
            let head = format!("rounded cells {cells} jobs {jobs} turns {turns}");
            lines(head, turns, Ran { cells, jobs }, lent)
        }
    }
}

fn refused(refusal: Refusal) -> String {
    format!("refused {} at {}\n", refusal.number, refusal.place)
}

/// The first line, so many answers, and the tables as far as they are in use.
fn lines(head: String, count: usize, ran: Ran, [cells, jobs, answers]: &Lent) -> String {
    let digits = answers[..count].iter().map(|answer| format!(" {answer}"));
    let mut lines = vec![head, format!("answers{}", digits.collect::<String>())];
    let records = cells.chunks(CELL_SIZE).take(ran.cells);
    lines.extend(records.enumerate().map(|(i, record)| cell(i, record)));
    let records = jobs.chunks(JOB_SIZE).take(ran.jobs);
    lines.extend(records.enumerate().flat_map(|(i, record)| job(i, record)));
    lines.join("\n") + "\n"
}

fn cell(index: usize, record: &[u8]) -> String {
    let [shape, trust, label] = [record[0], record[1], record[2]];
    let value = value(&record[3..]);
    format!("cell {index} shape {shape} trust {trust} label {label} {value}")
}

fn job(index: usize, record: &[u8]) -> Vec<String> {
    let [block, position, label, source] = [record[0], record[1], record[2], record[3]];
    let head =
        format!("job {index} block {block} position {position} label {label} source {source}");
    let registers = record[4..].chunks(6).enumerate();
    let lines = registers.map(|(r, bytes)| format!("  register {r} {}", value(bytes)));
    std::iter::once(head).chain(lines).collect()
}

fn value(bytes: &[u8]) -> String {
    let kind = ["plain", "cell", "code"][usize::from(bytes[0])];
    let number = u32::from_le_bytes([bytes[1], bytes[2], bytes[3], bytes[4]]);
    format!("{kind} {number} source {}", bytes[5])
}

#[cfg(test)]
mod tests {
    use super::*;
    use crate::model::machine::{self, CELLS_SIZE, JOBS_SIZE};

    #[test]
    fn a_run_in_words() {
        let mut lent = [CELLS_SIZE, JOBS_SIZE, 2].map(|length| vec![0xA5; length]);
        let refused = machine::run(&[], None, &[], &mut lent);
        assert_eq!(text(refused, &lent), "refused 3 at 0\n");
        let ran = machine::run(&[1, 3, 48, 2], Some(2), &[80, 0, 80, 1], &mut lent);
        let words = text(ran, &lent);
        let lines: Vec<&str> = words.lines().collect();
        assert_eq!(lines.len(), 11);
        assert_eq!(lines[0], "ran cells 0 jobs 1");
        assert_eq!(lines[1], "answers 2 3");
        assert_eq!(lines[2], "job 0 block 0 position 0 label 2 source 2");
        assert_eq!(lines[10], "  register 7 plain 0 source 2");
    }

    #[test]
    fn a_round_in_words() {
        let mut lent = [CELLS_SIZE, JOBS_SIZE, 5].map(|length| vec![0xA5; length]);
        let refused = machine::round(&[1, 3, 48, 2], Some(3), 5, &mut lent);
        assert_eq!(round_text(refused, &lent), "refused 14 at 0\n");
        // It lowers itself twice.
        let rounded = machine::round(&[1, 3, 48, 2, 72, 1, 72, 1], Some(2), 5, &mut lent);
        let words = round_text(rounded, &lent);
        let lines: Vec<&str> = words.lines().collect();
        assert_eq!(lines.len(), 11);
        assert_eq!(lines[0], "rounded cells 0 jobs 1 turns 2");
        assert_eq!(lines[1], "answers 0 0");
        assert_eq!(lines[2], "job 0 block 0 position 2 label 1 source 1");
    }
}
