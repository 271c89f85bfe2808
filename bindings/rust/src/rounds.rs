//! A fair round: the jobs of a book take turns.

use crate::{library, Refusal, Run, Settings, Tables, CELLS_SIZE, JOBS_SIZE};

/// A round is given so many turns at most.
pub const MOST_TURNS: u32 = 4_096;

/// Lets the jobs of a book take turns, from its start: refused by 1 to 6, 14 or 15. The book need
/// not be accepted, and the settings are those of `run`.
///
/// Each turn steps the next job with a step left, found by scanning the jobs from the one after the
/// last stepped, and from job 0 again behind the last; job 0 is looked at first. A blocked step uses
/// a turn. The round ends early only when no job has a step left: the turns used are as many as the
/// answers, each of them `Done` or `Blocked`. It gives what `run` gives on the steps that it chose.
///
/// ```
/// use xemdulba::{round, Answer, Settings};
///
/// // C is 3. Block 0 starts block 1, whose step lowers its job to 2.
/// let book = [1, 3, 48, 12, 73, 1, 48, 12, 72, 2];
/// let round = round(&book, 100, Settings::default())?;
/// assert_eq!(round.answers, [Answer::Done, Answer::Done]);
/// assert_eq!(round.jobs.len(), 2);
/// # Ok::<(), xemdulba::Refusal>(())
/// ```
pub fn round(book: &[u8], turns: u32, settings: Settings) -> Result<Run, Refusal> {
    // All numbers above the most are refused alike, and memory is lent for the first of them.
    let turns = turns.min(MOST_TURNS + 1);
    let (mut cells, mut jobs) = ([0; CELLS_SIZE], [0; JOBS_SIZE]);
    let mut answers = vec![0; turns as usize];
    let rounded = round_into(book, turns, settings, &mut cells, &mut jobs, &mut answers)?;
    answers.truncate(rounded.turns);
    Ok(Run::of(rounded.tables, answers))
}

/// What a round leaves in the memory that was lent for it, and how many turns it used.
#[derive(Clone, Copy, Debug)]
pub struct Rounded<'t> {
    pub tables: Tables<'t>,
    pub turns: usize,
}

/// As `round`, with memory that the caller lends; nothing is allocated. The tables must have
/// `CELLS_SIZE` and `JOBS_SIZE` bytes, else the round is refused by 10, and `answers` a byte for
/// each of the turns that it is given, also where it would use fewer, else by 11, both ahead of 14
/// and 15; bytes of `answers` beyond the turns used are kept. What the memory held before plays no
/// part, and a refused round writes nothing to it.
pub fn round_into<'t>(
    book: &[u8],
    turns: u32,
    settings: Settings,
    cells: &'t mut [u8],
    jobs: &'t mut [u8],
    answers: &mut [u8],
) -> Result<Rounded<'t>, Refusal> {
    let rounded = library::round(book, settings.launch_number(), cells, jobs, answers, turns);
    Refusal::stated(rounded.refusal, rounded.place)?;
    Ok(Rounded {
        tables: Tables::first(cells, rounded.cells, jobs, rounded.jobs),
        turns: rounded.turns as usize,
    })
}
