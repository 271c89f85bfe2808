//! The limit with the reference's answers: the calls of `limit.c`, which does the same in plain C.

use reference::model::book::Refusal;
use reference::model::machine::{Lent, Outcome, Ran, RoundOutcome, Rounded};
use reference::model::writer::Tables;
use reference::Verdict;

/// As `xemdulba_checked` of include/xemdulba.h; refusal 0 is acceptance.
#[repr(C)]
struct CChecked {
    refusal: u32,
    place: u32,
    shapes: u32,
    cells: u32,
    blocks: u32,
    steps: u32,
}

/// As `xemdulba_ran` of include/xemdulba.h; refusal 0 where it ran.
#[repr(C)]
struct CRan {
    refusal: u32,
    place: u32,
    cells: u32,
    jobs: u32,
}

/// As `xemdulba_rounded` of include/xemdulba.h; refusal 0 where the turns were taken.
#[repr(C)]
struct CRounded {
    refusal: u32,
    place: u32,
    cells: u32,
    jobs: u32,
    turns: u32,
}

/// As `xemdulba_written` of include/xemdulba.h; refusal 0 where it is written.
#[repr(C)]
struct CWritten {
    refusal: u32,
    place: u32,
    length: u32,
}

extern "C" {
    fn limit_check(book: *const u8, length: usize) -> CChecked;

    fn limit_run(
        book: *const u8,
        length: usize,
        launch: u32,
        list: *const u8,
        list_length: usize,
        cells: *mut u8,
        cells_length: usize,
        jobs: *mut u8,
        jobs_length: usize,
        answers: *mut u8,
        answers_length: usize,
    ) -> CRan;

    fn limit_round(
        book: *const u8,
        length: usize,
        launch: u32,
        cells: *mut u8,
        cells_length: usize,
        jobs: *mut u8,
        jobs_length: usize,
        answers: *mut u8,
        answers_length: usize,
        turns: u32,
    ) -> CRounded;

    fn limit_write(
        c: u32,
        shapes: *const u8,
        shapes_length: usize,
        cells: *const u8,
        cells_length: usize,
        blocks: *const u8,
        blocks_length: usize,
        steps: *const u8,
        steps_length: usize,
        out: *mut u8,
        out_length: usize,
    ) -> CWritten;
}

/// All that is refused is refused by 99 at place 0.
pub fn check(book: &[u8]) -> Verdict {
    // SAFETY: pointer and length are those of a slice.
    let checked = unsafe { limit_check(book.as_ptr(), book.len()) };
    match stated(checked.refusal, checked.place) {
        Ok(()) => Verdict::Accepted {
            shapes: checked.shapes as usize,
            cells: checked.cells as usize,
            blocks: checked.blocks as usize,
            steps: checked.steps as usize,
        },
        Err(Refusal { number, place }) => Verdict::Refused { number, place },
    }
}

/// As `XEMDULBA_DEFAULT_LAUNCH` of include/xemdulba.h.
const DEFAULT_LAUNCH: u32 = 0xFFFF_FFFF;

/// A `machine::Runner`. All that is refused is refused by 99 at place 0.
pub fn run(
    book: &[u8],
    launch: Option<u32>,
    events: &[u8],
    [cells, jobs, answers]: &mut Lent,
) -> Outcome {
    // SAFETY: pointers and lengths are those of slices, and the three that are written to are lent
    // as `&mut`, so that they overlap nothing.
    let ran = unsafe {
        limit_run(
            book.as_ptr(),
            book.len(),
            launch.unwrap_or(DEFAULT_LAUNCH),
            events.as_ptr(),
            events.len(),
            cells.as_mut_ptr(),
            cells.len(),
            jobs.as_mut_ptr(),
            jobs.len(),
            answers.as_mut_ptr(),
            answers.len(),
        )
    };
    stated(ran.refusal, ran.place)?;
    Ok(Ran {
        cells: ran.cells as usize,
        jobs: ran.jobs as usize,
    })
}

/// A `machine::Rounder`. All that is refused is refused by 99 at place 0.
pub fn round(
    book: &[u8],
    launch: Option<u32>,
    turns: u32,
    [cells, jobs, answers]: &mut Lent,
) -> RoundOutcome {
    // SAFETY: as in `run`.
    let rounded = unsafe {
        limit_round(
            book.as_ptr(),
            book.len(),
            launch.unwrap_or(DEFAULT_LAUNCH),
            cells.as_mut_ptr(),
            cells.len(),
            jobs.as_mut_ptr(),
            jobs.len(),
            answers.as_mut_ptr(),
            answers.len(),
            turns,
        )
    };
    stated(rounded.refusal, rounded.place)?;
    Ok(Rounded {
        cells: rounded.cells as usize,
        jobs: rounded.jobs as usize,
        turns: rounded.turns as usize,
    })
}

/// A `writer::Writer`. All that is refused is refused by 99 at place 0.
pub fn write(tables: &Tables, out: &mut [u8]) -> Result<usize, Refusal> {
    // SAFETY: pointers and lengths are those of slices, and the one that is written to is lent as
    // `&mut`, so that it overlaps nothing.
    let written = unsafe {
        limit_write(
            tables.c,
            tables.shapes.as_ptr(),
            tables.shapes.len(),
            tables.cells.as_ptr(),
            tables.cells.len(),
            tables.blocks.as_ptr(),
            tables.blocks.len(),
            tables.steps.as_ptr(),
            tables.steps.len(),
            out.as_mut_ptr(),
            out.len(),
        )
    };
    stated(written.refusal, written.place)?;
    Ok(written.length as usize)
}

fn stated(refusal: u32, place: u32) -> Result<(), Refusal> {
    if refusal == 0 {
        return Ok(());
    }
    Err(Refusal {
        number: u8::try_from(refusal).expect("a refusal is at most 99"),
        place: place as usize,
    })
}

#[cfg(test)]
mod tests {
    use super::*;
    use reference::cases::differ::{books, differ, rounds as random_rounds, tables};
    use reference::cases::writes::{chosen, outcome};
    use reference::cases::{rounds, runs};
    use reference::model::machine::fast;
    use reference::model::writer;

    const REFUSED: Refusal = Refusal {
        number: 99,
        place: 0,
    };

    fn expected_verdict(book: &[u8]) -> Verdict {
        match reference::check(book) {
            Verdict::Refused { .. } => Verdict::Refused {
                number: REFUSED.number,
                place: REFUSED.place,
            },
            accepted => accepted,
        }
    }

    fn expected_run(book: &[u8], launch: Option<u32>, events: &[u8], lent: &mut Lent) -> Outcome {
        fast::run(book, launch, events, lent).map_err(|_| REFUSED)
    }

    #[test]
    fn verdicts_do_not_differ() {
        for book in books(1).take(20_000) {
            assert_eq!(check(&book), expected_verdict(&book), "{book:?}");
        }
    }

    #[test]
    fn runs_do_not_differ() {
        assert!(differ(1, 20_000, run, expected_run, |_| {}).is_none());
        for case in runs::all() {
            assert_eq!(
                runs::outcome(run, &case),
                runs::outcome(expected_run, &case)
            );
        }
    }

    fn expected_round(
        book: &[u8],
        launch: Option<u32>,
        turns: u32,
        lent: &mut Lent,
    ) -> RoundOutcome {
        fast::round(book, launch, turns, lent).map_err(|_| REFUSED)
    }

    #[test]
    fn rounds_do_not_differ() {
        for case in rounds::all()
            .into_iter()
            .chain(random_rounds(1).take(20_000))
        {
            assert_eq!(
                rounds::outcome(round, &case),
                rounds::outcome(expected_round, &case)
            );
        }
    }

    fn expected_write(tables: &Tables, out: &mut [u8]) -> Result<usize, Refusal> {
        writer::write(tables, out).map_err(|_| REFUSED)
    }

    #[test]
    fn writings_do_not_differ() {
        for case in chosen().into_iter().chain(tables(1).take(20_000)) {
            assert_eq!(outcome(write, &case), outcome(expected_write, &case));
        }
    }
}
