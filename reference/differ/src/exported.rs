//! The run, the round and the writer as C calls them: include/xemdulba.h.

use reference::model::machine::Lent;
use reference::model::writer::Tables;

/// As `XEMDULBA_DEFAULT_LAUNCH` of include/xemdulba.h.
pub const DEFAULT_LAUNCH: u32 = 0xFFFF_FFFF;

/// As `xemdulba_ran` of include/xemdulba.h.
#[repr(C)]
#[derive(Debug)]
pub struct Ran {
    pub refusal: u32,
    pub place: u32,
    pub cells: u32,
    pub jobs: u32,
}

/// As `xemdulba_rounded` of include/xemdulba.h.
#[repr(C)]
#[derive(Debug)]
pub struct Rounded {
    pub refusal: u32,
    pub place: u32,
    pub cells: u32,
    pub jobs: u32,
    pub turns: u32,
}

/// As `xemdulba_written` of include/xemdulba.h.
#[repr(C)]
#[derive(Debug)]
pub struct Written {
    pub refusal: u32,
    pub place: u32,
    pub length: u32,
}

extern "C" {
    fn xemdulba_run(
        book: *const u8,
        length: usize,
        launch: u32,
        list: *const u8,
        list_length: usize,
        cells: *mut u8,
        cells_length: usize,
        jobs: *mut u8,
        jobs_length: usize,
        answers: *mut u8,
        answers_length: usize,
    ) -> Ran;

    fn xemdulba_round(
        book: *const u8,
        length: usize,
        launch: u32,
        cells: *mut u8,
        cells_length: usize,
        jobs: *mut u8,
        jobs_length: usize,
        answers: *mut u8,
        answers_length: usize,
        turns: u32,
    ) -> Rounded;

    fn xemdulba_write(
        c: u32,
        shapes: *const u8,
        shapes_length: usize,
        cells: *const u8,
        cells_length: usize,
        blocks: *const u8,
        blocks_length: usize,
        steps: *const u8,
        steps_length: usize,
        out: *mut u8,
        out_length: usize,
    ) -> Written;
}

pub fn run(book: &[u8], launch: u32, list: &[u8], [cells, jobs, answers]: &mut Lent) -> Ran {
    // SAFETY: pointers and lengths are those of slices, and the three that are written to are lent
    // as `&mut`, so that they overlap nothing.
    unsafe {
        xemdulba_run(
            book.as_ptr(),
            book.len(),
            launch,
            list.as_ptr(),
            list.len(),
            cells.as_mut_ptr(),
            cells.len(),
            jobs.as_mut_ptr(),
            jobs.len(),
            answers.as_mut_ptr(),
            answers.len(),
        )
    }
}

pub fn round(book: &[u8], launch: u32, turns: u32, [cells, jobs, answers]: &mut Lent) -> Rounded {
    // SAFETY: as for `run`.
    unsafe {
        xemdulba_round(
            book.as_ptr(),
            book.len(),
            launch,
            cells.as_mut_ptr(),
            cells.len(),
            jobs.as_mut_ptr(),
            jobs.len(),
            answers.as_mut_ptr(),
            answers.len(),
            turns,
        )
    }
}

pub fn write(tables: &Tables, out: &mut [u8]) -> Written {
    // SAFETY: pointers and lengths are those of slices, and the one that is written to is lent as
    // `&mut`, so that it overlaps nothing.
    unsafe {
        xemdulba_write(
            tables.c,
            tables.shapes.as_ptr(),
            tables.shapes.len(),
            tables.cells.as_ptr(),
            tables.cells.len(),
            tables.blocks.as_ptr(),
            tables.blocks.len(),
            tables.steps.as_ptr(),
            tables.steps.len(),
            out.as_mut_ptr(),
            out.len(),
        )
    }
}
