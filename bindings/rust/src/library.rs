//! The calls of the static library, as `include/xemdulba.h` declares them. No other module is
//! unsafe.
//!
//! The library asks that a pointer and its length are those of memory that is lent for the whole
//! call, that no pointer is null, not even for a length of 0, and that what it writes to overlaps
//! nothing else that it is lent. Slices have all three: their pointers are never null, and a
//! `&mut` slice is lent alone.

/// The verdict on a book; refusal 0 is acceptance.
#[repr(C)]
pub struct Checked {
    pub refusal: u32,
    pub place: u32,
    pub shapes: u32,
    pub cells: u32,
    pub blocks: u32,
    pub steps: u32,
}

/// A block's stretch of the book; refusal 0 where there is one.
#[repr(C)]
pub struct Stretch {
    pub refusal: u32,
    pub place: u32,
    pub start: u32,
    pub length: u32,
}

/// What a run gives; refusal 0 where it ran.
#[repr(C)]
pub struct Ran {
    pub refusal: u32,
    pub place: u32,
    pub cells: u32,
    pub jobs: u32,
}

/// What a round gives; refusal 0 where the turns were taken.
#[repr(C)]
pub struct Rounded {
    pub refusal: u32,
    pub place: u32,
    pub cells: u32,
    pub jobs: u32,
    pub turns: u32,
}

/// What writing a book gives; refusal 0 where it is written.
#[repr(C)]
pub struct Written {
    pub refusal: u32,
    pub place: u32,
    pub length: u32,
}

/// What stands at an offset; kind 0 where nothing whole does.
#[repr(C)]
pub struct Told {
    pub kind: u32,
    pub first: u32,
    pub second: u32,
    pub third: u32,
    pub number: u32,
    pub next: usize,
}

extern "C" {
    fn xemdulba_check(book: *const u8, length: usize) -> Checked;

    fn xemdulba_block(book: *const u8, length: usize, block: u32) -> Stretch;

    fn xemdulba_record(book: *const u8, length: usize, offset: usize) -> Told;

    fn xemdulba_event(list: *const u8, length: usize, offset: usize) -> Told;

    fn xemdulba_run(
        book: *const u8,
        length: usize,
        launch: u32,
        list: *const u8,
        list_length: usize,
        cells: *mut u8,
        cells_length: usize,
        jobs: *mut u8,
        jobs_length: usize,
        answers: *mut u8,
        answers_length: usize,
    ) -> Ran;

    fn xemdulba_round(
        book: *const u8,
        length: usize,
        launch: u32,
        cells: *mut u8,
        cells_length: usize,
        jobs: *mut u8,
        jobs_length: usize,
        answers: *mut u8,
        answers_length: usize,
        turns: u32,
    ) -> Rounded;

    fn xemdulba_write(
        c: u32,
        shapes: *const u8,
        shapes_length: usize,
        cells: *const u8,
        cells_length: usize,
        blocks: *const u8,
        blocks_length: usize,
        steps: *const u8,
        steps_length: usize,
        out: *mut u8,
        out_length: usize,
    ) -> Written;
}

pub fn check(book: &[u8]) -> Checked {
    // SAFETY: pointer and length are those of a slice.
    unsafe { xemdulba_check(book.as_ptr(), book.len()) }
}

pub fn block(book: &[u8], block: u32) -> Stretch {
    // SAFETY: pointer and length are those of a slice.
    unsafe { xemdulba_block(book.as_ptr(), book.len(), block) }
}

pub fn record(book: &[u8], offset: usize) -> Told {
    // SAFETY: pointer and length are those of a slice; any offset may be asked for.
    unsafe { xemdulba_record(book.as_ptr(), book.len(), offset) }
}

pub fn event(list: &[u8], offset: usize) -> Told {
    // SAFETY: pointer and length are those of a slice; any offset may be asked for.
    unsafe { xemdulba_event(list.as_ptr(), list.len(), offset) }
}

/// The launch label that stands for none.
pub const DEFAULT_LAUNCH: u32 = 0xFFFF_FFFF;

pub fn run(
    book: &[u8],
    launch: u32,
    list: &[u8],
    cells: &mut [u8],
    jobs: &mut [u8],
    answers: &mut [u8],
) -> Ran {
    // SAFETY: pointers and lengths are those of slices, and the three that are written to are
    // lent as `&mut`, so that they overlap nothing.
    unsafe {
        xemdulba_run(
            book.as_ptr(),
            book.len(),
            launch,
            list.as_ptr(),
            list.len(),
            cells.as_mut_ptr(),
            cells.len(),
            jobs.as_mut_ptr(),
            jobs.len(),
            answers.as_mut_ptr(),
            answers.len(),
        )
    }
}

pub fn round(
    book: &[u8],
    launch: u32,
    cells: &mut [u8],
    jobs: &mut [u8],
    answers: &mut [u8],
    turns: u32,
) -> Rounded {
    // SAFETY: pointers and lengths are those of slices, and the three that are written to are
    // lent as `&mut`, so that they overlap nothing.
    unsafe {
        xemdulba_round(
            book.as_ptr(),
            book.len(),
            launch,
            cells.as_mut_ptr(),
            cells.len(),
            jobs.as_mut_ptr(),
            jobs.len(),
            answers.as_mut_ptr(),
            answers.len(),
            turns,
        )
    }
}

pub fn write(
    c: u32,
    shapes: &[u8],
    cells: &[u8],
    blocks: &[u8],
    steps: &[u8],
    out: &mut [u8],
) -> Written {
    // SAFETY: pointers and lengths are those of slices, and the one that is written to is lent as
    // `&mut`, so that it overlaps nothing.
    unsafe {
        xemdulba_write(
            c,
            shapes.as_ptr(),
            shapes.len(),
            cells.as_ptr(),
            cells.len(),
            blocks.as_ptr(),
            blocks.len(),
            steps.as_ptr(),
            steps.len(),
            out.as_mut_ptr(),
            out.len(),
        )
    }
}
