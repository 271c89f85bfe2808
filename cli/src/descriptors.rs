//! Which of standard input and output were open when the program began. No other module is unsafe.
//!
//! Rust's runtime opens /dev/null in place of a closed descriptor before `main`, and then an answer
//! that goes nowhere looks written, and an input that is not there looks empty. So the look is
//! taken before the runtime starts, by a function that the loader calls.

use std::sync::atomic::{AtomicBool, Ordering};

static OPEN: [AtomicBool; 2] = [AtomicBool::new(true), AtomicBool::new(true)];

/// Standard input was open.
pub fn input_was_open() -> bool {
    OPEN[0].load(Ordering::Relaxed)
}

/// Standard output was open.
pub fn output_was_open() -> bool {
    OPEN[1].load(Ordering::Relaxed)
}

extern "C" {
    fn fcntl(descriptor: i32, command: i32, ...) -> i32;
}

/// Asks for a descriptor's flags; it fails where the descriptor is closed.
const F_GETFD: i32 = 1;

extern "C" fn look() {
    for (descriptor, open) in (0..).zip(&OPEN) {
        // SAFETY: the command takes no third word, and neither reads nor writes memory.
        let flags = unsafe { fcntl(descriptor, F_GETFD) };
        open.store(flags != -1, Ordering::Relaxed);
    }
}

// SAFETY: the section holds pointers to functions, which the loader calls once, in any case before
// `main`. It passes them words that `look` does not take, which the C calling convention allows.
#[used]
#[link_section = ".init_array"]
static LOOK: extern "C" fn() = look;
