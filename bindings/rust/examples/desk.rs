//! `desk BOOK EVENTS`: checks a book and, where it is accepted, runs it on a list of events, with
//! job 0 at the bound of block 0.
//! Exit status: 0 it ran, 1 refused, 2 no answer, or it cannot be written.

use std::ffi::OsString;
use std::fmt::{self, Write as _};
use std::fs::File;
use std::io::{self, ErrorKind, Read as _, Write as _};
use std::os::fd::AsFd;
use std::path::Path;
use std::process::ExitCode;
use xemdulba::{Cell, Job, Refusal, Run, Settings, Value};

fn main() -> ExitCode {
    let arguments: Vec<OsString> = std::env::args_os().skip(1).collect();
    let [book, events] = &arguments[..] else {
        return complain("usage: desk BOOK EVENTS");
    };
    match answer(book, events) {
        Ok(status) => ExitCode::from(status),
        // A reader who has gone away wants to hear nothing.
        Err(error) if error.kind() == ErrorKind::BrokenPipe => ExitCode::from(2),
        Err(error) => complain(&format!("desk: {error}")),
    }
}

/// Says it on standard error, if that can be written; gives the exit status that goes with it.
fn complain(words: &str) -> ExitCode {
    let _ = writeln!(io::stderr(), "{words}");
    ExitCode::from(2)
}

/// Prints what the files give, and chooses the exit status.
fn answer(book: &OsString, events: &OsString) -> io::Result<u8> {
    let (book, events) = (read(book)?, read(events)?);
    let mut text = String::new();
    let status = match desk(&book, &events, &mut text) {
        Ok(()) => 0,
        Err(refusal) => {
            text += &format!("{refusal}\n");
            1
        }
    };
    let named =
        |error: io::Error| io::Error::new(error.kind(), format!("standard output: {error}"));
    write(&text).map_err(named)?;
    Ok(status)
}

/// Writes to standard output. A file of our own on its descriptor reports every error; the one of
/// `io::stdout` takes a descriptor that cannot be written for one that takes everything.
fn write(text: &str) -> io::Result<()> {
    if before_main::output_was_closed() {
        return Err(io::Error::other("it is closed"));
    }
    File::from(io::stdout().as_fd().try_clone_to_owned()?).write_all(text.as_bytes())
}

/// Whether standard output was closed. The runtime of Rust opens /dev/null, to read and write, in
/// its place before `main`, and then nothing tells it from a caller that gave /dev/null so, as
/// Python's `subprocess.DEVNULL` does. So it is asked before: the system's loader calls what stands
/// in `.init_array` first. Where there is no such section, closed output is taken for /dev/null.
#[cfg(target_os = "linux")]
mod before_main {
    use std::ffi::c_int;
    use std::sync::atomic::{AtomicBool, Ordering::Relaxed};

    static CLOSED: AtomicBool = AtomicBool::new(false);

    #[used]
    #[link_section = ".init_array"]
    static ASK: extern "C" fn() = ask;

    extern "C" {
        fn fcntl(descriptor: c_int, command: c_int, ...) -> c_int;
    }

    extern "C" fn ask() {
        const F_GETFD: c_int = 1;
        // SAFETY: this asks for the flags of descriptor 1; it changes nothing.
        CLOSED.store(unsafe { fcntl(1, F_GETFD) } == -1, Relaxed);
    }

    pub fn output_was_closed() -> bool {
        CLOSED.load(Relaxed)
    }
}

#[cfg(not(target_os = "linux"))]
mod before_main {
    pub fn output_was_closed() -> bool {
        false
    }
}

/// So many bytes are refused as a book and as a list of events, whatever follows them.
const MOST: u64 = 65_537;

fn read(path: &OsString) -> io::Result<Vec<u8>> {
    let named = |error| io::Error::other(format!("{}: {error}", Path::new(path).display()));
    let mut bytes = Vec::new();
    let file = File::open(path).map_err(named)?;
    file.take(MOST).read_to_end(&mut bytes).map_err(named)?;
    Ok(bytes)
}

/// The verdict, and what the run gives.
fn desk(book: &[u8], events: &[u8], text: &mut String) -> Result<(), Refusal> {
    let counts = xemdulba::check(book)?;
    *text += &format!("{counts}\n");
    let at_bound = Settings::default().launch(xemdulba::bound(book)?);
    let run = xemdulba::run(book, events, at_bound)?;
    write_run(&run, text).expect("a string takes all text");
    Ok(())
}

fn write_run(run: &Run, out: &mut String) -> fmt::Result {
    writeln!(out, "ran cells {} jobs {}", run.cells.len(), run.jobs.len())?;
    write!(out, "answers")?;
    for answer in &run.answers {
        write!(out, " {}", answer.byte())?;
    }
    writeln!(out)?;
    for (number, cell) in run.cells.iter().enumerate() {
        write_cell(number, cell, out)?;
    }
    for (number, job) in run.jobs.iter().enumerate() {
        write_job(number, job, out)?;
    }
    Ok(())
}

fn write_cell(number: usize, cell: &Cell, out: &mut String) -> fmt::Result {
    let Cell {
        shape,
        trust,
        label,
        value,
    } = cell;
    write!(
        out,
        "cell {number} shape {shape} trust {trust} label {label} "
    )?;
    write_value(value, out)
}

fn write_job(number: usize, job: &Job, out: &mut String) -> fmt::Result {
    write!(
        out,
        "job {number} block {} position {}",
        job.block, job.position
    )?;
    writeln!(out, " label {} source {}", job.label, job.source)?;
    for (register, value) in job.registers.iter().enumerate() {
        write!(out, "  register {register} ")?;
        write_value(value, out)?;
    }
    Ok(())
}

fn write_value(value: &Value, out: &mut String) -> fmt::Result {
    let Value {
        kind,
        number,
        source,
    } = value;
    writeln!(out, "{kind} {number} source {source}")
}
