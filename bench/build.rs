//! Compiles `limit.c` and links it.

use std::path::Path;
use std::process::{exit, Command};
use std::{env, fs};

const FOLDER: &str = env!("CARGO_MANIFEST_DIR");

/// Its memset is the C library's, as it is on the other sides.
const FLAGS: [&str; 4] = ["-O3", "-std=c99", "-fno-builtin-memset", "-c"];

fn main() {
    let (source, headers) = (format!("{FOLDER}/limit.c"), format!("{FOLDER}/../include"));
    let out = env::var("OUT_DIR").expect("cargo sets it");
    let (object, archive) = (format!("{out}/limit.o"), format!("{out}/liblimit.a"));
    println!("cargo:rerun-if-changed={source}");
    println!("cargo:rerun-if-changed={headers}/xemdulba.h");

    run(Command::new("cc")
        .args(FLAGS)
        .args(["-I", &headers, "-o", &object, &source]));
    if Path::new(&archive).exists() {
        fs::remove_file(&archive).expect("it is this script's own");
    }
    run(Command::new("ar").args(["rcs", &archive, &object]));
    println!("cargo:rustc-link-search=native={out}");
    println!("cargo:rustc-link-lib=static=limit");
}

/// Runs a program, and ends this one if it fails.
fn run(program: &mut Command) {
    let outcome = program.status();
    if !outcome.as_ref().is_ok_and(|status| status.success()) {
        eprintln!("bench/limit.c is not compiled: {program:?}: {outcome:?}");
        exit(1);
    }
}
