//! Finds the verified library, links it, and hands on the identity of the kit that proved it.
//!
//! The library is `libxemdulba.a` in the folder that XEMDULBA_LIB_DIR names; else in the source
//! folder's `target/staticlib`, where `cli/archive` writes it; else where pkg-config says. The
//! identity stands in `libxemdulba.kit` beside it.

use std::path::{Path, PathBuf};
use std::process::{exit, Command};
use std::{env, fs};

const ARCHIVE: &str = "libxemdulba.a";
const KIT: &str = "libxemdulba.kit";

/// What plays a part in the search, beside the files.
const VARIABLES: [&str; 5] = [
    "XEMDULBA_LIB_DIR",
    "XEMDULBA_KIT",
    "PKG_CONFIG",
    "PKG_CONFIG_PATH",
    "PKG_CONFIG_LIBDIR",
];

/// A folder with the library in it.
struct Found {
    folder: PathBuf,
    /// It is the source folder's own, so that the kit at hand is the one that made it.
    own: bool,
}

fn main() {
    println!("cargo:rerun-if-changed=build.rs");
    for variable in VARIABLES {
        println!("cargo:rerun-if-env-changed={variable}");
    }
    match find().and_then(|found| Ok((kit(&found)?, found.folder))) {
        Ok((kit, folder)) => tell(&kit, &folder),
        Err(reason) => {
            eprintln!("xemdulba: {reason}");
            exit(1);
        }
    }
}

/// What cargo has to know.
fn tell(kit: &str, folder: &Path) {
    println!("cargo:rerun-if-changed={}", folder.join(ARCHIVE).display());
    println!("cargo:rustc-link-search=native={}", folder.display());
    println!("cargo:rustc-link-lib=static=xemdulba");
    println!("cargo:rustc-env=XEMDULBA_KIT={kit}");
}

/// A variable that is set to something. What is no text of it is replaced, and then names nothing.
fn variable(name: &str) -> Option<String> {
    let value = env::var_os(name).filter(|value| !value.is_empty())?;
    Some(value.to_string_lossy().into_owned())
}

fn find() -> Result<Found, String> {
    if let Some(named) = variable("XEMDULBA_LIB_DIR") {
        return named_folder(&named);
    }
    let sources = PathBuf::from(variable("CARGO_MANIFEST_DIR").expect("cargo sets it"));
    let folder = sources.join("../../target/staticlib");
    if folder.join(ARCHIVE).is_file() {
        return Ok(Found { folder, own: true });
    }
    pkg_config().ok_or_else(|| {
        format!(
            "there is no {ARCHIVE}: set XEMDULBA_LIB_DIR to its folder, or run `cli/archive` in \
             the source folder, or install it where pkg-config looks"
        )
    })
}

/// The folder that XEMDULBA_LIB_DIR names, and no other.
fn named_folder(named: &str) -> Result<Found, String> {
    let folder = PathBuf::from(named);
    if !folder.is_absolute() {
        return Err(format!("XEMDULBA_LIB_DIR is '{named}', no absolute path"));
    }
    if !folder.join(ARCHIVE).is_file() {
        return Err(format!("XEMDULBA_LIB_DIR is '{named}': no {ARCHIVE} there"));
    }
    Ok(Found { folder, own: false })
}

fn pkg_config() -> Option<Found> {
    let program = variable("PKG_CONFIG").unwrap_or("pkg-config".to_string());
    let folder = PathBuf::from(said(&program, &["--variable=libdir", "xemdulba"])?);
    let here = folder.join(ARCHIVE).is_file();
    here.then_some(Found { folder, own: false })
}

/// The identity of the kit, one line.
fn kit(found: &Found) -> Result<String, String> {
    let beside = found.folder.join(KIT);
    let written = fs::read_to_string(&beside).ok();
    if written.is_some() {
        println!("cargo:rerun-if-changed={}", beside.display());
    }
    written
        .and_then(line)
        .or_else(|| variable("XEMDULBA_KIT").and_then(line))
        .or_else(|| found.own.then(|| said("rt", &["version"])).flatten())
        .ok_or_else(|| {
            format!(
                "which kit proved {} is not known: {KIT} beside it should say, in one line, or \
                 XEMDULBA_KIT",
                found.folder.join(ARCHIVE).display()
            )
        })
}

/// What a program says in one line, if it ends well.
fn said(program: &str, words: &[&str]) -> Option<String> {
    let output = Command::new(program).args(words).output().ok()?;
    let text = String::from_utf8(output.stdout).ok()?;
    output.status.success().then(|| line(text)).flatten()
}

/// The one line of a text, if it is one.
fn line(text: String) -> Option<String> {
    let line = text.trim();
    (!line.is_empty() && !line.contains(['\n', '\r'])).then(|| line.to_string())
}
