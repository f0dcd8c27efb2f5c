//! Has the archive made, where a source of it changed, and links it.
//!
//! Without an archive this does not fail, so that `cargo check` and `cargo doc` need none: it warns, and then linking fails.

use std::env;
use std::fs;
use std::path::{Path, PathBuf};
use std::process::{Command, Stdio};

/// The variable that names an archive to be taken as it is.
const VARIABLE: &str = "KHAMDORIEM_ARCHIVE";

fn main() {
    println!("cargo:rerun-if-changed=build.rs");
    println!("cargo:rerun-if-env-changed={VARIABLE}");
    let out = PathBuf::from(env::var_os("OUT_DIR").expect("cargo gives OUT_DIR"));
    println!("cargo:rustc-link-search=native={}", out.display());
    println!("cargo:rustc-link-lib=static=khamdoriem");

    // The copy has the name that the linker looks for, whatever the archive's file is called. Where there is no archive, none is left.
    let copy = out.join("libkhamdoriem.a");
    let _ = fs::remove_file(&copy);
    if let Err(message) = fits_target() {
        warn(&message);
    } else if let Err(message) = archive().and_then(|archive| place(&archive, &copy)) {
        warn(&message);
        warn(&format!("Put rt on the PATH, or set {VARIABLE} to the file of an archive."));
        // No such file is ever there, so the next build tries again.
        println!("cargo:rerun-if-changed={}", out.join("no archive").display());
    }
}

/// Tells why nothing can be linked.
fn warn(message: &str) {
    for line in message.lines() {
        println!("cargo:warning={line}");
    }
}

/// The archive is code for x86-64, with the calls and the object format of Linux.
fn fits_target() -> Result<(), String> {
    let is = |key: &str, value: &str| env::var(key).as_deref() == Ok(value);
    let calls = !is("CARGO_CFG_TARGET_OS", "windows") && !is("CARGO_CFG_TARGET_VENDOR", "apple");
    if is("CARGO_CFG_TARGET_ARCH", "x86_64") && is("CARGO_CFG_TARGET_POINTER_WIDTH", "64") && calls {
        return Ok(());
    }
    let target = env::var("TARGET").unwrap_or_default();
    Err(format!(
        "The archive is for x86-64 under Linux and this is a build for {target}, so nothing can be linked.\n\
         On Arm, host/on-arm builds for x86-64 and runs under an emulator: host/on-arm cargo run"
    ))
}

fn place(archive: &Path, copy: &Path) -> Result<(), String> {
    fs::copy(archive, copy)
        .map(|_| ())
        .map_err(|e| format!("The archive {} cannot be copied to {}: {e}.", archive.display(), copy.display()))
}

/// The file that the variable names, else the one that the repository makes.
fn archive() -> Result<PathBuf, String> {
    if let Some(named) = env::var_os(VARIABLE).filter(|named| !named.is_empty()) {
        let named = PathBuf::from(named);
        println!("cargo:rerun-if-changed={}", named.display());
        return if named.is_file() {
            Ok(named)
        } else {
            Err(format!("{VARIABLE} names {}, which is no file. (It has to be a full path.)", named.display()))
        };
    }
    let host = PathBuf::from(env::var_os("CARGO_MANIFEST_DIR").expect("cargo gives CARGO_MANIFEST_DIR"));
    let repository = host.parent().filter(|above| above.join("crates/khamdoriem").is_dir());
    let repository = repository.ok_or_else(|| {
        format!(
            "There is no crate 'khamdoriem' beside {} to make the archive from: set {VARIABLE} to its file.",
            host.display()
        )
    })?;
    watch(repository);
    make(repository)
}

/// Names the sources to cargo, and not what checks keep in out/ beside them.
fn watch(repository: &Path) {
    let mut sources = vec![];
    sources.extend(["crates.txt", "tools/archive", "tools/building.sh"].map(|file| repository.join(file)));
    for crate_folder in fs::read_dir(repository.join("crates")).into_iter().flatten().flatten() {
        sources.extend(["src", "specs", "proofs"].map(|part| crate_folder.path().join(part)));
    }
    for source in sources.iter().filter(|source| source.exists()) {
        println!("cargo:rerun-if-changed={}", source.display());
    }
}

/// Has the archive made of the sources as they are. What is proved already is not proved again.
fn make(repository: &Path) -> Result<PathBuf, String> {
    let told = run(Command::new(repository.join("tools/archive")), "tools/archive", repository)?;
    let made = repository.join(told.lines().last().unwrap_or_default());
    if made.is_file() {
        Ok(made)
    } else {
        Err(format!("'tools/archive' left no {}.", made.display()))
    }
}

/// What the command writes to its output, or what went wrong.
fn run(mut command: Command, called: &str, repository: &Path) -> Result<String, String> {
    let done = command
        .current_dir(repository)
        .stdin(Stdio::null())
        .output()
        .map_err(|e| format!("There is no archive: '{called}', which makes it, cannot be run ({e})."))?;
    let output = String::from_utf8_lossy(&done.stdout);
    if done.status.success() {
        return Ok(output.into_owned());
    }
    let errors = String::from_utf8_lossy(&done.stderr);
    Err(format!("There is no archive: '{called}', which makes it, failed ({}).\n{output}{errors}", done.status))
}
