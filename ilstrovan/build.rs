//! Finds the static library of the proved calls and has it linked.
//!
//! It is `target/staticlib/libinterface.a` of the repository above this
//! folder, or of the folder that ILSTROVAN_STATICLIB names. Where
//! ILSTROVAN_BEFORE names the static library of an earlier build, the benchmark
//! links that too, and `objcopy` renames its exports and aligns the functions of
//! both.

use std::env;
use std::ffi::OsStr;
use std::fs;
use std::path::{Path, PathBuf};
use std::process::Command;

const FOLDER: &str = "ILSTROVAN_STATICLIB";
const BEFORE: &str = "ILSTROVAN_BEFORE";

fn main() {
    println!("cargo::rerun-if-env-changed={FOLDER}");
    let folder = match env::var_os(FOLDER) {
        Some(folder) => PathBuf::from(folder),
        None => {
            let package = env::var_os("CARGO_MANIFEST_DIR").expect("cargo sets CARGO_MANIFEST_DIR");
            Path::new(&package).join("../target/staticlib")
        }
    };
    let archive = folder.join("libinterface.a");
    println!("cargo::rerun-if-changed={}", archive.display());
    if !archive.is_file() {
        println!(
            "cargo::error={} is missing: run `rt lib` in crates/interface_c and copy out/libinterface_c.a there, \
             or set {FOLDER} to the folder that holds libinterface.a",
            archive.display()
        );
        return;
    }
    println!("cargo::rustc-link-lib=static=interface");
    println!("cargo::rustc-env=ILSTROVAN_ARCHIVE={}", archive.display());
    println!("cargo::rustc-check-cfg=cfg(before, before_page, before_note)");
    println!("cargo::rerun-if-env-changed={BEFORE}");
    match env::var_os(BEFORE) {
        Some(before) => link_both(archive.as_os_str(), &before),
        None => println!("cargo::rustc-link-search=native={}", folder.display()),
    }
}

/// Links copies of the calls and of an earlier build's, whose names become
/// `before_check` and so on.
fn link_both(archive: &OsStr, before: &OsStr) {
    let out = PathBuf::from(env::var_os("OUT_DIR").expect("cargo sets OUT_DIR"));
    let calls = [
        "check",
        "pack",
        "start",
        "pass",
        "run",
        "audit",
        "page",
        "take_back",
        "desks",
    ];
    let renamed = calls.map(|call| format!("--redefine-sym=ilstrovan_{call}=before_{call}"));
    let copied = copy_aligned(archive, &[], &out.join("libinterface.a"))
        && copy_aligned(before, &renamed, &out.join("libbefore.a"));
    if !copied {
        println!("cargo::error=objcopy made no copies of the archives to compare");
        return;
    }
    println!("cargo::rustc-link-search=native={}", out.display());
    println!("cargo::rustc-link-lib=static=before");
    println!("cargo::rustc-cfg=before");
    if names(before, "ilstrovan_page") {
        println!("cargo::rustc-cfg=before_page");
    }
    if names(before, "ilstrovan_take_back") {
        println!("cargo::rustc-cfg=before_note");
    }
}

/// Copies an archive and has each of its functions begin at a multiple of 64
/// bytes, so that equal code lies alike in both: where the linker happens to put
/// a function can make a call slower by a twentieth.
fn copy_aligned(archive: &OsStr, options: &[String], copy: &Path) -> bool {
    let mut objcopy = Command::new("objcopy");
    objcopy.args(["--set-section-alignment", ".text.*=64"]);
    objcopy.args(options).arg(archive).arg(copy);
    objcopy.status().is_ok_and(|status| status.success())
}

/// Whether an archive names this call: builds before the page lack it, and those
/// before notes lack taking back.
fn names(archive: &OsStr, call: &str) -> bool {
    let bytes = fs::read(archive).unwrap_or_default();
    bytes
        .windows(call.len())
        .any(|part| part == call.as_bytes())
}
