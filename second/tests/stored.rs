//! The files that the program `replay` is run on and compared with are what
//! the generator and this implementation give.

use std::fs;
use std::path::{Path, PathBuf};

use second::cases;
use second::stream::{Second, answers, write_calls};

fn stored(name: &str) -> PathBuf {
    Path::new(env!("CARGO_MANIFEST_DIR"))
        .join("../crates/replay")
        .join(name)
}

#[test]
fn the_calls_are_the_generators() {
    let calls = fs::read(stored("stdin")).expect("crates/replay/stdin");
    assert!(
        calls == write_calls(&cases::all()),
        "record calls writes another stream"
    );
}

#[test]
fn the_answers_are_this_implementations() {
    let lines = fs::read_to_string(stored("stdout")).expect("crates/replay/stdout");
    assert!(
        lines == answers(&Second, &cases::all()),
        "record answers writes other lines"
    );
}
