//! Writes the recorded calls and the answers expected to them.
//!
//! ```text
//! record calls   [file]             the calls, as a stream of bytes
//! record answers [file]             the expected answers, as lines of text
//! record replay  [file] < stream    the answers to any stream of calls
//! record assign  [file] < input     what the program `assign` prints
//! record page    [file] < input     what the program `page` prints
//! ```
//!
//! Without a file the result goes to standard output. The forms of stream and
//! lines are described in the library's module `stream`.

use std::fs;
use std::io::{self, Read, Write};
use std::process::ExitCode;

use second::stream::{Second, answers, read_calls, write_calls};
use second::{cases, listing, page_listing};

const USAGE: &str = "usage: record calls|answers|replay|assign|page [file]";

fn main() -> ExitCode {
    match work() {
        Ok(()) => ExitCode::SUCCESS,
        Err(message) => {
            eprintln!("record: {message}");
            ExitCode::FAILURE
        }
    }
}

fn work() -> Result<(), String> {
    let mut words = std::env::args().skip(1);
    let (Some(word), file, None) = (words.next(), words.next(), words.next()) else {
        return Err(USAGE.to_string());
    };
    let result = match word.as_str() {
        "calls" => write_calls(&cases::all()),
        "answers" => answers(&Second, &cases::all()).into_bytes(),
        "replay" => answers(&Second, &read_calls(&input()?)?).into_bytes(),
        "assign" => listing(&input()?),
        "page" => page_listing(&input()?),
        _ => return Err(USAGE.to_string()),
    };
    match file {
        Some(file) => fs::write(file, result),
        None => io::stdout().lock().write_all(&result),
    }
    .map_err(|error| error.to_string())
}

fn input() -> Result<Vec<u8>, String> {
    let mut bytes = Vec::new();
    io::stdin()
        .lock()
        .read_to_end(&mut bytes)
        .map_err(|error| error.to_string())?;
    Ok(bytes)
}
