//! Text files, and problems with the file and line they are in.

use std::fmt;
use std::fs;
use std::ops::RangeInclusive;
use std::path::{Path, PathBuf};

use crate::words::range;

/// What is wrong with an input, and where.
#[derive(Clone, Debug, PartialEq, Eq)]
pub struct Problem {
    file: PathBuf,
    line: Option<usize>,
    what: String,
}

impl Problem {
    /// A problem with a file as a whole.
    pub fn new(file: &Path, what: impl Into<String>) -> Self {
        Problem {
            file: file.to_owned(),
            line: None,
            what: what.into(),
        }
    }
}

impl fmt::Display for Problem {
    fn fmt(&self, out: &mut fmt::Formatter<'_>) -> fmt::Result {
        write!(out, "{}: ", self.file.display())?;
        if let Some(line) = self.line {
            write!(out, "line {line}: ")?;
        }
        write!(out, "{}", self.what)
    }
}

impl std::error::Error for Problem {}

/// A text file.
#[derive(Clone, Debug)]
pub struct Source {
    path: PathBuf,
    text: String,
}

impl Source {
    /// A text with the name under which problems report it.
    pub fn new(path: impl Into<PathBuf>, text: impl Into<String>) -> Self {
        Source {
            path: path.into(),
            text: text.into(),
        }
    }

    /// Reads a file.
    pub fn open(path: &Path) -> Result<Self, Problem> {
        let bytes = read(path)?;
        String::from_utf8(bytes)
            .map(|text| Source::new(path, text))
            .map_err(|error| {
                let sound = &error.as_bytes()[..error.utf8_error().valid_up_to()];
                let line = 1 + sound.iter().filter(|&&byte| byte == b'\n').count();
                Problem {
                    line: Some(line),
                    ..Problem::new(path, "not a text file (not UTF-8)")
                }
            })
    }

    /// The name under which problems report it.
    pub fn path(&self) -> &Path {
        &self.path
    }

    /// The lines that say something, with their numbers from 1: comments,
    /// which begin with `comment`, blanks at either end and empty lines are
    /// taken away.
    pub fn lines(&self, comment: char) -> impl Iterator<Item = (usize, &str)> {
        let text = self.text.strip_prefix('\u{feff}').unwrap_or(&self.text);
        (1..)
            .zip(text.lines())
            .map(move |(number, line)| {
                let end = line.find(comment).unwrap_or(line.len());
                (number, line[..end].trim())
            })
            .filter(|(_, line)| !line.is_empty())
    }

    /// The number of the last line, at least 1.
    pub fn last_line(&self) -> usize {
        self.text.lines().count().max(1)
    }

    /// A problem on a line.
    pub fn problem(&self, line: usize, what: impl Into<String>) -> Problem {
        Problem {
            line: Some(line),
            ..Problem::new(&self.path, what)
        }
    }

    /// The whole number that `text`, on a line, writes in digits, if it is
    /// within limits.
    pub fn whole(
        &self,
        line: usize,
        name: &str,
        text: &str,
        limits: &RangeInclusive<u16>,
    ) -> Result<u16, Problem> {
        // `parse` alone would let a plus sign through.
        let digits = !text.is_empty() && text.bytes().all(|byte| byte.is_ascii_digit());
        text.parse()
            .ok()
            .filter(|number| digits && limits.contains(number))
            .ok_or_else(|| {
                let limits = range(limits);
                let what = if digits {
                    format!("{name} {text}, limit {limits}")
                } else {
                    format!("{name} `{text}` is not a whole number, limit {limits}")
                };
                self.problem(line, what)
            })
    }

    /// A remark on a line, with file and line in front.
    pub fn remark(&self, line: usize, what: impl Into<String>) -> String {
        self.problem(line, what).to_string()
    }

    /// A problem with the file as a whole.
    pub fn problem_overall(&self, what: impl Into<String>) -> Problem {
        Problem::new(&self.path, what)
    }
}

/// Reads the bytes of a file.
pub fn read(path: &Path) -> Result<Vec<u8>, Problem> {
    fs::read(path).map_err(|error| Problem::new(path, format!("cannot be read: {error}")))
}
