//! The metadata that both TNTP files begin with.

use std::ops::RangeInclusive;

use super::figure;
use crate::exact::Figure;
use crate::source::{Problem, Source};

/// One line of metadata.
struct Entry<'a> {
    line: usize,
    key: String,
    value: &'a str,
}

/// The metadata of a file.
pub struct Metadata<'a> {
    source: &'a Source,
    entries: Vec<Entry<'a>>,
    /// The line they end on.
    end: usize,
}

/// The lines after the metadata, with their numbers.
pub type Rows<'a> = Vec<(usize, &'a str)>;

/// Reads the metadata and hands back the lines that follow.
pub fn split(source: &Source) -> Result<(Metadata<'_>, Rows<'_>), Problem> {
    let mut entries: Vec<Entry> = Vec::new();
    let mut lines = source.lines('~');
    for (line, text) in lines.by_ref() {
        let Some((key, value)) = text.strip_prefix('<').and_then(|text| text.split_once('>'))
        else {
            let what = format!("found `{text}` before <END OF METADATA>");
            return Err(source.problem(line, what));
        };
        let (key, value) = (key.trim().to_uppercase(), value.trim());
        if key == "END OF METADATA" {
            let end = line;
            let metadata = Metadata {
                source,
                entries,
                end,
            };
            return Ok((metadata, lines.collect()));
        }
        if let Some(before) = entries.iter().find(|entry| entry.key == key) {
            let what = format!("<{key}> for the second time, first on line {}", before.line);
            return Err(source.problem(line, what));
        }
        entries.push(Entry { line, key, value });
    }
    let what = "the file ends without <END OF METADATA>";
    Err(source.problem(source.last_line(), what))
}

impl<'a> Metadata<'a> {
    fn entry(&self, key: &str) -> Option<&Entry<'a>> {
        self.entries.iter().find(|entry| entry.key == key)
    }

    /// The number under a key and its line, if the key is there.
    pub fn number(
        &self,
        key: &str,
        limits: &RangeInclusive<u16>,
    ) -> Result<Option<(usize, u16)>, Problem> {
        self.entry(key)
            .map(|entry| {
                let name = format!("<{key}>");
                let number = self.source.whole(entry.line, &name, entry.value, limits)?;
                Ok((entry.line, number))
            })
            .transpose()
    }

    /// The number under a key that must be there, and its line.
    pub fn required(
        &self,
        key: &str,
        limits: &RangeInclusive<u16>,
    ) -> Result<(usize, u16), Problem> {
        self.number(key, limits)?.ok_or_else(|| {
            let what = format!("the metadata end without <{key}>");
            self.source.problem(self.end, what)
        })
    }

    /// The figure under a key and its line, if the key is there.
    pub fn figure(&self, key: &str) -> Result<Option<(usize, Figure)>, Problem> {
        self.entry(key)
            .map(|entry| {
                let name = format!("<{key}>");
                let figure = figure(self.source, entry.line, &name, entry.value)?;
                Ok((entry.line, figure))
            })
            .transpose()
    }
}
