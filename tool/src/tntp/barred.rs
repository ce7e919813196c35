//! The list of links that are barred to lorries: a row for each.
//!
//! A row has the link's init node and term node, as in the net file, and, where
//! several links lead from the one to the other, which of them it is: 1 for the
//! first in the net file. A `;` may close the row; `~` begins a comment.

use super::net::{COLUMNS, Network};
use crate::source::{Problem, Source};
use crate::words::count;

/// The barred byte of each link.
pub fn read(source: &Source, network: &Network) -> Result<Vec<u8>, Problem> {
    // The line that bars each link.
    let mut lines: Vec<Option<usize>> = vec![None; network.links.len()];
    for (line, text) in source.lines('~') {
        let row = Row::read(source, line, text, network.nodes)?;
        let link = row.link(source, network)?;
        if let Some(before) = lines[link] {
            let (init, term) = (row.init, row.term);
            let what =
                format!("link from {init} to {term} for the second time, first on line {before}");
            return Err(source.problem(line, what));
        }
        lines[link] = Some(line);
    }
    let bytes = lines.into_iter().map(|line| u8::from(line.is_some()));
    Ok(bytes.collect())
}

/// A row of the list; its nodes count from 1.
struct Row<'a> {
    line: usize,
    init: u16,
    term: u16,
    /// Which of several links it is, if the row tells it.
    which: Option<&'a str>,
}

impl<'a> Row<'a> {
    fn read(source: &Source, line: usize, text: &'a str, nodes: u16) -> Result<Self, Problem> {
        let row = text.strip_suffix(';').unwrap_or(text);
        let columns: Vec<&str> = row.split_whitespace().collect();
        let (init, term, which) = match columns[..] {
            [init, term] => (init, term, None),
            [init, term, which] => (init, term, Some(which)),
            _ => {
                let columns = count(columns.len() as u64, "column");
                let what = format!(
                    "{columns}, a row has 2: {}, {}; and a third where several links lead there",
                    COLUMNS[0], COLUMNS[1]
                );
                return Err(source.problem(line, what));
            }
        };
        let node = |name, text| source.whole(line, name, text, &(1..=nodes));
        Ok(Row {
            line,
            init: node(COLUMNS[0], init)?,
            term: node(COLUMNS[1], term)?,
            which,
        })
    }

    /// The number of its link.
    fn link(&self, source: &Source, network: &Network) -> Result<usize, Problem> {
        let Row { init, term, .. } = *self;
        let found: Vec<usize> = (0..)
            .zip(&network.links)
            .filter(|(_, link)| (link.tail + 1, link.head + 1) == (init, term))
            .map(|(number, _)| number)
            .collect();
        let problem = |what| source.problem(self.line, what);
        let which = match (self.which, found.len()) {
            (_, 0) => return Err(problem(format!("no link leads from {init} to {term}"))),
            (Some(which), links) => {
                let name = format!("link from {init} to {term}, number");
                source.whole(self.line, &name, which, &(1..=links as u16))?
            }
            (None, 1) => 1,
            (None, links) => {
                let what = format!(
                    "{links} links lead from {init} to {term}, \
                     a third column, 1 to {links}, must tell which is barred"
                );
                return Err(problem(what));
            }
        };
        Ok(found[usize::from(which) - 1])
    }
}
