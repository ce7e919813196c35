//! A study as text, both ways.
//!
//! The town of two roads:
//!
//! ```text
//! study 1
//! nodes 2
//! links 2
//! destinations 1
//!
//! #    number  tail  head   free   rise  capacity
//! link      0     0     1     10     10         2
//! link      1     0     1     15      0         1
//!
//! destination 1  # 2 trips
//!   from 0: 2
//!
//! total: 2 trips
//! check: accepted
//! ```
//!
//! - The four lines of the header come first, in this order: the file's
//!   version, then the counts of what follows.
//! - From version 2 on the closed nodes come next, in lines such as
//!   `closed 0 1 2`; nodes not mentioned are open. Where a node's closed byte is
//!   neither 0 nor 1, it stands behind the node: `closed 0 1 2:255`.
//! - In version 4 the links that are barred to lorries follow in the same form:
//!   `barred 3 5:2`.
//! - A `link` line for each link, in order: number, tail, head, free time and
//!   rise in hundredths of a minute, capacity in trips and, from version 3 on,
//!   the power.
//! - A `destination` line for each destination, in order, each followed by a
//!   `from` line for every node with trips to it: node and trips. Nodes not
//!   mentioned have none. In version 4 lorry trips, in car units, stand there
//!   likewise, in lines such as `lorries from 0: 2`.
//! - The lines `total:` and `check:` may be left out: reading works both out
//!   anew, and [`Reading::stale`] tells where the text says something else.
//!
//! Nodes and links count from 0. From `#` to the end of a line is a comment;
//! blank lines and the width of blanks do not matter. The counts obey
//! question 3; any other number is one of 16 bits, or of 8 in a closed or barred
//! byte, so a text can describe a study that check refuses under questions 6 to
//! 11, 19 and 23.

mod read;
mod write;

use crate::format::{Class, Study};
use crate::words::{answer, trips};

pub use read::read;
pub use write::write;

/// What the lines of a class's trips begin with.
fn from_words(class: Class) -> &'static str {
    match class {
        Class::Cars => "from",
        Class::Lorries => "lorries from",
    }
}

/// The line that gives the total of trips.
pub fn total_line(study: &Study) -> String {
    let total = trips(study.total(), study.total_of(Class::Lorries));
    // Numbers of the text are not in groups.
    format!("total: {}", total.replace(',', ""))
}

/// The line that gives check's answer.
pub fn check_line(refusal: u8) -> String {
    format!("check: {}", answer(refusal))
}

/// A study read from text.
#[derive(Clone, Debug)]
pub struct Reading {
    /// The study.
    pub study: Study,
    /// The lines `total:` and `check:` that the text has, with their numbers.
    stated: Vec<(usize, String)>,
}

impl Reading {
    /// The lines of the text that no longer hold: number, what it says and
    /// what it ought to say. `refusal` is what check answers to the study.
    pub fn stale(&self, refusal: u8) -> Vec<(usize, &str, String)> {
        self.stated
            .iter()
            .filter_map(|(number, said)| {
                let holds = if said.starts_with("total:") {
                    total_line(&self.study)
                } else {
                    check_line(refusal)
                };
                (*said != holds).then_some((*number, said.as_str(), holds))
            })
            .collect()
    }
}
