//! A study written as text.

use std::fmt::{Error, Write};

use super::{check_line, from_words, total_line};
use crate::culprit::culprit;
use crate::format::{Class, Destination, Study};
use crate::words::trips;

/// Writes a study; `refusal` is what check answers to it.
pub fn write(study: &Study, refusal: u8) -> String {
    try_write(study, refusal).expect("a string takes any text")
}

fn try_write(study: &Study, refusal: u8) -> Result<String, Error> {
    let mut text = String::new();
    let out = &mut text;
    writeln!(
        out,
        "# Times in hundredths of a minute, capacities in trips."
    )?;
    writeln!(out, "# Nodes and links count from 0.")?;
    if study.version.has_lorries() {
        writeln!(out, "# Lorry trips count in car units.")?;
    }
    writeln!(out, "study {}", study.version)?;
    writeln!(out, "nodes {}", study.nodes)?;
    writeln!(out, "links {}", study.links.len())?;
    writeln!(out, "destinations {}", study.destinations.len())?;
    out.push_str(&marked_lines("closed", &study.closed));
    out.push_str(&marked_lines("barred", &study.barred));

    writeln!(out)?;
    out.push_str(&link_lines(study));

    for destination in &study.destinations {
        writeln!(out)?;
        write_destination(out, destination)?;
    }

    writeln!(out)?;
    writeln!(out, "{}", total_line(study))?;
    writeln!(out, "{}", check_line(refusal))?;
    if let Some(culprit) = culprit(study, refusal) {
        writeln!(out, "# {culprit}")?;
    }
    Ok(text)
}

/// Writes the lines of a destination: the node, then the trips of each class.
fn write_destination(out: &mut String, destination: &Destination) -> Result<(), Error> {
    let total = trips(destination.total(), destination.total_of(Class::Lorries));
    writeln!(out, "destination {}  # {total}", destination.node)?;
    for class in Class::ALL {
        let from = from_words(class);
        for (node, trips) in destination.trips_of(class).iter().enumerate() {
            if *trips != 0 {
                writeln!(out, "  {from} {node}: {trips}")?;
            }
        }
    }
    Ok(())
}

/// Closed nodes or barred links on a line.
const MARKED_ON_A_LINE: usize = 16;

/// The lines of the nodes or links that these bytes mark, with a blank line
/// before them if there are any. Each line begins with `word`.
fn marked_lines(word: &str, bytes: &[u8]) -> String {
    let marked: Vec<String> = (0..)
        .zip(bytes)
        .filter_map(|(number, byte): (u16, _)| match byte {
            0 => None,
            1 => Some(number.to_string()),
            byte => Some(format!("{number}:{byte}")),
        })
        .collect();
    let lines = marked
        .chunks(MARKED_ON_A_LINE)
        .map(|marked| format!("{word} {}\n", marked.join(" ")));
    let blank = if marked.is_empty() { "" } else { "\n" };
    blank.to_owned() + &lines.collect::<String>()
}

/// The lines of the links, below the names of their columns.
fn link_lines(study: &Study) -> String {
    let with_powers = study.version.has_powers();
    let name = if with_powers { "  power" } else { "" };
    let mut lines = format!("#    number  tail  head   free   rise  capacity{name}\n");
    for (number, link) in study.links.iter().enumerate() {
        lines += &format!(
            "link {number:6} {:5} {:5} {:6} {:6} {:9}",
            link.tail, link.head, link.free, link.rise, link.capacity
        );
        if with_powers {
            lines += &format!(" {:6}", link.power);
        }
        lines.push('\n');
    }
    lines
}
