//! The net file: one row for each link.

use std::ops::RangeInclusive;

use super::metadata::{self, Metadata};
use super::rounding::{Kind, Ledger};
use super::{Options, figure, too_long};
use crate::exact::{Figure, FigureError, Fraction, is_decimal};
use crate::format::{
    CAPACITIES, DEFAULT_POWER, FREE_TIMES, LINKS, Link, NODES, POWERS, RISES, Version,
};
use crate::source::{Problem, Source};
use crate::words::{count, range};

/// The columns of a row.
pub const COLUMNS: [&str; 10] = [
    "init node",
    "term node",
    "capacity",
    "length",
    "free flow time",
    "b",
    "power",
    "speed",
    "toll",
    "link type",
];

/// What the net file says.
pub struct Network {
    /// The first version that has a place for it.
    pub version: Version,
    /// Number of nodes.
    pub nodes: u16,
    /// Number of zones, if the file tells it.
    pub zones: Option<u16>,
    /// The first node that may be passed through; those before it are closed.
    pub first_open: u16,
    /// The links, in the order of the file.
    pub links: Vec<Link>,
    /// Which nodes are closed, what makes it a version 3 study, and what a
    /// study has no place for.
    pub notes: Vec<String>,
}

/// Reads the net file.
pub fn read(source: &Source, options: &Options, ledger: &mut Ledger) -> Result<Network, Problem> {
    let (metadata, rows) = metadata::split(source)?;
    let (_, nodes) = metadata.required("NUMBER OF NODES", &NODES)?;
    let (link_line, link_count) = metadata.required("NUMBER OF LINKS", &LINKS)?;
    let zones = metadata.number("NUMBER OF ZONES", &(1..=nodes))?;
    let first_open = metadata.number("FIRST THRU NODE", &(1..=nodes + 1))?;
    let left_out = left_out(source, &metadata)?;

    let mut links = Links::default();
    for &(line, text) in &rows {
        let row = Row { source, line };
        let columns = row.columns(text)?;
        let link = row.link(columns, nodes, options, ledger)?;
        links.add(line, columns, link);
    }
    if rows.len() != usize::from(link_count) {
        let rows = count(rows.len() as u64, "row");
        let what = format!("<NUMBER OF LINKS> {link_count}, but the file has {rows}");
        return Err(source.problem(link_line, what));
    }

    let closing = first_open.filter(|&(_, first)| first > 1);
    let version = links.version(closing.is_some(), options.lorries.is_some());
    let mut notes = Vec::from_iter(closing.map(|first| closed_note(source, first, version)));
    notes.extend(links.power_note(source, version));
    notes.extend(left_out);
    notes.extend(links.toll_note(source));
    Ok(Network {
        version,
        nodes,
        zones: zones.map(|(_, zones)| zones),
        first_open: first_open.map_or(1, |(_, first)| first),
        links: links.of_version(version),
        notes,
    })
}

/// What the rows say.
#[derive(Default)]
struct Links {
    links: Vec<Link>,
    /// Links with a toll.
    tolls: u64,
    /// The first power for which a study must have powers, and its line.
    power: Option<(usize, u16)>,
}

impl Links {
    /// Adds the link of a row.
    fn add(&mut self, line: usize, columns: [&str; COLUMNS.len()], link: Link) {
        self.links.push(link);
        self.tolls += u64::from(is_not_zero(columns[8]));
        // Where b is 0 the power makes no difference.
        if link.power != DEFAULT_POWER && is_not_zero(columns[5]) {
            self.power.get_or_insert((line, link.power));
        }
    }

    /// The first version that has a place for them, and for closed nodes and
    /// lorries if there are any.
    fn version(&self, closed: bool, lorries: bool) -> Version {
        Version::first(|version| {
            (version.has_powers() || self.power.is_none())
                && (version.has_closed() || !closed)
                && (version.has_lorries() || !lorries)
        })
    }

    /// The links as they are in a study of this version.
    fn of_version(mut self, version: Version) -> Vec<Link> {
        if !version.has_powers() {
            let links = self.links.iter_mut();
            links.for_each(|link| link.power = DEFAULT_POWER);
        }
        self.links
    }

    /// Tells which power makes the version, where lorries do not make it.
    fn power_note(&self, source: &Source, version: Version) -> Option<String> {
        let (line, power) = self.power.filter(|_| !version.has_lorries())?;
        let note = format!("power {power}, which makes a version {version} study");
        Some(source.remark(line, note))
    }

    fn toll_note(&self, source: &Source) -> Option<String> {
        let links = count(self.tolls, "link");
        let note = format!("{links} with a toll: tolls are left out, a study has none");
        (self.tolls > 0).then(|| source.problem_overall(note).to_string())
    }
}

/// Is this a figure other than 0?
fn is_not_zero(text: &str) -> bool {
    match Figure::parse(text) {
        Ok(figure) => !figure.value.is_zero(),
        Err(error) => error != FigureError::NotDecimal,
    }
}

/// Tells which nodes are closed; `first` is the first open one, above 1, with
/// its line.
fn closed_note(source: &Source, (line, first): (usize, u16), version: Version) -> String {
    let closed = match first {
        2 => "node 1 is closed".to_owned(),
        _ => format!("nodes 1 to {} are closed", first - 1),
    };
    let makes = if version.has_powers() {
        String::new() // Powers or lorries make the version.
    } else {
        format!(", which makes a version {version} study")
    };
    source.remark(line, format!("<FIRST THRU NODE> {first}: {closed}{makes}"))
}

/// Notes on metadata that a study has no place for.
fn left_out(source: &Source, metadata: &Metadata) -> Result<Vec<String>, Problem> {
    let mut notes = Vec::new();
    for key in ["TOLL FACTOR", "DISTANCE FACTOR"] {
        if let Some((line, factor)) = metadata.figure(key)?
            && !factor.value.is_zero()
        {
            let note = format!(
                "<{key}> {} is left out: a link's time is its free time and rise",
                factor.value
            );
            notes.push(source.remark(line, note));
        }
    }
    Ok(notes)
}

/// A row in the making.
#[derive(Clone, Copy)]
struct Row<'a> {
    source: &'a Source,
    line: usize,
}

impl Row<'_> {
    fn problem(self, what: String) -> Problem {
        self.source.problem(self.line, what)
    }

    /// Takes a row apart.
    fn columns(self, text: &str) -> Result<[&str; COLUMNS.len()], Problem> {
        let (row, rest) = text.split_once(';').unwrap_or((text, ""));
        let found: Vec<&str> = row.split_whitespace().collect();
        let due = || format!("a row has {}: {}", COLUMNS.len(), COLUMNS.join(", "));
        let columns = found.try_into().map_err(|found: Vec<&str>| {
            let columns = count(found.len() as u64, "column");
            self.problem(format!("{columns}, {}", due()))
        })?;
        if !text.contains(';') {
            return Err(self.problem("the row does not end with `;`".to_owned()));
        }
        if !rest.trim().is_empty() {
            return Err(self.problem(format!("found `{}` after the row's `;`", rest.trim())));
        }
        Ok(columns)
    }

    /// Makes a link of a row.
    fn link(
        self,
        columns: [&str; COLUMNS.len()],
        nodes: u16,
        options: &Options,
        ledger: &mut Ledger,
    ) -> Result<Link, Problem> {
        let [init, term, capacity, _, free, b, power, ..] = columns;
        let (tail, head) = self.ends(init, term, nodes)?;
        let trips = self.figure(COLUMNS[2], capacity)?;
        let trips = trips
            .divided_by(options.vehicles_per_trip)
            .ok_or_else(|| self.too_long(&format!("capacity {capacity}")))?;
        let free_time = self.figure(COLUMNS[4], free)?;
        let free_time = options
            .time_unit
            .hundredths(free_time)
            .ok_or_else(|| self.too_long(&format!("free flow time {free}")))?;
        let rise = free_time
            .times(self.figure(COLUMNS[5], b)?)
            .ok_or_else(|| self.too_long(&format!("rise {free} × {b}")))?;
        let power = self.power(power, rise)?;
        self.look_at_unused(columns)?;

        let mut fit =
            |kind, exact, limits, figure: String| self.fit(ledger, kind, exact, &limits, &figure);
        let free_name = format!("free flow time {free}");
        let capacity_name = format!("capacity {capacity}");
        Ok(Link {
            tail: tail - 1,
            head: head - 1,
            free: fit(Kind::FreeTime, free_time, FREE_TIMES, free_name)?,
            rise: fit(Kind::Rise, rise, RISES, format!("rise {free} × {b}"))?,
            capacity: fit(Kind::Capacity, trips, CAPACITIES, capacity_name)?,
            power,
        })
    }

    /// Tail and head, counted from 1.
    fn ends(self, init: &str, term: &str, nodes: u16) -> Result<(u16, u16), Problem> {
        let node = |name, text| self.source.whole(self.line, name, text, &(1..=nodes));
        let (tail, head) = (node(COLUMNS[0], init)?, node(COLUMNS[1], term)?);
        if tail == head {
            let what = format!("init node and term node are both {tail}, must be different");
            return Err(self.problem(what));
        }
        Ok((tail, head))
    }

    /// The power. Where the rise is 0 it makes no difference: any figure will
    /// do, and one that no link can have becomes 4.
    fn power(self, text: &str, rise: Fraction) -> Result<u16, Problem> {
        let name = COLUMNS[6];
        let value = Figure::parse(text).map(|figure| figure.value);
        let is_value = |power: &u16| value == Ok(Fraction::whole(u64::from(*power)));
        if let Some(power) = POWERS.into_iter().find(is_value) {
            return Ok(power);
        }
        if rise.is_zero() {
            return self.figure(name, text).map(|_| DEFAULT_POWER);
        }
        let limits = range(&POWERS);
        let not_whole = format!("{name} `{text}` is not a whole number, limit {limits}");
        Err(match value {
            Err(FigureError::TooLong) => self.too_long(&format!("{name} {text}")),
            Err(FigureError::NotDecimal) => self.problem(not_whole),
            Ok(value) if !value.rounding().is_zero() => self.problem(not_whole),
            _ => self.problem(format!("{name} {text}, limit {limits}")),
        })
    }

    /// Columns that are not used hold figures too.
    fn look_at_unused(self, columns: [&str; COLUMNS.len()]) -> Result<(), Problem> {
        for column in [3, 7, 8, 9] {
            let (name, text) = (COLUMNS[column], columns[column]);
            if !is_decimal(text) {
                return Err(self.problem(format!("{name} `{text}` is not a figure")));
            }
        }
        Ok(())
    }

    /// Rounds a figure and holds it against its limits.
    fn fit(
        self,
        ledger: &mut Ledger,
        kind: Kind,
        exact: Fraction,
        limits: &RangeInclusive<u16>,
        figure: &str,
    ) -> Result<u16, Problem> {
        let rounded = ledger.round(kind, exact, || self.source.remark(self.line, figure));
        u16::try_from(rounded)
            .ok()
            .filter(|number| limits.contains(number))
            .ok_or_else(|| {
                let (unit, limits) = (kind.unit(), range(limits));
                self.problem(format!("{figure} is {exact} {unit}, limit {limits}"))
            })
    }

    fn figure(self, name: &str, text: &str) -> Result<Fraction, Problem> {
        figure(self.source, self.line, name, text).map(|figure| figure.value)
    }

    fn too_long(self, figure: &str) -> Problem {
        too_long(self.source, self.line, figure)
    }
}
