//! A study from the research community's TNTP text format: a net file and a
//! trips file, and for lorries a trips file of their own.
//!
//! All begin with metadata, a line each (`<NUMBER OF NODES> 24`), up to
//! `<END OF METADATA>`; `~` begins a comment. Net rows follow, or origins with
//! their pairs of destination and flow. Nodes count from 1 there, and so do
//! the messages of this module; node i becomes node i − 1.

mod barred;
mod demand;
mod metadata;
mod net;
mod rounding;
mod trips;

use crate::culprit::stranded;
use crate::exact::{DIGITS, Figure, FigureError, Fraction};
use crate::format::Study;
use crate::source::{Problem, Source};
use crate::words::{answer, count};
use net::Network;
use rounding::Ledger;

/// How figures are converted, and what is known of lorries.
#[derive(Clone, Debug)]
pub struct Options {
    /// Vehicles that make one trip; above 0.
    pub vehicles_per_trip: Fraction,
    /// The unit of the net file's free flow times.
    pub time_unit: TimeUnit,
    /// The lorries, if the study has them.
    pub lorries: Option<Lorries>,
}

/// What is known of lorries.
#[derive(Clone, Debug)]
pub struct Lorries {
    /// Their trips file.
    pub trips: Source,
    /// Car units of one lorry; above 0.
    pub car_units: Fraction,
    /// The list of links that are barred to them, if there is one.
    pub barred: Option<Source>,
}

impl Default for Options {
    fn default() -> Self {
        Options {
            vehicles_per_trip: Fraction::ONE,
            time_unit: TimeUnit::Minutes,
            lorries: None,
        }
    }
}

/// A unit of time.
#[derive(Clone, Copy, Debug, PartialEq, Eq)]
pub enum TimeUnit {
    /// Hundredths of a minute, the study's own.
    Hundredths,
    /// Seconds.
    Seconds,
    /// Minutes, the usual one.
    Minutes,
    /// Hours.
    Hours,
}

impl TimeUnit {
    /// Every unit.
    pub const ALL: [TimeUnit; 4] = [
        TimeUnit::Minutes,
        TimeUnit::Seconds,
        TimeUnit::Hours,
        TimeUnit::Hundredths,
    ];

    /// Its name.
    pub fn name(self) -> &'static str {
        match self {
            TimeUnit::Hundredths => "hundredths",
            TimeUnit::Seconds => "seconds",
            TimeUnit::Minutes => "minutes",
            TimeUnit::Hours => "hours",
        }
    }

    /// A time in this unit in hundredths of a minute.
    fn hundredths(self, time: Fraction) -> Option<Fraction> {
        let (many, few) = match self {
            TimeUnit::Hundredths => (1, 1),
            TimeUnit::Seconds => (5, 3),
            TimeUnit::Minutes => (100, 1),
            TimeUnit::Hours => (6_000, 1),
        };
        time.times(Fraction::new(many, few)?)
    }
}

/// A study made from a net file and trips files.
#[derive(Clone, Debug)]
pub struct Conversion {
    /// The study; check accepts it.
    pub study: Study,
    /// What the modeller should know: what is closed, what makes it a study of
    /// its version, what was left out, what is barred, what was rounded.
    pub report: Vec<String>,
}

/// Makes a study.
pub fn convert(net: &Source, trips: &Source, options: &Options) -> Result<Conversion, Problem> {
    let mut ledger = Ledger::default();
    let network = net::read(net, options, &mut ledger)?;
    let demand = demand::read(trips, &network, options, &mut ledger)?;
    let study = Study {
        version: network.version,
        nodes: network.nodes,
        links: network.links.clone(),
        destinations: demand.destinations(),
        closed: closed_bytes(&network),
        barred: barred_bytes(&network, options)?,
    };
    if let Some(stranded) = stranded(&study) {
        return Err(demand.no_path(stranded));
    }
    // All limits have been put by now, with lines; this is the last word.
    match second::check(&study.packed()) {
        0 => {}
        number => return Err(net.problem_overall(format!("the study is {}", answer(number)))),
    }

    let mut report = network.notes.clone();
    if let Some(lorries) = &options.lorries {
        report.extend(lorry_notes(lorries, &study));
    }
    report.extend(ledger.report());
    report.extend(demand.drifts());
    Ok(Conversion { study, report })
}

/// The closed bytes: 1 for the nodes before the first open one.
fn closed_bytes(network: &Network) -> Vec<u8> {
    (1..=network.nodes)
        .map(|node| u8::from(node < network.first_open))
        .collect()
}

/// The barred bytes: 1 for the links of the list, if there is one.
fn barred_bytes(network: &Network, options: &Options) -> Result<Vec<u8>, Problem> {
    let lorries = options.lorries.as_ref();
    match lorries.and_then(|lorries| lorries.barred.as_ref()) {
        Some(list) => barred::read(list, network),
        None => Ok(vec![0; network.links.len()]),
    }
}

/// Tells what makes the version, and how many links are barred.
fn lorry_notes(lorries: &Lorries, study: &Study) -> Vec<String> {
    let version = format!("lorries, which make a version {} study", study.version);
    let mut notes = vec![lorries.trips.problem_overall(version).to_string()];
    if let Some(list) = &lorries.barred {
        let barred = match study.barred_links() {
            1 => "1 link is barred to lorries".to_owned(),
            links => format!("{} are barred to lorries", count(links, "link")),
        };
        notes.push(list.problem_overall(barred).to_string());
    }
    notes
}

/// A figure of 0 or more.
fn figure(source: &Source, line: usize, name: &str, text: &str) -> Result<Figure, Problem> {
    Figure::parse(text).map_err(|error| {
        let what = match error {
            FigureError::NotDecimal => format!("{name} `{text}` is not a figure"),
            FigureError::Negative => format!("{name} {text}, limit 0 or more"),
            FigureError::TooLong => return too_long(source, line, &format!("{name} {text}")),
        };
        source.problem(line, what)
    })
}

/// The problem that a figure cannot be kept exactly.
fn too_long(source: &Source, line: usize, figure: &str) -> Problem {
    let what = format!("{figure} cannot be kept exactly, limit about {DIGITS} digits");
    source.problem(line, what)
}
