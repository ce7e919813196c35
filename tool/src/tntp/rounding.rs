//! Rounding with a record of it: no figure is rounded in silence.

use crate::exact::Fraction;
use crate::words::{count, grouped};

/// Places listed for figures that became 0.
const LISTED: usize = 10;

/// The kinds of figures that are rounded.
#[derive(Clone, Copy, Debug, PartialEq, Eq)]
pub enum Kind {
    /// Free times of links.
    FreeTime,
    /// Rises of links.
    Rise,
    /// Capacities of links.
    Capacity,
    /// Car trips from a node to a destination.
    Trips,
    /// Lorry trips from a node to a destination.
    LorryTrips,
}

impl Kind {
    const ALL: [Kind; 5] = [
        Kind::FreeTime,
        Kind::Rise,
        Kind::Capacity,
        Kind::Trips,
        Kind::LorryTrips,
    ];

    fn name(self) -> &'static str {
        match self {
            Kind::FreeTime => "free times",
            Kind::Rise => "rises",
            Kind::Capacity => "capacities",
            Kind::Trips => "trips",
            Kind::LorryTrips => "lorry trips",
        }
    }

    /// The unit its figures are rounded in.
    pub fn unit(self) -> &'static str {
        match self {
            Kind::FreeTime | Kind::Rise => "hundredths of a minute",
            Kind::Capacity | Kind::Trips | Kind::LorryTrips => "trips",
        }
    }
}

/// What has been rounded of one kind.
#[derive(Clone, Debug, Default)]
struct Tally {
    figures: u64,
    rounded: u64,
    /// The largest rounding and its figure.
    largest: Option<(Fraction, String)>,
    /// Figures that are not 0 and became 0.
    vanished: Vec<String>,
}

/// What has been rounded.
#[derive(Clone, Debug, Default)]
pub struct Ledger {
    tallies: [Tally; Kind::ALL.len()],
}

impl Ledger {
    /// The nearest whole number, halves up. `figure` names the figure with
    /// its file and line.
    pub fn round(&mut self, kind: Kind, exact: Fraction, figure: impl Fn() -> String) -> u128 {
        let tally = &mut self.tallies[kind as usize];
        tally.figures += 1;
        let nearest = exact.nearest();
        let rounding = exact.rounding();
        if !rounding.is_zero() {
            tally.rounded += 1;
            let largest = tally.largest.as_ref().map(|(largest, _)| *largest);
            if largest.is_none_or(|largest| rounding > largest) {
                let figure = format!("{} became {}", figure(), grouped(nearest));
                tally.largest = Some((rounding, figure));
            }
            if nearest == 0 {
                tally.vanished.push(figure());
            }
        }
        nearest
    }

    /// The record, in lines.
    pub fn report(&self) -> Vec<String> {
        if self.tallies.iter().all(|tally| tally.rounded == 0) {
            return vec!["no figure was rounded".to_owned()];
        }
        let mut lines = vec!["rounded to the nearest whole number, halves up:".to_owned()];
        lines.extend(Kind::ALL.into_iter().filter_map(|kind| self.largest(kind)));
        lines.extend(Kind::ALL.into_iter().flat_map(|kind| self.vanished(kind)));
        lines
    }

    /// How many figures of a kind were rounded, and the largest rounding.
    /// Studies without lorries say nothing of lorry trips.
    fn largest(&self, kind: Kind) -> Option<String> {
        let tally = &self.tallies[kind as usize];
        if tally.figures == 0 && kind == Kind::LorryTrips {
            return None;
        }
        let (rounded, figures) = (grouped(tally.rounded), grouped(tally.figures));
        let name = kind.name();
        Some(match &tally.largest {
            None => format!("  {name}: {rounded} of {figures}"),
            Some((most, figure)) => format!(
                "  {name}: {rounded} of {figures}, by {most} {} at most ({figure})",
                kind.unit()
            ),
        })
    }

    /// The figures of a kind that are not 0 and became 0, in lines.
    fn vanished(&self, kind: Kind) -> Vec<String> {
        let vanished = &self.tallies[kind as usize].vanished;
        if vanished.is_empty() {
            return Vec::new();
        }
        let (name, figures) = (kind.name(), count(vanished.len() as u64, "figure"));
        let mut lines = vec![format!("not 0 but rounded to 0, {name}: {figures}")];
        let listed = vanished.iter().take(LISTED);
        lines.extend(listed.map(|figure| format!("  {figure}")));
        if vanished.len() > LISTED {
            lines.push(format!("  and {} more", vanished.len() - LISTED));
        }
        lines
    }
}
