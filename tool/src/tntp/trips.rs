//! A trips file: flows from each origin to its destinations.

use super::demand::Demand;
use super::metadata;
use super::rounding::{Kind, Ledger};
use super::{figure, too_long};
use crate::exact::{Figure, Fraction};
use crate::format::{Class, MOST_TRIPS, TRIPS};
use crate::source::{Problem, Source};
use crate::words::{grouped, range};

/// A trips file, and how its flows are converted.
#[derive(Clone, Copy)]
pub struct TripsFile<'a> {
    /// The file.
    pub source: &'a Source,
    /// The class of its trips.
    pub class: Class,
    /// Car units of one of its vehicles.
    pub car_units: Fraction,
    /// Car units that make one trip.
    pub vehicles_per_trip: Fraction,
}

impl TripsFile<'_> {
    /// A flow in trips, if that has not too many digits.
    fn trips(&self, flow: Fraction) -> Option<Fraction> {
        flow.times(self.car_units)?
            .divided_by(self.vehicles_per_trip)
    }

    fn kind(&self) -> Kind {
        match self.class {
            Class::Cars => Kind::Trips,
            Class::Lorries => Kind::LorryTrips,
        }
    }
}

/// Trips from one node to another, and the line they stand on.
#[derive(Clone, Copy)]
struct Cell {
    trips: u16,
    line: usize,
}

/// What a trips file says.
pub struct Table<'a> {
    /// The file.
    pub source: &'a Source,
    /// The class of its trips.
    pub class: Class,
    nodes: u16,
    /// By destination and origin, counted from 0.
    cells: Vec<Option<Cell>>,
    /// All its trips.
    pub trips: u64,
    /// What rounding made of the total, if it changed it.
    pub drift: Option<String>,
}

impl<'a> Table<'a> {
    /// No trips yet.
    fn empty(file: TripsFile<'a>, nodes: u16) -> Self {
        Table {
            source: file.source,
            class: file.class,
            nodes,
            cells: vec![None; usize::from(nodes) * usize::from(nodes)],
            trips: 0,
            drift: None,
        }
    }

    fn place(&self, origin: u16, destination: u16) -> usize {
        usize::from(destination) * usize::from(self.nodes) + usize::from(origin)
    }

    /// The line on which trips stand; nodes count from 0.
    pub fn line(&self, origin: u16, destination: u16) -> usize {
        self.cells[self.place(origin, destination)].map_or(1, |cell| cell.line)
    }

    /// The trips to a node, by origin; nodes count from 0.
    pub fn trips_to(&self, destination: u16) -> Vec<u16> {
        let cells = &self.cells[self.place(0, destination)..self.place(0, destination + 1)];
        let trips = cells.iter().map(|cell| cell.map_or(0, |cell| cell.trips));
        trips.collect()
    }
}

/// Reads a trips file; `demand` are those before it.
pub fn read<'a>(
    file: TripsFile<'a>,
    demand: &mut Demand,
    ledger: &mut Ledger,
) -> Result<Table<'a>, Problem> {
    let source = file.source;
    let (metadata, rows) = metadata::split(source)?;
    let zones = demand.zones(source, &metadata)?;
    let stated = metadata.figure("TOTAL OD FLOW")?;

    let mut tally = Tally {
        file,
        table: Table::empty(file, demand.nodes()),
        demand,
        flow: Fraction::ZERO,
        passed: None,
    };
    let mut origin = None;
    for (line, row) in rows {
        let (word, rest) = row.split_once(char::is_whitespace).unwrap_or((row, ""));
        if word.eq_ignore_ascii_case("origin") {
            origin = Some(source.whole(line, "origin", rest.trim(), &zones)?);
            continue;
        }
        let Some(origin) = origin else {
            let what = format!("found `{row}` before the first `Origin`");
            return Err(source.problem(line, what));
        };
        for pair in row.split_inclusive(';') {
            let (destination, flow) = split_pair(pair).ok_or_else(|| {
                let what = format!("found `{}`, must be `destination : flow;`", pair.trim());
                source.problem(line, what)
            })?;
            let destination = source.whole(line, "destination", destination, &zones)?;
            tally.add(line, (origin, destination), flow, ledger)?;
        }
    }
    tally.finish(stated)
}

/// Destination and flow of a pair with its closing `;`.
fn split_pair(pair: &str) -> Option<(&str, &str)> {
    let (destination, flow) = pair.strip_suffix(';')?.split_once(':')?;
    Some((destination.trim(), flow.trim()))
}

/// The table in the making.
struct Tally<'a, 'd, 'n> {
    file: TripsFile<'a>,
    /// The trips of the files before.
    demand: &'d mut Demand<'n>,
    table: Table<'a>,
    /// All flows, in vehicles.
    flow: Fraction,
    /// The line on which the trips pass their limit.
    passed: Option<usize>,
}

impl<'a> Tally<'a, '_, '_> {
    /// Adds a pair of origin and destination, which count from 1.
    fn add(
        &mut self,
        line: usize,
        (origin, destination): (u16, u16),
        text: &str,
        ledger: &mut Ledger,
    ) -> Result<(), Problem> {
        let source = self.file.source;
        let name = format!("origin {origin} to {destination}: flow");
        let flow = figure(source, line, &name, text)?.value;
        if origin == destination && !flow.is_zero() {
            let what = format!("origin {origin} has a flow of {text} to itself, must be 0");
            return Err(source.problem(line, what));
        }

        let place = self.table.place(origin - 1, destination - 1);
        if let Some(before) = self.table.cells[place] {
            let what = format!(
                "origin {origin} to {destination} for the second time, first on line {}",
                before.line
            );
            return Err(source.problem(line, what));
        }

        let trips = self.trips(line, flow, &format!("{name} {text}"), ledger)?;
        self.table.cells[place] = Some(Cell { trips, line });
        self.flow = self
            .flow
            .plus(flow)
            .ok_or_else(|| too_long(source, line, "the sum of flows"))?;
        self.table.trips += u64::from(trips);
        if self.in_all() > u64::from(MOST_TRIPS) {
            self.passed.get_or_insert(line);
        }
        if trips > 0 {
            let received = self.demand.receives(destination);
            received.map_err(|what| source.problem(line, what))?;
        }
        Ok(())
    }

    /// A flow in whole trips; `figure` names it.
    fn trips(
        &self,
        line: usize,
        flow: Fraction,
        figure: &str,
        ledger: &mut Ledger,
    ) -> Result<u16, Problem> {
        let source = self.file.source;
        let exact = self.file.trips(flow);
        let exact = exact.ok_or_else(|| too_long(source, line, figure))?;
        let rounded = ledger.round(self.file.kind(), exact, || source.remark(line, figure));
        u16::try_from(rounded).map_err(|_| {
            let limits = range(&TRIPS);
            source.problem(line, format!("{figure} is {exact} trips, limit {limits}"))
        })
    }

    /// All trips, those of the files before included.
    fn in_all(&self) -> u64 {
        self.demand.trips + self.table.trips
    }

    /// Holds the whole against its limits; `stated` is the metadata's total.
    fn finish(mut self, stated: Option<(usize, Figure)>) -> Result<Table<'a>, Problem> {
        let source = self.file.source;
        if let Some((line, stated)) = stated
            && !agree(self.flow, stated)
        {
            let what = format!(
                "<TOTAL OD FLOW> {}, but the flows add up to {}",
                stated.value, self.flow
            );
            return Err(source.problem(line, what));
        }
        if let Some(line) = self.passed {
            return Err(source.problem(line, self.too_many()));
        }
        let (trips, class) = (self.table.trips, self.table.class);
        let exact = self.file.trips(self.flow);
        if let Some(exact) = exact.filter(|&exact| exact != Fraction::whole(trips)) {
            let (name, trips) = (class.trip(), grouped(trips));
            self.table.drift = Some(format!("{name}s in all: {exact}, with rounding {trips}"));
        }
        Ok(self.table)
    }

    /// Tells that the trips pass their limit.
    fn too_many(&self) -> String {
        let with = match self.demand.trips {
            0 => String::new(),
            cars => format!(", {} of them in the trips file", grouped(cars)),
        };
        format!(
            "{} trips in all{with}, passing the limit {} here (more vehicles a trip make fewer)",
            grouped(self.in_all()),
            grouped(MOST_TRIPS)
        )
    }
}

/// Does a total agree with the one stated, to the places that one is written with?
fn agree(total: Fraction, stated: Figure) -> bool {
    let half_a_place = 10u128
        .checked_pow(stated.places)
        .and_then(|power| Fraction::new(1, power.checked_mul(2)?));
    let apart = total.apart(stated.value);
    match (apart, half_a_place) {
        (Some(apart), Some(half_a_place)) => apart <= half_a_place,
        _ => total == stated.value,
    }
}
