//! The trips of both classes, each from a file of its own.

use std::ops::RangeInclusive;

use super::Options;
use super::metadata::Metadata;
use super::net::Network;
use super::rounding::Ledger;
use super::trips::{self, Table, TripsFile};
use crate::culprit::{Obstacle, Stranded};
use crate::exact::Fraction;
use crate::format::{Class, DESTINATIONS, Destination};
use crate::source::{Problem, Source};

/// The trips of the files read so far.
pub struct Demand<'a> {
    network: &'a Network,
    /// Number of zones, and the file that tells it.
    zones: Option<(u16, &'static str)>,
    tables: Vec<Table<'a>>,
    /// All trips.
    pub trips: u64,
    /// The nodes that receive trips.
    receiving: Vec<bool>,
}

/// Reads the trips file, and that of the lorries if there is one.
pub fn read<'a>(
    source: &'a Source,
    network: &'a Network,
    options: &'a Options,
    ledger: &mut Ledger,
) -> Result<Demand<'a>, Problem> {
    let mut demand = Demand {
        network,
        zones: network.zones.map(|zones| (zones, "the net file")),
        tables: Vec::new(),
        trips: 0,
        receiving: vec![false; usize::from(network.nodes)],
    };
    let cars = TripsFile {
        source,
        class: Class::Cars,
        car_units: Fraction::ONE,
        vehicles_per_trip: options.vehicles_per_trip,
    };
    let lorries = options.lorries.as_ref().map(|lorries| TripsFile {
        source: &lorries.trips,
        class: Class::Lorries,
        car_units: lorries.car_units,
        ..cars
    });
    let mut last = source;
    for file in [Some(cars), lorries].into_iter().flatten() {
        let table = trips::read(file, &mut demand, ledger)?;
        demand.trips += table.trips;
        demand.tables.push(table);
        last = file.source;
    }
    if demand.trips == 0 {
        let what = "0 trips in all, limit 1 or more: a study has a destination";
        return Err(last.problem(last.last_line(), what));
    }
    Ok(demand)
}

impl Demand<'_> {
    /// Number of nodes.
    pub fn nodes(&self) -> u16 {
        self.network.nodes
    }

    /// The zones of a trips file, which must be those of the files before it.
    pub fn zones(
        &mut self,
        source: &Source,
        metadata: &Metadata,
    ) -> Result<RangeInclusive<u16>, Problem> {
        let nodes = self.nodes();
        let stated = metadata.number("NUMBER OF ZONES", &(1..=nodes))?;
        if let (Some((line, ours)), Some((theirs, file))) = (stated, self.zones)
            && ours != theirs
        {
            let what = format!("<NUMBER OF ZONES> {ours}, but {file} has {theirs}");
            return Err(source.problem(line, what));
        }
        let stated = stated.map(|(_, zones)| (zones, "the trips file"));
        self.zones = self.zones.or(stated);
        Ok(1..=self.zones.map_or(nodes, |(zones, _)| zones))
    }

    /// A node, counted from 1, receives trips. If it is one too many, tells so.
    pub fn receives(&mut self, destination: u16) -> Result<(), String> {
        self.receiving[usize::from(destination - 1)] = true;
        let receiving = self.receiving.iter().filter(|&&yes| yes).count();
        let most = usize::from(*DESTINATIONS.end());
        if receiving <= most {
            return Ok(());
        }
        Err(format!(
            "destination {destination} is number {receiving} to receive trips, \
             limit {most} destinations"
        ))
    }

    /// The nodes that receive trips, with these trips.
    pub fn destinations(&self) -> Vec<Destination> {
        let trips = |class, node| {
            let none = || vec![0; usize::from(self.nodes())];
            self.table(class)
                .map_or_else(none, |table| table.trips_to(node))
        };
        (0..self.nodes())
            .map(|node| Destination {
                node,
                trips: trips(Class::Cars, node),
                lorry_trips: trips(Class::Lorries, node),
            })
            .filter(|destination| destination.total() > 0)
            .collect()
    }

    fn table(&self, class: Class) -> Option<&Table<'_>> {
        self.tables.iter().find(|table| table.class == class)
    }

    /// The problem that trips have no path.
    pub fn no_path(&self, stranded: Stranded) -> Problem {
        let Stranded {
            class, from, to, ..
        } = stranded;
        let first = self.network.first_open;
        let closed = format!("leads through a node below <FIRST THRU NODE> {first}");
        let but = match stranded.obstacle {
            Obstacle::NoLinks => "no path of links leads there".to_owned(),
            Obstacle::ClosedNodes => format!("every path there {closed}"),
            Obstacle::BarredLinks => "every path there leads over a barred link".to_owned(),
            Obstacle::ClosedOrBarred => format!("every path there {closed} or over a barred link"),
        };
        let what = format!(
            "origin {} has {}s to {}, but {but}",
            from + 1,
            class.trip(),
            to + 1
        );
        let table = self.table(class).expect("it has trips");
        table.source.problem(table.line(from, to), what)
    }

    /// What rounding made of the totals, where it changed them.
    pub fn drifts(&self) -> impl Iterator<Item = String> {
        self.tables.iter().filter_map(|table| table.drift.clone())
    }
}
