//! The bytes of a study file, in every version.
//!
//! Reading puts questions 1 to 5 and reports the figures that fail them.
//! What the numbers inside the sections mean is not judged here.

mod reading;

use std::fmt;
use std::ops::RangeInclusive;

pub use reading::Refusal;

/// A version, and what it fixes of the format.
#[derive(Clone, Copy, Debug, PartialEq, Eq)]
pub struct Version {
    number: u16,
    /// Numbers of a link; the sixth is its power.
    link_numbers: usize,
    /// Sections of the file; the fourth is that of the closed bytes, the fifth
    /// and sixth are those of the lorry trips and the barred bytes.
    sections: usize,
}

/// All versions, by number.
#[rustfmt::skip]
const VERSIONS: [Version; 4] = [
    Version { number: 1, link_numbers: 5, sections: 3 },
    Version { number: 2, link_numbers: 5, sections: 4 },
    Version { number: 3, link_numbers: 6, sections: 4 },
    Version { number: 4, link_numbers: 6, sections: 6 },
];

impl Version {
    /// The numbers of the versions.
    pub const NUMBERS: RangeInclusive<u16> =
        VERSIONS[0].number..=VERSIONS[VERSIONS.len() - 1].number;

    /// The version with this number, if there is one.
    pub fn numbered(number: u16) -> Option<Self> {
        VERSIONS
            .into_iter()
            .find(|version| version.number == number)
    }

    /// The first version of which this is so; it must be so of one.
    pub fn first(fits: impl Fn(&Version) -> bool) -> Self {
        let version = VERSIONS.into_iter().find(fits);
        version.expect("there is such a version")
    }

    /// Can nodes be closed? If not, all are open.
    pub fn has_closed(&self) -> bool {
        self.sections >= 4
    }

    /// Are there lorry trips and barred links? If not, there are none.
    pub fn has_lorries(&self) -> bool {
        self.sections >= 6
    }

    /// Have links powers? If not, all are [`DEFAULT_POWER`].
    pub fn has_powers(&self) -> bool {
        self.link_numbers >= 6
    }

    /// Numbers of a link.
    pub fn link_numbers(&self) -> usize {
        self.link_numbers
    }

    fn link_bytes(&self) -> usize {
        2 * self.link_numbers
    }

    /// Bytes of the header: four numbers, then offset and length of each
    /// section.
    fn header_bytes(&self) -> usize {
        8 + 8 * self.sections
    }
}

impl fmt::Display for Version {
    fn fmt(&self, out: &mut fmt::Formatter<'_>) -> fmt::Result {
        write!(out, "{}", self.number)
    }
}

/// Bytes a study file may have.
pub const FILE_BYTES: RangeInclusive<u32> = 32..=65_536;
/// Nodes a study may have.
pub const NODES: RangeInclusive<u16> = 2..=128;
/// Links a study may have.
pub const LINKS: RangeInclusive<u16> = 1..=512;
/// Destinations a study may have.
pub const DESTINATIONS: RangeInclusive<u16> = 1..=32;

/// Free times a link may have, in hundredths of a minute.
pub const FREE_TIMES: RangeInclusive<u16> = 1..=16_383;
/// Rises a link may have, in hundredths of a minute.
pub const RISES: RangeInclusive<u16> = 0..=16_383;
/// Capacities a link may have, in trips.
pub const CAPACITIES: RangeInclusive<u16> = 1..=u16::MAX;
/// Powers a link may have.
pub const POWERS: RangeInclusive<u16> = 1..=4;
/// The power of every link in a version without powers.
pub const DEFAULT_POWER: u16 = 4;
/// Trips of one node to one destination.
pub const TRIPS: RangeInclusive<u16> = 0..=u16::MAX;
/// The largest total of trips, both classes together.
pub const MOST_TRIPS: u32 = 65_535;
/// Closed bytes a node may have: 0 where it is open, 1 where it is closed.
pub const CLOSED_BYTES: RangeInclusive<u16> = 0..=1;
/// Barred bytes a link may have: 1 where lorries are barred, 0 elsewhere.
pub const BARRED_BYTES: RangeInclusive<u16> = 0..=1;

/// The classes of trips.
#[derive(Clone, Copy, Debug, PartialEq, Eq)]
pub enum Class {
    /// Cars, which may use every link.
    Cars,
    /// Lorries, which keep off barred links.
    Lorries,
}

impl Class {
    /// Both classes, in the order of the file.
    pub const ALL: [Class; 2] = [Class::Cars, Class::Lorries];

    /// What a trip of this class is called.
    pub fn trip(self) -> &'static str {
        match self {
            Class::Cars => "trip",
            Class::Lorries => "lorry trip",
        }
    }
}

/// One link of a study.
#[derive(Clone, Copy, Debug, PartialEq, Eq)]
pub struct Link {
    /// The node it leaves.
    pub tail: u16,
    /// The node it enters.
    pub head: u16,
    /// Free time, in hundredths of a minute.
    pub free: u16,
    /// Added time at capacity, in hundredths of a minute.
    pub rise: u16,
    /// Capacity, in trips.
    pub capacity: u16,
    /// The power with which its time rises.
    pub power: u16,
}

impl Link {
    /// Its bytes in a version.
    fn bytes(&self, version: Version) -> impl Iterator<Item = u8> {
        let Link {
            tail,
            head,
            free,
            rise,
            capacity,
            power,
        } = *self;
        [tail, head, free, rise, capacity, power]
            .into_iter()
            .take(version.link_numbers)
            .flat_map(u16::to_le_bytes)
    }
}

/// One destination of a study.
#[derive(Clone, Debug, PartialEq, Eq)]
pub struct Destination {
    /// Its node.
    pub node: u16,
    /// Car trips to it, by node from 0, for every node of the study.
    pub trips: Vec<u16>,
    /// Lorry trips to it in car units, likewise.
    pub lorry_trips: Vec<u16>,
}

impl Destination {
    /// The trips of a class to it, by node from 0.
    pub fn trips_of(&self, class: Class) -> &[u16] {
        match class {
            Class::Cars => &self.trips,
            Class::Lorries => &self.lorry_trips,
        }
    }

    /// All trips of a class to this destination.
    pub fn total_of(&self, class: Class) -> u32 {
        self.trips_of(class).iter().copied().map(u32::from).sum()
    }

    /// All trips to this destination, both classes together.
    pub fn total(&self) -> u32 {
        Class::ALL.map(|class| self.total_of(class)).iter().sum()
    }
}

/// A study. Its counts pass question 3; its figures may be any. In a version
/// without closed bytes, lorry trips or barred bytes they are all 0, and in one
/// without powers these are all [`DEFAULT_POWER`].
#[derive(Clone, Debug, PartialEq, Eq)]
pub struct Study {
    /// The version of its file.
    pub version: Version,
    /// Number of nodes.
    pub nodes: u16,
    /// The links, by number from 0.
    pub links: Vec<Link>,
    /// The destinations, in the order of the file.
    pub destinations: Vec<Destination>,
    /// The closed bytes, by node from 0, for every node of the study.
    pub closed: Vec<u8>,
    /// The barred bytes, by link from 0, for every link of the study.
    pub barred: Vec<u8>,
}

impl Study {
    /// Is this node closed?
    pub fn is_closed(&self, node: u16) -> bool {
        self.closed.get(usize::from(node)) == Some(&1)
    }

    /// How many nodes are closed.
    pub fn closed_nodes(&self) -> u64 {
        ones(&self.closed)
    }

    /// How many links are barred to lorries.
    pub fn barred_links(&self) -> u64 {
        ones(&self.barred)
    }

    /// The file without gaps, sections in order after the header.
    pub fn packed(&self) -> Vec<u8> {
        let number = |count: usize| u16::try_from(count).expect("counts pass question 3");
        let counts = [
            self.version.number,
            self.nodes,
            number(self.links.len()),
            number(self.destinations.len()),
        ];
        let sections = self.sections();

        let mut file: Vec<u8> = counts.into_iter().flat_map(u16::to_le_bytes).collect();
        let mut offset = self.version.header_bytes();
        for section in &sections {
            file.extend((offset as u32).to_le_bytes());
            file.extend((section.len() as u32).to_le_bytes());
            offset += section.len();
        }
        file.extend(sections.concat());
        file
    }

    /// The sections of its version, in the order of the file.
    fn sections(&self) -> Vec<Vec<u8>> {
        let links = self.links.iter();
        let destinations = self.destinations.iter();
        let trips = |class| {
            let trips = destinations
                .clone()
                .flat_map(move |destination| destination.trips_of(class));
            trips.flat_map(|trips| trips.to_le_bytes()).collect()
        };
        let mut sections = vec![
            links.flat_map(|link| link.bytes(self.version)).collect(),
            destinations
                .clone()
                .flat_map(|destination| destination.node.to_le_bytes())
                .collect(),
            trips(Class::Cars),
            self.closed.clone(),
            trips(Class::Lorries),
            self.barred.clone(),
        ];
        sections.truncate(self.version.sections);
        sections
    }

    /// All trips of a class.
    pub fn total_of(&self, class: Class) -> u32 {
        let destinations = self.destinations.iter();
        destinations
            .map(|destination| destination.total_of(class))
            .sum()
    }

    /// All trips, both classes together.
    pub fn total(&self) -> u32 {
        self.destinations.iter().map(Destination::total).sum()
    }
}

/// How many of these bytes are 1.
fn ones(bytes: &[u8]) -> u64 {
    bytes.iter().filter(|&&byte| byte == 1).count() as u64
}
