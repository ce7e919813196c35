//! Reading the bytes of a study file: questions 1 to 5.

use super::{
    DEFAULT_POWER, DESTINATIONS, Destination, FILE_BYTES, LINKS, Link, NODES, Study, Version,
};
use crate::words::{count, grouped, range};

/// A file that one of questions 1 to 5 refuses.
#[derive(Clone, Debug, PartialEq, Eq)]
pub struct Refusal {
    /// The number of the first question answered "no".
    pub number: u8,
    /// The figures that fail it, with their limits, in words.
    pub found: String,
}

impl Study {
    /// Puts questions 1 to 5 and reads the sections.
    pub fn read(file: &[u8]) -> Result<Self, Refusal> {
        let length = file.len() as u64;
        let fits = u32::try_from(length).is_ok_and(|length| FILE_BYTES.contains(&length));
        ask(1, fits, || {
            vec![format!(
                "{}, limit {}",
                count(length, "byte"),
                range(&FILE_BYTES)
            )]
        })?;

        let counts = Counts::read(file);
        let version = counts.ask_version()?;
        counts.ask()?;
        let header = version.header_bytes();
        ask(4, file.len() >= header, || {
            let found = count(length, "byte");
            vec![format!(
                "{found}, but the header of version {version} has {header}"
            )]
        })?;
        let places = places(file, version);
        ask_places(&places, header, length)?;
        counts.ask_lengths(version, &places)?;

        // Within the file, by question 4.
        let sections: Vec<&[u8]> = places
            .iter()
            .map(|&(offset, length)| &file[offset as usize..(offset + length) as usize])
            .collect();
        Ok(counts.study(version, &sections))
    }
}

impl Link {
    /// The link in the bytes of its version.
    fn read(bytes: &[u8]) -> Self {
        let mut numbers = numbers(bytes);
        let mut number = || numbers.next().expect("every version has five");
        Link {
            tail: number(),
            head: number(),
            free: number(),
            rise: number(),
            capacity: number(),
            power: numbers.next().unwrap_or(DEFAULT_POWER),
        }
    }
}

/// The sections' names, in the order of the file; a version has the first ones.
const SECTIONS: [&str; 6] = [
    "links",
    "destinations",
    "trips",
    "closed bytes",
    "lorry trips",
    "barred bytes",
];

/// Offset and length of a section: numbers of 32 bits, kept in 64 so that
/// their sums fit.
type Place = (u64, u64);

/// The sections' places as they stand in the header, whatever they say.
fn places(file: &[u8], version: Version) -> Vec<Place> {
    let long = |place: usize| {
        u64::from(number_at(file, place)) | u64::from(number_at(file, place + 2)) << 16
    };
    (0..version.sections)
        .map(|section| 8 + 8 * section)
        .map(|place| (long(place), long(place + 4)))
        .collect()
}

/// Question 4, of a file that has its header.
fn ask_places(places: &[Place], header: usize, file: u64) -> Result<(), Refusal> {
    let mut found = Vec::new();
    let first = places[0].0;
    if first < header as u64 {
        found.push(format!(
            "links begin at byte {first}, must be {header} or later"
        ));
    }
    for (place, &(offset, length)) in places.iter().enumerate() {
        let (limit, what) = match places.get(place + 1) {
            Some(next) => (next.0, format!("where {} begin", SECTIONS[place + 1])),
            None => (file, "the end of the file".to_owned()),
        };
        let end = offset + length;
        if end > limit {
            found.push(format!(
                "{} begin at byte {} and have {}, so they end at {}, limit {}, {what}",
                SECTIONS[place],
                grouped(offset),
                count(length, "byte"),
                grouped(end),
                grouped(limit),
            ));
        }
    }
    ask(4, found.is_empty(), || found)
}

/// The numbers at the beginning of the header, whatever they say.
struct Counts {
    version: u16,
    nodes: u16,
    links: u16,
    destinations: u16,
}

impl Counts {
    /// Reads the header of a file that passes question 1.
    fn read(file: &[u8]) -> Self {
        Counts {
            version: number_at(file, 0),
            nodes: number_at(file, 2),
            links: number_at(file, 4),
            destinations: number_at(file, 6),
        }
    }

    /// Question 2.
    fn ask_version(&self) -> Result<Version, Refusal> {
        let number = self.version;
        Version::numbered(number).ok_or_else(|| Refusal {
            number: 2,
            found: format!("version {number}, limit {}", range(&Version::NUMBERS)),
        })
    }

    /// Question 3.
    fn ask(&self) -> Result<(), Refusal> {
        let mut found = Vec::new();
        for (name, count, limits) in [
            ("nodes", self.nodes, NODES),
            ("links", self.links, LINKS),
            ("destinations", self.destinations, DESTINATIONS),
        ] {
            if !limits.contains(&count) {
                let limits = range(&limits);
                found.push(format!("{name} {}, limit {limits}", grouped(count)));
            }
        }
        if self.destinations > self.nodes {
            found.push(format!(
                "destinations {}, more than nodes {}",
                grouped(self.destinations),
                grouped(self.nodes)
            ));
        }
        ask(3, found.is_empty(), || found)
    }

    /// The length of each section by the counts, and how it comes about.
    fn lengths(&self, version: Version) -> [(u64, String); SECTIONS.len()] {
        let nodes = (self.nodes, "node");
        let links = (self.links, "link");
        let destinations = (self.destinations, "destination");
        let trips = || product(2, &[destinations, nodes]);
        [
            product(version.link_bytes(), &[links]),
            product(2, &[destinations]),
            trips(),
            product(1, &[nodes]),
            trips(),
            product(1, &[links]),
        ]
    }

    /// Question 5.
    fn ask_lengths(&self, version: Version, places: &[Place]) -> Result<(), Refusal> {
        let mut found = Vec::new();
        let lengths = self.lengths(version);
        for ((name, &(_, length)), (due, product)) in SECTIONS.into_iter().zip(places).zip(lengths)
        {
            if length != due {
                found.push(format!(
                    "{name} have {}, must have {} = {product}",
                    count(length, "byte"),
                    grouped(due)
                ));
            }
        }
        ask(5, found.is_empty(), || found)
    }

    /// The study in these sections, whose lengths pass question 5. What the
    /// version has no section for is 0.
    fn study(&self, version: Version, sections: &[&[u8]]) -> Study {
        let nodes = usize::from(self.nodes);
        let section = |number: usize, length: usize| {
            let bytes = sections.get(number);
            bytes.map_or_else(|| vec![0; length], |bytes| bytes.to_vec())
        };
        let links = sections[0].chunks_exact(version.link_bytes());
        let lorry_trips = section(4, sections[2].len());
        let trips = sections[2].chunks_exact(2 * nodes);
        let trips = trips.zip(lorry_trips.chunks_exact(2 * nodes));
        Study {
            version,
            nodes: self.nodes,
            links: links.map(Link::read).collect(),
            destinations: numbers(sections[1])
                .zip(trips)
                .map(|(node, (trips, lorry_trips))| Destination {
                    node,
                    trips: numbers(trips).collect(),
                    lorry_trips: numbers(lorry_trips).collect(),
                })
                .collect(),
            closed: section(3, nodes),
            barred: section(5, usize::from(self.links)),
        }
    }
}

/// A number of bytes for each of what these count: their product, and how it
/// comes about.
fn product(bytes: usize, counts: &[(u16, &str)]) -> (u64, String) {
    let mut length = bytes as u64;
    let mut words = bytes.to_string();
    for &(number, noun) in counts {
        length *= u64::from(number);
        words += &format!(" × {}", count(number, noun));
    }
    (length, words)
}

/// Puts a question; on "no" the refusal lists what was found.
fn ask(number: u8, yes: bool, found: impl FnOnce() -> Vec<String>) -> Result<(), Refusal> {
    if yes {
        return Ok(());
    }
    let found = found().join("; ");
    Err(Refusal { number, found })
}

/// The number in the two bytes at `place`.
fn number_at(bytes: &[u8], place: usize) -> u16 {
    u16::from_le_bytes([bytes[place], bytes[place + 1]])
}

/// The numbers of a section, one after the other.
fn numbers(section: &[u8]) -> impl Iterator<Item = u16> {
    section.chunks_exact(2).map(|bytes| number_at(bytes, 0))
}
