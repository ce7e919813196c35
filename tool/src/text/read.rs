//! A study read from text.

use std::iter::Peekable;
use std::ops::RangeInclusive;

use super::{Reading, from_words};
use crate::format::{
    Class, DEFAULT_POWER, DESTINATIONS, Destination, LINKS, Link, NODES, Study, Version,
};
use crate::source::{Problem, Source};
use crate::words::count;

/// Reads a study.
pub fn read(source: &Source) -> Result<Reading, Problem> {
    let mut reader = Reader {
        source,
        lines: source.lines('#').peekable(),
    };

    let header = reader.header()?;
    let closed = reader.marked(header, &CLOSED, header.nodes)?;
    let barred = reader.marked(header, &BARRED, header.links)?;
    let links = (0..header.links)
        .map(|number| reader.link(header, number))
        .collect::<Result<_, _>>()?;
    if let Some((line, _)) = reader.next("link") {
        let what = format!("a link beyond the header's `links {}`", header.links);
        return Err(source.problem(line, what));
    }
    let destinations = (0..header.destinations)
        .map(|number| reader.destination(header, number))
        .collect::<Result<_, _>>()?;
    let stated = reader.notes(header)?;

    let study = Study {
        version: header.version,
        nodes: header.nodes,
        links,
        destinations,
        closed,
        barred,
    };
    Ok(Reading { study, stated })
}

/// What the lines of the header say.
#[derive(Clone, Copy)]
struct Header {
    version: Version,
    nodes: u16,
    links: u16,
    destinations: u16,
}

/// The fields of a link line: its number, then the numbers of its version.
const LINK_FIELDS: [&str; 7] = [
    "number",
    "tail",
    "head",
    "free time",
    "rise",
    "capacity",
    "power",
];

/// A list of nodes or links with a byte each.
struct Marks {
    /// The word its lines begin with.
    word: &'static str,
    /// What it lists.
    noun: &'static str,
    /// Has a version a place for it?
    belongs: fn(&Version) -> bool,
}

const CLOSED: Marks = Marks {
    word: "closed",
    noun: "node",
    belongs: Version::has_closed,
};

const BARRED: Marks = Marks {
    word: "barred",
    noun: "link",
    belongs: Version::has_lorries,
};

/// Takes the lines of a text one after the other.
struct Reader<'a, Lines: Iterator<Item = (usize, &'a str)>> {
    source: &'a Source,
    lines: Peekable<Lines>,
}

impl<'a, Lines: Iterator<Item = (usize, &'a str)>> Reader<'a, Lines> {
    /// The next line, if its first words are `words`: its number and the rest.
    fn next(&mut self, words: &str) -> Option<(usize, &'a str)> {
        let &(number, line) = self.lines.peek()?;
        let mut rest = line;
        for word in words.split(' ') {
            let (first, after) = rest.split_once(char::is_whitespace).unwrap_or((rest, ""));
            if first != word {
                return None;
            }
            rest = after.trim_start();
        }
        self.lines.next();
        Some((number, rest))
    }

    /// What stands on a line must belong to the text's version.
    fn belongs(
        &self,
        line: usize,
        what: &str,
        header: Header,
        fits: fn(&Version) -> bool,
    ) -> Result<(), Problem> {
        let version = header.version;
        if fits(&version) {
            return Ok(());
        }
        let first = Version::first(fits);
        let what = format!("{what} in a study of version {version}, must be {first} or later");
        Err(self.source.problem(line, what))
    }

    /// The problem that the next line is not what is due.
    fn not_due(&mut self, due: &str) -> Problem {
        match self.lines.peek() {
            Some(&(number, line)) => self
                .source
                .problem(number, format!("found `{line}` where {due} is due")),
            None => self.source.problem(
                self.source.last_line(),
                format!("the text ends where {due} is due"),
            ),
        }
    }

    /// The lines of the header.
    fn header(&mut self) -> Result<Header, Problem> {
        let version = self.header_number("study", &Version::NUMBERS)?;
        let nodes = self.header_number("nodes", &NODES)?;
        let links = self.header_number("links", &LINKS)?;
        let most = nodes.min(*DESTINATIONS.end());
        let limits = *DESTINATIONS.start()..=most;
        Ok(Header {
            version: Version::numbered(version).expect("one of the numbers"),
            nodes,
            links,
            destinations: self.header_number("destinations", &limits)?,
        })
    }

    /// A line of the header: a word and a number.
    fn header_number(&mut self, word: &str, limits: &RangeInclusive<u16>) -> Result<u16, Problem> {
        let Some((line, text)) = self.next(word) else {
            return Err(self.not_due(&format!("the line `{word}` of the header")));
        };
        self.source.whole(line, word, text, limits)
    }

    /// A number of 16 bits.
    fn any_number(&self, line: usize, name: &str, text: &str) -> Result<u16, Problem> {
        self.source.whole(line, name, text, &(0..=u16::MAX))
    }

    /// The lines of a list of nodes or links, which some versions may have:
    /// the bytes of all `of` them.
    fn marked(&mut self, header: Header, marks: &Marks, of: u16) -> Result<Vec<u8>, Problem> {
        let Marks { word, noun, .. } = *marks;
        let mut bytes: Vec<Option<u8>> = vec![None; usize::from(of)];
        while let Some((line, text)) = self.next(word) {
            self.belongs(line, &format!("{word} {noun}s"), header, marks.belongs)?;
            if text.is_empty() {
                let noun = noun.to_uppercase();
                let what = format!("`{word}`, must be `{word} {noun} {noun} ...`");
                return Err(self.source.problem(line, what));
            }
            for item in text.split_whitespace() {
                let (number, byte) = self.mark(marks, line, item, of)?;
                let place = &mut bytes[usize::from(number)];
                if place.is_some() {
                    let what = format!("{word} {noun} {number} for the second time");
                    return Err(self.source.problem(line, what));
                }
                *place = Some(byte);
            }
        }
        Ok(bytes.into_iter().map(Option::unwrap_or_default).collect())
    }

    /// A node or link of a list, and its byte if that is not 1.
    fn mark(&self, marks: &Marks, line: usize, item: &str, of: u16) -> Result<(u16, u8), Problem> {
        let Marks { word, noun, .. } = *marks;
        let (number, byte) = item.split_once(':').unwrap_or((item, "1"));
        let name = format!("{word} {noun}");
        let number = self.source.whole(line, &name, number, &(0..=of - 1))?;
        let name = format!("{word} byte");
        let byte = self.source.whole(line, &name, byte, &(0..=255))?;
        Ok((number, byte as u8))
    }

    /// The line of a link.
    fn link(&mut self, header: Header, number: u16) -> Result<Link, Problem> {
        let Some((line, text)) = self.next("link") else {
            let of = header.links;
            return Err(self.not_due(&format!("link {number} of {of} (they count from 0)")));
        };
        let names = &LINK_FIELDS[..=header.version.link_numbers()];
        let texts: Vec<&str> = text.split_whitespace().collect();
        if texts.len() != names.len() {
            let what = format!(
                "{} after `link`, must be {}: {}",
                count(texts.len() as u64, "field"),
                names.len(),
                names.join(", ")
            );
            return Err(self.source.problem(line, what));
        }
        let mut fields = [0, 0, 0, 0, 0, 0, DEFAULT_POWER];
        for ((field, name), text) in fields.iter_mut().zip(names).zip(texts) {
            *field = self.any_number(line, &format!("link {name}"), text)?;
        }
        let [found, tail, head, free, rise, capacity, power] = fields;
        if found != number {
            let what = format!("link number {found}, must be {number}: links stand in order");
            return Err(self.source.problem(line, what));
        }
        Ok(Link {
            tail,
            head,
            free,
            rise,
            capacity,
            power,
        })
    }

    /// The lines of a destination.
    fn destination(&mut self, header: Header, number: u16) -> Result<Destination, Problem> {
        let Some((line, text)) = self.next("destination") else {
            let (number, of) = (number + 1, header.destinations);
            return Err(self.not_due(&format!("the line `destination` number {number} of {of}")));
        };
        let node = self.any_number(line, "destination", text)?;
        let mut trips = Class::ALL.map(|_| vec![None; usize::from(header.nodes)]);
        while let Some((class, line, text)) = self.next_trips() {
            if class == Class::Lorries {
                self.belongs(line, "lorry trips", header, Version::has_lorries)?;
            }
            let (from, number) = self.trips(header, class, line, text)?;
            let place = &mut trips[class as usize][usize::from(from)];
            if place.is_some() {
                let words = from_words(class);
                let what = format!("a second line `{words} {from}` for destination {node}");
                return Err(self.source.problem(line, what));
            }
            *place = Some(number);
        }
        let [trips, lorry_trips] =
            trips.map(|trips| trips.into_iter().map(Option::unwrap_or_default).collect());
        Ok(Destination {
            node,
            trips,
            lorry_trips,
        })
    }

    /// The next line, if it gives trips of a class: the class, the line's
    /// number and the rest.
    fn next_trips(&mut self) -> Option<(Class, usize, &'a str)> {
        Class::ALL.into_iter().find_map(|class| {
            let (line, text) = self.next(from_words(class))?;
            Some((class, line, text))
        })
    }

    /// The node that trips begin at, and how many they are.
    fn trips(
        &self,
        header: Header,
        class: Class,
        line: usize,
        text: &str,
    ) -> Result<(u16, u16), Problem> {
        let words = from_words(class);
        let Some((from, number)) = text.split_once(':') else {
            let what = format!("`{words} {text}`, must be `{words} NODE: TRIPS`");
            return Err(self.source.problem(line, what));
        };
        let name = format!("{words} node");
        let nodes = 0..=header.nodes - 1;
        let from = self.source.whole(line, &name, from.trim(), &nodes)?;
        let name = format!("{}s", class.trip());
        let number = self.any_number(line, &name, number.trim())?;
        Ok((from, number))
    }

    /// The lines after the last destination.
    fn notes(&mut self, header: Header) -> Result<Vec<(usize, String)>, Problem> {
        if let Some((line, _)) = self.next("destination") {
            let destinations = header.destinations;
            let what = format!("a destination beyond the header's `destinations {destinations}`");
            return Err(self.source.problem(line, what));
        }
        let from = match header.version.has_lorries() {
            true => "`from`, `lorries from`",
            false => "`from`",
        };
        let mut stated = Vec::new();
        while let Some(&(line, text)) = self.lines.peek() {
            if !text.starts_with("total:") && !text.starts_with("check:") {
                return Err(self.not_due(&format!("{from}, `total:`, `check:` or the end")));
            }
            stated.push((line, text.to_owned()));
            self.lines.next();
        }
        Ok(stated)
    }
}
