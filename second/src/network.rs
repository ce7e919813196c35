//! The decoded study: links, destinations, closed nodes, barred links and trips,
//! questions 6 to 11 with 19 and 23 among them.

use crate::format::{
    LINK_BYTES, MOST_CLASSES, MOST_DESTINATIONS, MOST_LINKS, MOST_NODES, POWER_LINK_BYTES,
    Sections, numbers,
};
use crate::questions::{LARGEST_TOTAL, Question};
use crate::reach::paths_exist;
use crate::staircase::{LARGEST_POWER, Road};

pub use crate::adjacency::{Adjacencies, Adjacency, Lists};

/// One value for every node a study can have.
pub type ByNode<T> = [T; MOST_NODES];
/// One value for every link a study can have.
pub type ByLink<T> = [T; MOST_LINKS];

/// Index of a node in a [`ByNode`]; the mask spares the bounds check.
#[inline(always)]
pub fn at_node(node: u8) -> usize {
    usize::from(node) & (MOST_NODES - 1)
}

/// Index of a link in a [`ByLink`]; the mask spares the bounds check.
#[inline(always)]
pub fn at_link(link: u16) -> usize {
    usize::from(link) & (MOST_LINKS - 1)
}

/// Who makes a trip.
#[derive(Clone, Copy, Debug, PartialEq, Eq)]
pub enum Class {
    /// Cars, which may use every link.
    Cars,
    /// Lorries, which keep off barred links. Only version 4 has them.
    Lorries,
}

impl Class {
    /// Both classes, in the order of their rows.
    pub const ALL: [Class; MOST_CLASSES] = [Class::Cars, Class::Lorries];
}

/// An accepted study, decoded once per call.
///
/// Trips, flow tables and notes go by rows: one for each destination with the
/// trips of cars, and in version 4 as many with those of lorries after them.
pub struct Study {
    /// Number of nodes, n.
    pub nodes: usize,
    /// Number of links, m.
    pub links: usize,
    /// Tail of each link.
    pub tails: ByLink<u8>,
    /// Head of each link.
    pub heads: ByLink<u8>,
    /// Free time, rise, capacity and power of each link, m of them.
    pub roads: Vec<Road>,
    /// The destinations, ascending; the first [`Study::destination_count`] count.
    pub destinations: [u8; MOST_DESTINATIONS],
    /// Number of destinations, p.
    pub destination_count: usize,
    /// Number of classes, 2 where there are lorries.
    pub class_count: usize,
    /// The closed nodes, a bit for each node. Version 1 has every node open.
    pub closed: u128,
    /// For each link whether it is barred to lorries; none where there are no
    /// lorries.
    pub barred: Vec<bool>,
    /// Trips, n for each row in turn.
    pub trips: Vec<u16>,
    /// All trips together, T.
    pub total: u32,
}

impl Study {
    /// Puts questions 1 to 11, with 19 and 23 after 8, and decodes the file.
    pub fn read(file: &[u8]) -> Result<Self, Question> {
        Study::decode(&Sections::find(file)?)
    }

    /// Puts questions 6 to 11, with 19 and 23 after 8, to the sections found
    /// and decodes them.
    pub fn decode(sections: &Sections<'_>) -> Result<Self, Question> {
        let mut study = Study {
            nodes: sections.nodes,
            links: sections.links,
            tails: [0; MOST_LINKS],
            heads: [0; MOST_LINKS],
            roads: vec![Road::default(); sections.links],
            destinations: [0; MOST_DESTINATIONS],
            destination_count: sections.destinations,
            class_count: sections.layout.classes,
            closed: 0,
            barred: Vec::new(),
            trips: Vec::new(),
            total: 0,
        };
        study.decode_links(sections)?;
        study.decode_destinations(sections.destination_part)?;
        study.decode_closed(sections.closed_part)?;
        study.decode_barred(sections.barred_part)?;
        study.decode_trips([sections.trip_part, sections.lorry_part])?;
        Question::Paths.ask(paths_exist(&study))?;
        Ok(study)
    }

    /// Decodes the links, with questions 6 and 7.
    #[inline]
    fn decode_links(&mut self, sections: &Sections<'_>) -> Result<(), Question> {
        let part = sections.link_part;
        match sections.layout.link_bytes {
            POWER_LINK_BYTES => self.decode_links_of(part.as_chunks::<POWER_LINK_BYTES>().0),
            _ => self.decode_links_of(part.as_chunks::<LINK_BYTES>().0),
        }
    }

    /// The same for links of so many bytes. Where they have no power of their
    /// own, it is 4.
    #[inline]
    fn decode_links_of<const BYTES: usize>(
        &mut self,
        links: &[[u8; BYTES]],
    ) -> Result<(), Question> {
        // Both questions are about all links, and 6 comes before 7 even when
        // a later link fails it.
        let (mut ends_fit, mut roads_fit) = (true, true);
        let ends = self.tails.iter_mut().zip(&mut self.heads);
        for ((bytes, (own_tail, own_head)), own_road) in links.iter().zip(ends).zip(&mut self.roads)
        {
            let mut numbers = numbers(bytes);
            let mut number = || numbers.next().expect("a link has five numbers");
            let (tail, head) = (number(), number());
            let road = Road {
                free: number(),
                rise: number(),
                capacity: number(),
                power: numbers.next().unwrap_or(LARGEST_POWER),
            };
            ends_fit &= usize::from(tail.max(head)) < self.nodes && tail != head;
            roads_fit &= road.fits();
            // Cut to a byte, a number that is no node goes no further than
            // the refusal below.
            (*own_tail, *own_head) = (tail as u8, head as u8);
            *own_road = road;
        }
        Question::Ends.ask(ends_fit)?;
        Question::Roads.ask(roads_fit)
    }

    /// Decodes the destinations, with question 8.
    #[inline]
    fn decode_destinations(&mut self, part: &[u8]) -> Result<(), Question> {
        let mut ascending = true;
        let mut least = 0; // the least number the next destination may have
        for (place, node) in numbers(part).enumerate() {
            let node = usize::from(node);
            ascending &= (least..self.nodes).contains(&node);
            least = node + 1;
            self.destinations[place] = node as u8;
        }
        Question::Destinations.ask(ascending)
    }

    /// Decodes the closed bytes, with question 19. Version 1 has none of them.
    #[inline]
    fn decode_closed(&mut self, part: &[u8]) -> Result<(), Question> {
        let mut all = 0;
        for (half, bytes) in part.chunks(64).enumerate() {
            let mut bits = 0_u64;
            for (place, &byte) in bytes.iter().enumerate() {
                all |= byte;
                bits |= u64::from(byte & 1) << place;
            }
            self.closed |= u128::from(bits) << (64 * half);
        }
        Question::ClosedBytes.ask(all <= 1)
    }

    /// Decodes the barred bytes, with question 23. Only version 4 has any.
    #[inline]
    fn decode_barred(&mut self, part: &[u8]) -> Result<(), Question> {
        let all = part.iter().fold(0, |all, &byte| all | byte);
        Question::BarredBytes.ask(all <= 1)?;
        self.barred = part.iter().map(|&byte| byte == 1).collect();
        Ok(())
    }

    /// Decodes the trips of each class, with questions 9 and 10.
    #[inline]
    fn decode_trips(&mut self, parts: [&[u8]; MOST_CLASSES]) -> Result<(), Question> {
        self.trips = Vec::with_capacity(self.row_count() * self.nodes);
        for part in parts {
            self.trips.extend(numbers(part));
        }
        let own_trips = self
            .rows()
            .any(|(destination, trips)| trips[usize::from(destination)] != 0);
        Question::OwnTrips.ask(!own_trips)?;

        // At most 2 · 32 · 128 · 65,535, well within 32 bits.
        self.total = self.trips.iter().map(|&trips| u32::from(trips)).sum();
        Question::Total.ask(self.total <= LARGEST_TOTAL)
    }

    /// The closed nodes, ascending.
    pub fn closed_nodes(&self) -> impl Iterator<Item = u8> {
        let mut left = self.closed;
        std::iter::from_fn(move || {
            let node = left.trailing_zeros() as u8;
            (left != 0).then(|| {
                left &= left - 1;
                node
            })
        })
    }

    /// The classes there are.
    pub fn classes(&self) -> impl Iterator<Item = Class> {
        Class::ALL.into_iter().take(self.class_count)
    }

    /// Number of rows: p, or 2p where there are lorries.
    #[inline]
    pub fn row_count(&self) -> usize {
        self.class_count * self.destination_count
    }

    /// The rows of a class.
    #[inline]
    pub fn rows_of(&self, class: Class) -> std::ops::Range<usize> {
        let first = class as usize * self.destination_count;
        first..first + self.destination_count
    }

    /// Tail and head of each link.
    #[inline]
    pub fn ends(&self) -> impl Iterator<Item = (u8, u8)> {
        let heads = self.heads.iter().copied();
        self.tails.iter().copied().zip(heads).take(self.links)
    }

    /// Each row's destination with its trips by node.
    #[inline]
    pub fn rows(&self) -> impl Iterator<Item = (u8, &[u16])> {
        self.destinations[..self.destination_count]
            .iter()
            .copied()
            .cycle()
            .zip(self.trips.chunks_exact(self.nodes))
    }

    /// Trips by node of one row.
    #[inline]
    pub fn trips_of(&self, row: usize) -> &[u16] {
        &self.trips[row * self.nodes..][..self.nodes]
    }

    /// Whether there are barred links.
    pub fn has_barred_links(&self) -> bool {
        self.barred.contains(&true)
    }

    /// Numbers a flow table must hold, p·m, or 2·p·m where there are lorries.
    pub fn table_length(&self) -> usize {
        self.row_count() * self.links
    }

    /// Numbers a note must hold, 1 + p·n, or 1 + 2·p·n where there are lorries.
    pub fn note_length(&self) -> usize {
        1 + self.row_count() * self.nodes
    }
}
