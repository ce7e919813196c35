//! Drafts with a version: 1 with neither closed bytes nor powers, 2 with closed
//! bytes only, 3 with powers, 4 with lorry trips or barred bytes.

use super::{Dice, Draft, DraftLink, Plan, bytes, drop_trips_without, layout_of};
use crate::format::{
    CLOSED_VERSION, LORRY_VERSION, Layout, POWER_LINK_BYTES, POWER_VERSION, VERSION,
};
use crate::network::Class;
use crate::staircase::LARGEST_POWER;

/// A study in the making with its version; it need not be an acceptable one.
#[derive(Clone, Debug, PartialEq, Eq)]
pub struct Versioned {
    /// What the study has in every version.
    pub draft: Draft,
    /// By node, 1 for closed and 0 for open; none in version 1. Versions 3 and
    /// 4 without them have every node open.
    pub closed: Option<Vec<u8>>,
    /// Powers by link; none in versions 1 and 2. A link after the last of them
    /// has power 4.
    pub powers: Option<Vec<u16>>,
    /// For each destination, lorry trips by node; none before version 4.
    /// Version 4 without them has lorry trips of 0.
    pub lorries: Option<Vec<Vec<u16>>>,
    /// By link, 1 for barred to lorries and 0 for not; none before version 4.
    /// Version 4 without them has no barred link.
    pub barred: Option<Vec<u8>>,
}

/// A study of version 1.
impl From<Draft> for Versioned {
    fn from(draft: Draft) -> Self {
        Versioned {
            draft,
            closed: None,
            powers: None,
            lorries: None,
            barred: None,
        }
    }
}

impl Draft {
    /// This study in version 2, with these closed bytes.
    pub fn with_closed(self, closed: Vec<u8>) -> Versioned {
        Versioned::from(self).with_closed(closed)
    }

    /// This study in version 2, with these nodes closed and all others open.
    pub fn closing(self, nodes: &[u16]) -> Versioned {
        Versioned::from(self).closing(nodes)
    }

    /// This study in version 2, with some nodes closed, about so many in ten,
    /// and without the trips that have no path then.
    pub fn closing_some(self, dice: &mut Dice, tenths: u64) -> Versioned {
        Versioned::from(self).closing_some(dice, tenths)
    }

    /// This study in version 3, with these powers by link and all nodes open.
    pub fn with_powers(self, powers: Vec<u16>) -> Versioned {
        Versioned::from(self).with_powers(powers)
    }

    /// This study in version 3, with powers at random and all nodes open.
    pub fn with_some_powers(self, dice: &mut Dice) -> Versioned {
        Versioned::from(self).with_some_powers(dice)
    }
}

impl Versioned {
    /// This study with these closed bytes.
    pub fn with_closed(self, closed: Vec<u8>) -> Versioned {
        Versioned {
            closed: Some(closed),
            ..self
        }
    }

    /// This study with these nodes closed and all others open.
    pub fn closing(self, nodes: &[u16]) -> Versioned {
        let closed = (0..self.draft.nodes).map(|node| u8::from(nodes.contains(&node)));
        let closed = closed.collect();
        self.with_closed(closed)
    }

    /// This study with some nodes closed, about so many in ten, and without the
    /// trips that have no path then.
    pub fn closing_some(self, dice: &mut Dice, tenths: u64) -> Versioned {
        let closed = (0..self.draft.nodes).map(|_| u8::from(dice.below(10) < tenths));
        let closed = closed.collect();
        let mut study = self.with_closed(closed);
        study.drop_pathless_trips();
        study
    }

    /// This study in version 3, with these powers by link.
    pub fn with_powers(self, powers: Vec<u16>) -> Versioned {
        Versioned {
            powers: Some(powers),
            ..self
        }
    }

    /// This study in version 3, with powers at random, once in four times the
    /// same on all links.
    pub fn with_some_powers(self, dice: &mut Dice) -> Versioned {
        let power = |dice: &mut Dice| dice.between(1, u64::from(LARGEST_POWER)) as u16;
        let links = self.draft.links.len();
        let powers = if dice.once_in(4) {
            vec![power(dice); links]
        } else {
            (0..links).map(|_| power(dice)).collect()
        };
        self.with_powers(powers)
    }

    /// The version's number.
    pub fn version(&self) -> u16 {
        match (&self.closed, &self.powers) {
            _ if self.lorries.is_some() || self.barred.is_some() => LORRY_VERSION,
            (_, Some(_)) => POWER_VERSION,
            (Some(_), None) => CLOSED_VERSION,
            (None, None) => VERSION,
        }
    }

    pub(super) fn layout(&self) -> &'static Layout {
        layout_of(self.version())
    }

    /// Bytes of the file without gaps.
    pub fn packed_length(&self) -> usize {
        self.layout().header + self.sections().iter().map(Vec::len).sum::<usize>()
    }

    /// The file without gaps.
    pub fn file(&self) -> Vec<u8> {
        self.file_with_gaps(&[])
    }

    /// The file with these bytes before each section and after the last. Gaps
    /// that are not given are empty.
    pub fn file_with_gaps(&self, gaps: &[&[u8]]) -> Vec<u8> {
        let mut all_gaps = gaps.to_vec();
        all_gaps.resize(self.layout().sections + 1, &[]);
        self.draft
            .write(self.version(), &self.sections(), &all_gaps)
    }

    /// The file with one gap, of so many bytes, before this section or, in the
    /// last place, behind all.
    pub fn file_with_gap(&self, place: usize, length: usize) -> Vec<u8> {
        let bytes = vec![0xFF; length];
        let mut gaps: Vec<&[u8]> = vec![&[]; place];
        gaps.push(&bytes);
        self.file_with_gaps(&gaps)
    }

    /// The sections of this version.
    fn sections(&self) -> Vec<Vec<u8>> {
        let [mut links, destinations, trips] = self.draft.sections();
        if self.layout().link_bytes == POWER_LINK_BYTES {
            links = self.links_with_powers();
        }
        let open = || vec![0; usize::from(self.draft.nodes)];
        let unbarred = || vec![0; self.draft.links.len()];
        let mut sections = vec![
            links,
            destinations,
            trips,
            self.closed.clone().unwrap_or_else(open),
            bytes(self.trips_of(Class::Lorries).iter().flatten()),
            self.barred.clone().unwrap_or_else(unbarred),
        ];
        sections.truncate(self.layout().sections);
        sections
    }

    /// The section of links with a power each.
    fn links_with_powers(&self) -> Vec<u8> {
        let links = self.draft.links.iter().enumerate();
        let links = links.map(|(number, link)| [bytes(link), bytes(&[self.power(number)])]);
        links.flatten().flatten().collect()
    }

    /// A link's power.
    pub fn power(&self, link: usize) -> u16 {
        let powers = self.powers.as_deref().unwrap_or(&[]);
        powers.get(link).copied().unwrap_or(LARGEST_POWER)
    }

    /// Whether a node is closed.
    pub fn is_closed(&self, node: u16) -> bool {
        let closed = self.closed.as_deref().unwrap_or(&[]);
        closed.get(usize::from(node)) == Some(&1)
    }

    /// Whether a link may carry cars to a destination.
    pub fn may_carry(&self, link: usize, destination: u16) -> bool {
        self.may_carry_class(Class::Cars, link, destination)
    }

    /// Whether a link may carry a class's flow to a destination.
    pub fn may_carry_class(&self, class: Class, link: usize, destination: u16) -> bool {
        let head = self.draft.links[link][1];
        let barred = class == Class::Lorries && self.is_barred(link);
        !barred && (head == destination || !self.is_closed(head))
    }

    /// For each node, the fewest links of a path of cars to a destination; none
    /// where there is no path.
    pub fn hops(&self, destination: u16) -> Vec<Option<usize>> {
        self.hops_of(Class::Cars, destination)
    }

    /// The same for a class.
    pub fn hops_of(&self, class: Class, destination: u16) -> Vec<Option<usize>> {
        self.draft.hops_by(destination, |link| {
            self.may_carry_class(class, link, destination)
        })
    }

    /// Takes away the trips that have no path and those of a destination to
    /// itself.
    pub fn drop_pathless_trips(&mut self) {
        for position in 0..self.draft.destinations.len() {
            let destination = self.draft.destinations[position];
            let hops = self.hops_of(Class::Cars, destination);
            drop_trips_without(&mut self.draft.trips[position], &hops);
            let hops = self.hops_of(Class::Lorries, destination);
            if let Some(lorries) = &mut self.lorries {
                drop_trips_without(&mut lorries[position], &hops);
            }
        }
    }

    /// A conserving table of this share, by links that may carry its flows.
    /// The draft's own table of that name takes every node for open, and has
    /// cars only.
    pub fn wandering_table(&self, dice: &mut Dice, share: u32) -> Vec<u32> {
        self.wandering_table_by(dice, share, |class, link, destination| {
            self.may_carry_class(class, link, destination)
        })
    }

    /// A conserving table of this share, by any links, whether they may carry
    /// its flows or not.
    pub fn table_by_any_links(&self, dice: &mut Dice, share: u32) -> Vec<u32> {
        self.wandering_table_by(dice, share, |_, _, _| true)
    }

    /// A conserving table by links that are permitted for their class and
    /// destination.
    fn wandering_table_by(
        &self,
        dice: &mut Dice,
        share: u32,
        permitted: impl Fn(Class, usize, u16) -> bool,
    ) -> Vec<u32> {
        let mut table = Vec::new();
        for class in self.classes() {
            let draft = self.draft_of(class);
            table.extend(draft.wandering_table_by(dice, share, |link, destination| {
                permitted(class, link, destination)
            }));
        }
        table
    }

    /// Lets `amount` go round a cycle of links that may carry it, for some
    /// class and destination. False when no cycle was found.
    pub fn add_cycle(&self, dice: &mut Dice, table: &mut [u32], amount: u32) -> bool {
        let links = &self.draft.links;
        let destinations = &self.draft.destinations;
        for _ in 0..8 {
            let row = dice.index(self.layout().classes * destinations.len());
            let class = Class::ALL[row / destinations.len()];
            let destination = destinations[row % destinations.len()];
            let permitted = |link| self.may_carry_class(class, link, destination);
            let first = dice.index(links.len());
            let [tail, head, ..] = links[first];
            let hops = self.draft.hops_by(tail, permitted);
            let way = self.draft.wander(dice, head, &hops, permitted);
            if let Some(way) = way.filter(|_| permitted(first)) {
                for link in way.into_iter().chain([first]) {
                    let flow = &mut table[row * links.len() + link];
                    *flow = flow.saturating_add(amount);
                }
                return true;
            }
        }
        false
    }
}

impl Plan {
    /// An acceptable study of version 2 on streets given, with zones beside
    /// them: closed nodes, each with links to two street nodes and from two.
    /// The trips are between zones.
    pub fn with_zones(
        &self,
        dice: &mut Dice,
        streets: u16,
        zones: u16,
        mut links: Vec<DraftLink>,
    ) -> Versioned {
        for zone in streets..streets + zones {
            for turn in 0..4 {
                let street = dice.below(u64::from(streets)) as u16;
                let (tail, head) = match turn % 2 {
                    0 => (zone, street),
                    _ => (street, zone),
                };
                let time = dice.between(1, self.time) as u16;
                let capacity = dice.between(1, self.capacity) as u16;
                links.push([tail, head, time, time / 2, capacity]);
            }
        }
        let mut destinations: Vec<u16> = (streets..streets + zones).collect();
        destinations.truncate(self.destinations as usize);
        let row = |dice: &mut Dice| {
            let trips = (0..streets + zones).map(|node| {
                let some = node >= streets && dice.below(10) < self.tenths;
                u16::from(some) * dice.between(0, self.trips) as u16
            });
            trips.collect()
        };
        let draft = Draft {
            nodes: streets + zones,
            links,
            trips: destinations.iter().map(|_| row(dice)).collect(),
            destinations,
        };
        let all: Vec<u16> = (streets..streets + zones).collect();
        let mut study = draft.closing(&all);
        study.drop_pathless_trips();
        study.draft.limit_total(65_535);
        study
    }
}
