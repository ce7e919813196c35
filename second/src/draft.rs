//! Studies, tables and notes in the making, for tests and recordings.
//!
//! A [`Draft`] is a study of version 1; with closed nodes, powers or lorries it
//! becomes a [`Versioned`] one.

use crate::format::{LINK_BYTES, Layout, VERSION};

mod lorries;
mod noted;
mod versioned;

pub use versioned::Versioned;

/// A small generator of numbers that look random (splitmix64). The same seed
/// gives the same numbers everywhere.
#[derive(Clone, Debug)]
pub struct Dice(u64);

impl Dice {
    /// Dice with a seed.
    pub fn new(seed: u64) -> Self {
        Dice(seed)
    }

    /// Any number of 64 bits.
    pub fn roll(&mut self) -> u64 {
        self.0 = self.0.wrapping_add(0x9E37_79B9_7F4A_7C15);
        let mut z = self.0;
        z = (z ^ (z >> 30)).wrapping_mul(0xBF58_476D_1CE4_E5B9);
        z = (z ^ (z >> 27)).wrapping_mul(0x94D0_49BB_1331_11EB);
        z ^ (z >> 31)
    }

    /// A number below `end`, which is not 0.
    pub fn below(&mut self, end: u64) -> u64 {
        self.roll() % end
    }

    /// An index below `end`, which is not 0.
    pub fn index(&mut self, end: usize) -> usize {
        self.below(end as u64) as usize
    }

    /// A number from `low` to `high`, both included.
    pub fn between(&mut self, low: u64, high: u64) -> u64 {
        low + self.below(high - low + 1)
    }

    /// True once in `times`.
    pub fn once_in(&mut self, times: u64) -> bool {
        self.below(times) == 0
    }

    /// One of the values given.
    pub fn pick<T: Copy>(&mut self, values: &[T]) -> T {
        values[self.index(values.len())]
    }

    /// A number of 32 bits with a length of its own, so that small and large
    /// ones turn up alike.
    pub fn any_u32(&mut self) -> u32 {
        (self.roll() as u32) >> self.below(32)
    }
}

/// The layout of a version there is.
fn layout_of(version: u16) -> &'static Layout {
    Layout::of(version).expect("a version there is")
}

/// Numbers of two bytes each.
fn bytes<'a>(numbers: impl IntoIterator<Item = &'a u16>) -> Vec<u8> {
    numbers
        .into_iter()
        .flat_map(|number| number.to_le_bytes())
        .collect()
}

/// The sum of trips by destination and node.
fn sum(trips: &[Vec<u16>]) -> u64 {
    trips.iter().flatten().map(|&count| u64::from(count)).sum()
}

/// Takes away the trips to one destination from where there are no hops, or none
/// to go.
fn drop_trips_without(trips: &mut [u16], hops: &[Option<usize>]) {
    for (count, hops) in trips.iter_mut().zip(hops) {
        if matches!(hops, None | Some(0)) {
            *count = 0;
        }
    }
}

/// A link: tail, head, free time a, rise b, capacity c.
pub type DraftLink = [u16; 5];

/// A study in the making; it need not be an acceptable one.
#[derive(Clone, Debug, Default, PartialEq, Eq)]
pub struct Draft {
    /// Number of nodes, n.
    pub nodes: u16,
    /// The links.
    pub links: Vec<DraftLink>,
    /// The destinations.
    pub destinations: Vec<u16>,
    /// For each destination, trips by node.
    pub trips: Vec<Vec<u16>>,
}

impl Draft {
    /// The town of two roads.
    pub fn town() -> Self {
        Draft {
            nodes: 2,
            links: vec![[0, 1, 10, 10, 2], [0, 1, 15, 0, 1]],
            destinations: vec![1],
            trips: vec![vec![2, 0]],
        }
    }

    /// Numbers a table for this study must hold, p·m.
    pub fn table_length(&self) -> usize {
        self.destinations.len() * self.links.len()
    }

    /// The total of trips, T.
    pub fn total(&self) -> u64 {
        sum(&self.trips)
    }

    /// Bytes of the file without gaps.
    pub fn packed_length(&self) -> usize {
        layout_of(VERSION).header
            + LINK_BYTES * self.links.len()
            + 2 * self.destinations.len()
            + 2 * self.trips.iter().map(Vec::len).sum::<usize>()
    }

    /// The file without gaps.
    pub fn file(&self) -> Vec<u8> {
        self.file_with_gaps([&[], &[], &[], &[]])
    }

    /// The file with these bytes before each section and after the last.
    pub fn file_with_gaps(&self, gaps: [&[u8]; 4]) -> Vec<u8> {
        self.write(VERSION, &self.sections(), &gaps)
    }

    /// The sections of version 1.
    fn sections(&self) -> [Vec<u8>; 3] {
        [
            bytes(self.links.iter().flatten()),
            bytes(&self.destinations),
            bytes(self.trips.iter().flatten()),
        ]
    }

    /// A file of this version with these sections, and with these bytes before
    /// each section and after the last.
    fn write(&self, version: u16, sections: &[Vec<u8>], gaps: &[&[u8]]) -> Vec<u8> {
        let mut file = bytes(&[
            version,
            self.nodes,
            self.links.len() as u16,
            self.destinations.len() as u16,
        ]);
        let mut offset = layout_of(version).header;
        for (section, gap) in sections.iter().zip(gaps) {
            offset += gap.len();
            file.extend((offset as u32).to_le_bytes());
            file.extend((section.len() as u32).to_le_bytes());
            offset += section.len();
        }
        for (section, gap) in sections.iter().zip(gaps) {
            file.extend(*gap);
            file.extend(section);
        }
        file.extend(gaps[sections.len()]);
        file
    }

    /// For each node, the fewest links to `goal`; none where there is no path.
    pub fn hops(&self, goal: u16) -> Vec<Option<usize>> {
        self.hops_by(goal, |_| true)
    }

    /// The same by permitted links only.
    fn hops_by(&self, goal: u16, permitted: impl Fn(usize) -> bool) -> Vec<Option<usize>> {
        let mut hops = vec![None; usize::from(self.nodes)];
        hops[usize::from(goal)] = Some(0);
        let mut round = 0;
        while hops.contains(&Some(round)) {
            for (number, link) in self.links.iter().enumerate() {
                let (tail, head) = (usize::from(link[0]), usize::from(link[1]));
                if hops[head] == Some(round) && hops[tail].is_none() && permitted(number) {
                    hops[tail] = Some(round + 1);
                }
            }
            round += 1;
        }
        hops
    }

    /// Takes away the trips that have no path and those of a destination to
    /// itself.
    pub fn drop_pathless_trips(&mut self) {
        for position in 0..self.destinations.len() {
            let hops = self.hops(self.destinations[position]);
            drop_trips_without(&mut self.trips[position], &hops);
        }
    }

    /// Brings the total of trips down to `most` by taking whole numbers away.
    pub fn limit_total(&mut self, most: u64) {
        let mut over = self.total().saturating_sub(most);
        for count in self.trips.iter_mut().flatten() {
            let less = over.min(u64::from(*count)) as u16;
            *count -= less;
            over -= u64::from(less);
        }
    }

    /// Permitted links from a node to where `hops` by them lead, at random for
    /// a while and then by the fewest; none when there is no path.
    fn wander(
        &self,
        dice: &mut Dice,
        from: u16,
        hops: &[Option<usize>],
        permitted: impl Fn(usize) -> bool,
    ) -> Option<Vec<usize>> {
        let hops_at = |node: u16| hops[usize::from(node)];
        hops_at(from)?;
        let mut links = Vec::new();
        let mut node = from;
        let mut patience = dice.below(12);
        while hops_at(node) != Some(0) {
            let ways: Vec<usize> = (0..self.links.len())
                .filter(|&link| {
                    let [tail, head, ..] = self.links[link];
                    tail == node
                        && permitted(link)
                        && hops_at(head).is_some()
                        && (patience > 0 || hops_at(head) < hops_at(node))
                })
                .collect();
            patience = patience.saturating_sub(1);
            let link = dice.pick(&ways);
            links.push(link);
            node = self.links[link][1];
        }
        Some(links)
    }

    /// A conserving table of this share: every node's trips wander to their
    /// destination in a few lots. Question 15 it may still fail.
    pub fn wandering_table(&self, dice: &mut Dice, share: u32) -> Vec<u32> {
        self.wandering_table_by(dice, share, |_, _| true)
    }

    /// The same by links that are permitted for their destination.
    fn wandering_table_by(
        &self,
        dice: &mut Dice,
        share: u32,
        permitted: impl Fn(usize, u16) -> bool,
    ) -> Vec<u32> {
        let mut table = vec![0; self.table_length()];
        for (position, &destination) in self.destinations.iter().enumerate() {
            let permitted = |link| permitted(link, destination);
            let hops = self.hops_by(destination, permitted);
            for node in 0..self.nodes {
                let mut left = share * u32::from(self.trips[position][usize::from(node)]);
                while left > 0 {
                    let lot = match dice.below(3) {
                        0 => left,
                        1 => 1 + left / 2,
                        _ => 1 + dice.below(u64::from(left)) as u32,
                    };
                    left -= lot;
                    let Some(links) = self.wander(dice, node, &hops, permitted) else {
                        continue;
                    };
                    for link in links {
                        table[position * self.links.len() + link] += lot;
                    }
                }
            }
        }
        table
    }

    /// Lets `amount` go round a cycle, for some destination. False when no
    /// cycle was found.
    pub fn add_cycle(&self, dice: &mut Dice, table: &mut [u32], amount: u32) -> bool {
        for _ in 0..8 {
            let first = dice.index(self.links.len());
            let [tail, head, ..] = self.links[first];
            let hops = self.hops(tail);
            if let Some(mut links) = self.wander(dice, head, &hops, |_| true) {
                links.push(first);
                let row = dice.index(self.destinations.len()) * self.links.len();
                for link in links {
                    let flow = &mut table[row + link];
                    *flow = flow.saturating_add(amount);
                }
                return true;
            }
        }
        false
    }
}

/// How a random study is to turn out.
#[derive(Clone, Copy, Debug)]
pub struct Plan {
    /// Fewest and most nodes.
    pub nodes: (u64, u64),
    /// Fewest and most links.
    pub links: (u64, u64),
    /// Most destinations.
    pub destinations: u64,
    /// Largest free time and rise.
    pub time: u64,
    /// Largest capacity.
    pub capacity: u64,
    /// Most trips between two nodes.
    pub trips: u64,
    /// How many nodes in ten have trips to a destination.
    pub tenths: u64,
}

impl Plan {
    /// Plans of many kinds for small studies.
    pub fn small(dice: &mut Dice) -> Self {
        Plan {
            nodes: (2, dice.between(2, 9)),
            links: (1, dice.between(1, 18)),
            destinations: dice.between(1, 4),
            time: dice.pick(&[1, 3, 10, 60, 500, 16_383]),
            capacity: dice.pick(&[1, 2, 7, 40, 900, 65_535]),
            trips: dice.pick(&[1, 2, 6, 30, 800, 65_535]),
            tenths: dice.between(1, 10),
        }
    }

    /// A study with the most nodes, links and destinations of the plan, and no fewer.
    pub fn with_every_destination(&self, dice: &mut Dice) -> Draft {
        let mut draft = self.draft(dice);
        while (draft.destinations.len() as u64) < self.destinations {
            draft = self.with_links(dice, self.nodes.1 as u16, draft.links);
        }
        draft
    }

    /// An acceptable study of this kind.
    pub fn draft(&self, dice: &mut Dice) -> Draft {
        let nodes = dice.between(self.nodes.0, self.nodes.1);
        let link_count = dice.between(self.links.0, self.links.1);
        let mut links = Vec::new();
        for _ in 0..link_count {
            let link: DraftLink = if !links.is_empty() && dice.once_in(6) {
                // A link beside another or against it.
                let mut twin: DraftLink = dice.pick(&links);
                if dice.once_in(2) {
                    twin.swap(0, 1);
                }
                twin[4] = dice.between(1, self.capacity) as u16;
                twin
            } else {
                let tail = dice.below(nodes);
                let head = (tail + dice.between(1, nodes - 1)) % nodes;
                [
                    tail as u16,
                    head as u16,
                    dice.between(1, self.time) as u16,
                    dice.between(0, self.time) as u16,
                    dice.between(1, self.capacity) as u16,
                ]
            };
            links.push(link);
        }
        self.with_links(dice, nodes as u16, links)
    }

    /// An acceptable study of this kind on links given.
    pub fn with_links(&self, dice: &mut Dice, nodes: u16, links: Vec<DraftLink>) -> Draft {
        let wanted = dice.between(1, self.destinations.min(u64::from(nodes)));
        let mut destinations: Vec<u16> = Vec::new();
        while (destinations.len() as u64) < wanted {
            let node = dice.below(u64::from(nodes)) as u16;
            if let Err(place) = destinations.binary_search(&node) {
                destinations.insert(place, node);
            }
        }
        let trips = destinations
            .iter()
            .map(|_| {
                (0..nodes)
                    .map(|_| {
                        if dice.below(10) < self.tenths {
                            dice.between(0, self.trips) as u16
                        } else {
                            0
                        }
                    })
                    .collect()
            })
            .collect();
        let mut draft = Draft {
            nodes,
            links,
            destinations,
            trips,
        };
        draft.drop_pathless_trips();
        draft.limit_total(65_535);
        draft
    }
}

/// The links of a street grid, both ways along every street, cut off at `most`.
pub fn grid(
    dice: &mut Dice,
    wide: u16,
    high: u16,
    most: usize,
    time: u64,
    capacity: u64,
) -> Vec<DraftLink> {
    let mut links = Vec::new();
    for row in 0..high {
        for column in 0..wide {
            let here = row * wide + column;
            let right = (column + 1 < wide).then_some(here + 1);
            let down = (row + 1 < high).then_some(here + wide);
            for there in [right, down].into_iter().flatten() {
                for (tail, head) in [(here, there), (there, here)] {
                    links.push([
                        tail,
                        head,
                        dice.between(time / 2 + 1, time + 1).min(16_383) as u16,
                        dice.between(0, time) as u16,
                        dice.between(capacity / 2 + 1, capacity) as u16,
                    ]);
                }
            }
        }
    }
    links.truncate(most);
    links
}
