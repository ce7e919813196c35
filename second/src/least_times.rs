//! Least times: distances and next links, for several destinations at once.
//!
//! The searches for different destinations run over the same links with the
//! same times. So up to [`LANES`] of them go side by side, one in each lane of
//! a row of numbers: taking over what a link offers its tail is one addition
//! and one minimum for the whole row, a few instructions without a branch.
//! Dijkstra's method, which settles one node of one destination after the
//! other, looks at fewer links, but for many destinations takes several times
//! as long over them. It serves where only one or two are left.
//!
//! A link into a closed node carries only flow to that node. So a search sets
//! out with all links into its own destination and goes on with links into
//! open nodes only.
//!
//! Searches side by side are of one class, and know only the links that it may
//! use.

use crate::format::MOST_NODES;
use crate::network::{Adjacency, ByNode, at_link, at_node};

/// How many destinations are searched side by side.
pub const LANES: usize = 8;

/// So many are searched one after the other instead.
const FEW: usize = 2;

/// One number for each lane.
type Lanes = [i32; LANES];

/// Stands for no distance. It is more than any distance there can be, which
/// is that of 127 links of 16,383 + 256 · 16,383 each and stays below 2²⁹,
/// and it still fits with one more link's time on top.
const FAR: i32 = 1 << 30;

/// Stands for no next link, in a note too.
pub const NO_LINK: u16 = u16::MAX;

/// A link as its tail sees it.
#[derive(Clone, Copy, Default)]
struct Leg {
    time: i32,
    head: u8,
}

/// A distance or time above a node, in one word: the least of several is that
/// of the least distance, and tells whose it is.
#[derive(Clone, Copy, PartialEq, Eq, PartialOrd, Ord)]
struct Label(u64);

impl Label {
    #[inline(always)]
    fn new(time: u32, node: u8) -> Self {
        Label(u64::from(time) << 32 | u64::from(node))
    }

    /// The distance or time.
    #[inline(always)]
    fn distance(self) -> i32 {
        (self.0 >> 32) as i32
    }

    #[inline(always)]
    fn node(self) -> u8 {
        self.0 as u8
    }

    /// The tail's label by way of a link whose head has this one. The link's
    /// own label has its time and its tail.
    #[inline(always)]
    fn back_over(self, link: Label) -> Label {
        Label((self.0 & !0 << 32) + link.0)
    }
}

/// The times of the links that a class may use, ready for the searches.
pub struct Times {
    /// In the order of the lists of links out of nodes.
    out: Vec<Leg>,
    /// In the order of the lists of links into nodes: time and tail.
    into: Vec<Label>,
}

impl Times {
    /// For a network; the times are yet to be set.
    pub fn new(adjacency: &Adjacency) -> Self {
        let heads = &adjacency.out.others[..adjacency.links];
        Times {
            out: heads.iter().map(|&head| Leg { time: 0, head }).collect(),
            into: vec![Label(0); adjacency.links],
        }
    }

    /// Takes over new times, by link.
    #[inline]
    pub fn set(&mut self, adjacency: &Adjacency, times: &[u32]) {
        let lists = &adjacency.out;
        for (leg, &link) in self.out.iter_mut().zip(&lists.links) {
            leg.time = times[usize::from(link)] as i32;
        }
        let lists = &adjacency.into;
        let into = self.into.iter_mut();
        for ((label, &link), &tail) in into.zip(&lists.links).zip(&lists.others) {
            *label = Label::new(times[usize::from(link)], tail);
        }
    }
}

/// The nodes with a path to one of the goals, the goals first and then those
/// with the fewest links to go.
pub fn nodes_before(goals: &[u8], adjacency: &Adjacency) -> Vec<u8> {
    let mut met = [false; MOST_NODES];
    let mut nodes = Vec::with_capacity(MOST_NODES);
    let mut meet = |node: u8, nodes: &mut Vec<u8>| {
        if !std::mem::replace(&mut met[at_node(node)], true) {
            nodes.push(node);
        }
    };
    for &goal in goals {
        meet(goal, &mut nodes);
    }
    let goal_count = nodes.len();
    let mut done = 0;
    while let Some(&node) = nodes.get(done) {
        let tails = if done < goal_count {
            adjacency.into.others_of(node)
        } else {
            adjacency.into.open_others_of(node)
        };
        done += 1;
        for &tail in tails {
            meet(tail, &mut nodes);
        }
    }
    nodes
}

/// Distances and next links of up to [`LANES`] destinations.
pub struct Trees {
    /// The destination of each lane.
    destinations: Vec<u8>,
    /// The nodes with a path to one of the destinations: first the open ones,
    /// near ones before far ones, or roughly so, for the order matters only to
    /// the speed of the search; then the closed ones.
    nodes: Vec<u8>,
    /// How many of them are open.
    open_count: usize,
    /// By node, then by lane.
    distances: ByNode<Lanes>,
    /// By lane, then by node.
    next_links: Vec<ByNode<u16>>,
}

impl Trees {
    /// Trees for at most [`LANES`] destinations, yet to be searched. The
    /// nearer the destinations are to one another, the faster the search.
    pub fn new(destinations: Vec<u8>, adjacency: &Adjacency) -> Self {
        assert!(destinations.len() <= LANES);
        let mut nodes = nodes_before(&destinations, adjacency);
        let mut open_count = nodes.len();
        if adjacency.has_closed_nodes() {
            nodes.sort_by_key(|&node| adjacency.is_closed(node));
            open_count = nodes.partition_point(|&node| !adjacency.is_closed(node));
        }
        Trees {
            nodes,
            open_count,
            distances: [[FAR; LANES]; MOST_NODES],
            next_links: vec![[NO_LINK; MOST_NODES]; destinations.len()],
            destinations,
        }
    }

    /// The nodes with a path to one of the destinations.
    #[inline]
    pub fn nodes(&self) -> &[u8] {
        &self.nodes
    }

    /// The tree of one lane.
    #[inline]
    pub fn tree(&self, lane: usize) -> Tree<'_> {
        Tree::new(&self.nodes, &self.next_links[lane])
    }

    /// A node's distance in a lane, if it has one.
    #[inline(always)]
    pub fn distance(&self, lane: usize, node: u8) -> Option<u32> {
        let distance = self.distances[at_node(node)][lane];
        (distance != FAR).then_some(distance as u32)
    }

    /// Finds all distances.
    pub fn find_distances(&mut self, times: &Times, adjacency: &Adjacency) {
        if self.destinations.len() <= FEW {
            for lane in 0..self.destinations.len() {
                self.search_one(lane, times, adjacency);
            }
        } else {
            self.search_all(times, adjacency);
        }
    }

    /// Finds the distances of one lane by Dijkstra's method, against the
    /// links.
    ///
    /// The labels of nodes that are met but not settled stand in a short list
    /// without order; with so few nodes, running over it for the least label
    /// beats keeping it as a heap. A settled node's label stays: whatever is
    /// settled after it is no nearer, and every link takes time.
    fn search_one(&mut self, lane: usize, times: &Times, adjacency: &Adjacency) {
        const UNMET: Label = Label((FAR as u64) << 32);
        let mut labels = [UNMET; MOST_NODES];
        let mut met = [UNMET; MOST_NODES];
        let mut met_count = 0;
        let mut place: ByNode<u8> = [0; MOST_NODES]; // of each met node in the list

        let mut nearest = Label::new(0, self.destinations[lane]);
        labels[at_node(nearest.node())] = nearest;
        let mut links = adjacency.into.range(nearest.node());
        loop {
            for &link in &times.into[links] {
                let label = nearest.back_over(link);
                let tail = at_node(link.node());
                if label < labels[tail] {
                    if labels[tail] == UNMET {
                        place[tail] = met_count as u8;
                        met_count += 1;
                    }
                    met[at_node(place[tail])] = label;
                    labels[tail] = label;
                }
            }
            let Some(&least) = met[..met_count].iter().min() else {
                break;
            };
            nearest = least;
            links = adjacency.into.open_range(nearest.node());
            // The last of the list fills the gap.
            met_count -= 1;
            let last = met[met_count];
            let gap = place[at_node(nearest.node())];
            met[at_node(gap)] = last;
            place[at_node(last.node())] = gap;
        }
        // All other nodes have no path, and never had a distance.
        for &node in &self.nodes {
            self.distances[at_node(node)][lane] = labels[at_node(node)].distance();
        }
    }

    /// Finds the distances of all lanes side by side.
    ///
    /// Every node takes the least of what its links offer, where a link
    /// offers its time plus its head's distance so far. That goes on, to and
    /// fro over the nodes, until no node has a reason to look again: a node
    /// is stale when one of its heads has come nearer since it looked last.
    /// At every moment each distance is that of some path, and in the end
    /// each is the least of what the links offer; as every link takes time,
    /// only the least times are like that. Nobody looks at closed nodes, so
    /// these look only once, when all others have done.
    fn search_all(&mut self, times: &Times, adjacency: &Adjacency) {
        self.sort_nodes();
        let mut stale = self.set_out(times, adjacency);
        let (open_nodes, closed_nodes) = self.nodes.split_at(self.open_count);
        let mut look = |node: u8| -> bool {
            if !std::mem::take(&mut stale[at_node(node)]) {
                return false;
            }
            let mut least = self.distances[at_node(node)];
            for leg in &times.out[adjacency.out.open_range(node)] {
                let beyond = &self.distances[at_node(leg.head)];
                for lane in 0..LANES {
                    least[lane] = least[lane].min(beyond[lane] + leg.time);
                }
            }
            let nearer = least != self.distances[at_node(node)];
            if nearer {
                self.distances[at_node(node)] = least;
                for &tail in adjacency.into.open_others_of(node) {
                    stale[at_node(tail)] = true;
                }
            }
            nearer
        };
        // When nothing comes nearer in one sweep, that sweep has seen to all
        // stale nodes and made no new ones.
        loop {
            let nodes = open_nodes.iter();
            if !nodes.fold(false, |any, &node| look(node) | any) {
                break;
            }
            let nodes = open_nodes.iter().rev();
            if !nodes.fold(false, |any, &node| look(node) | any) {
                break;
            }
        }
        for &node in closed_nodes {
            look(node);
        }
    }

    /// Sets out with all nodes marked unreached but the destinations, and
    /// tells which nodes are stale.
    ///
    /// Nodes look at open heads only. So what the links into a closed
    /// destination offer, for its own lane, is taken over here.
    fn set_out(&mut self, times: &Times, adjacency: &Adjacency) -> ByNode<bool> {
        let into = &adjacency.into;
        let mut stale = [false; MOST_NODES];
        self.distances = [[FAR; LANES]; MOST_NODES];
        for (lane, &destination) in self.destinations.iter().enumerate() {
            self.distances[at_node(destination)][lane] = 0;
            for &tail in into.open_others_of(destination) {
                stale[at_node(tail)] = true;
            }
            for link in &times.into[into.closed_range(destination)] {
                let own = &mut self.distances[at_node(link.node())][lane];
                *own = link.distance().min(*own);
                for &tail in into.open_others_of(link.node()) {
                    stale[at_node(tail)] = true;
                }
            }
        }
        stale
    }

    /// Sorts the open nodes by the distances of the last search, those of the
    /// first lane. From one search to the next the order changes little, and
    /// inserting is the fastest way to put it right.
    fn sort_nodes(&mut self) {
        for end in 1..self.open_count {
            let node = self.nodes[end];
            let distance = self.distances[at_node(node)][0];
            let mut place = end;
            while place > 0 && self.distances[at_node(self.nodes[place - 1])][0] > distance {
                self.nodes[place] = self.nodes[place - 1];
                place -= 1;
            }
            self.nodes[place] = node;
        }
    }

    /// Finds all next links, once the distances are found.
    ///
    /// The links are taken from the highest number down, so that the lowest
    /// one that fits stays. Nothing fits at a destination, nor where there is
    /// no path, because every link takes time.
    pub fn find_next_links(&mut self, times: &Times, adjacency: &Adjacency) {
        for &node in &self.nodes {
            let own = &self.distances[at_node(node)];
            let range = adjacency.out.open_range(node);
            let legs = times.out[range.clone()].iter();
            let mut lowest = [i32::from(NO_LINK); LANES];
            for (leg, &link) in legs.zip(&adjacency.out.links[range]).rev() {
                let beyond = &self.distances[at_node(leg.head)];
                for lane in 0..LANES {
                    if beyond[lane] + leg.time == own[lane] {
                        lowest[lane] = i32::from(link);
                    }
                }
            }
            for (links, link) in self.next_links.iter_mut().zip(lowest) {
                links[at_node(node)] = link as u16;
            }
        }
        self.find_last_links(times, adjacency);
    }

    /// Goes on with the links into closed destinations, each for its own lane:
    /// one that fits is the next link where it has the lowest number so far.
    fn find_last_links(&mut self, times: &Times, adjacency: &Adjacency) {
        for (lane, &destination) in self.destinations.iter().enumerate() {
            let range = adjacency.into.closed_range(destination);
            let labels = times.into[range.clone()].iter();
            for (label, &link) in labels.zip(&adjacency.into.links[range]) {
                let tail = at_node(label.node());
                if label.distance() == self.distances[tail][lane] {
                    let lowest = &mut self.next_links[lane][tail];
                    *lowest = link.min(*lowest);
                }
            }
        }
    }
}

/// The next links towards one destination.
#[derive(Clone, Copy)]
pub struct Tree<'a> {
    nodes: &'a [u8],
    next_links: &'a ByNode<u16>,
}

impl<'a> Tree<'a> {
    /// A tree of next links, [`NO_LINK`] where there is none. Among the nodes
    /// are all that have one.
    #[inline]
    pub fn new(nodes: &'a [u8], next_links: &'a ByNode<u16>) -> Self {
        Tree { nodes, next_links }
    }

    /// The next links by node.
    #[inline]
    pub fn next_links(&self) -> &'a ByNode<u16> {
        self.next_links
    }

    /// All nodes that have a next link, and perhaps some that have none.
    #[inline]
    pub fn nodes(&self) -> &'a [u8] {
        self.nodes
    }

    /// A node's next link, if it has one.
    #[inline(always)]
    pub fn next_link(&self, node: u8) -> Option<usize> {
        let link = self.next_links[at_node(node)];
        (link != NO_LINK).then_some(at_link(link))
    }
}
