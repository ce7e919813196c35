//! The lists of links at each node.

use crate::format::{MOST_LINKS, MOST_NODES};
use crate::network::{ByLink, ByNode, Class, Study, at_node};

/// The links at each node, outgoing and incoming. Links into open nodes come
/// first in each list, links into closed nodes after them, both in ascending
/// order.
pub struct Adjacency {
    /// Links out of each node, with their heads.
    pub out: Lists,
    /// Links into each node, with their tails.
    pub into: Lists,
    /// How many links there are.
    pub links: usize,
    /// The closed nodes, a bit for each node.
    closed: u128,
}

/// The links at each node that each class may use.
pub struct Adjacencies {
    /// All links, which are those of cars.
    pub cars: Adjacency,
    /// Those that are not barred; none where lorries may use all links.
    lorries: Option<Adjacency>,
}

/// For each node a list of links, one list after the other.
pub struct Lists {
    first: [u16; MOST_NODES + 1],
    /// Where in each list the links into closed nodes begin.
    first_closed: ByNode<u16>,
    /// The links of all lists, in the order of the lists.
    pub links: ByLink<u16>,
    /// The other ends of these links.
    pub others: ByLink<u8>,
}

impl Lists {
    const EMPTY: Lists = Lists {
        first: [0; MOST_NODES + 1],
        first_closed: [0; MOST_NODES],
        links: [0; MOST_LINKS],
        others: [0; MOST_LINKS],
    };

    /// Fills empty lists with permitted links by the node they belong to; links
    /// of one node stay in order. They are all taken for links into open nodes.
    #[inline]
    fn fill(
        &mut self,
        nodes: usize,
        owners: &[u8],
        others: &[u8],
        permitted: impl Fn(usize) -> bool,
    ) {
        let first = self.sort::<{ MOST_NODES + 1 }>(nodes, owners, others, permitted);
        self.first = first;
        self.first_closed.copy_from_slice(&first[1..]);
    }

    /// Fills empty lists with the permitted links out of nodes, those into
    /// closed nodes at the end of each list.
    fn fill_by_kind(&mut self, study: &Study, permitted: impl Fn(usize) -> bool) {
        let mut closed: ByNode<u8> = [0; MOST_NODES];
        for node in study.closed_nodes() {
            closed[at_node(node)] = 1;
        }
        let heads = &study.heads[..study.links];
        let ends = study.tails.iter().zip(heads);
        let keys: Vec<u8> = ends
            .map(|(&tail, &head)| 2 * tail + closed[at_node(head)])
            .collect();
        let first = self.sort::<{ 2 * MOST_NODES + 1 }>(2 * study.nodes, &keys, heads, permitted);
        self.first = std::array::from_fn(|node| first[2 * node]);
        self.first_closed = std::array::from_fn(|node| first[2 * node + 1]);
    }

    /// Puts permitted links in the order of their keys, links of one key in
    /// ascending order, and hands back where each key's links begin. There are
    /// so many keys, and `N` is more.
    #[inline(always)]
    fn sort<const N: usize>(
        &mut self,
        count: usize,
        keys: &[u8],
        others: &[u8],
        permitted: impl Fn(usize) -> bool,
    ) -> [u16; N] {
        let mut first = [0; N];
        for (link, &key) in keys.iter().enumerate() {
            first[usize::from(key) + 1] += u16::from(permitted(link));
        }
        for key in 0..count {
            first[key + 1] += first[key];
        }
        let mut next = first;
        for (link, (&key, &other)) in keys.iter().zip(others).enumerate() {
            if !permitted(link) {
                continue;
            }
            let place = usize::from(next[usize::from(key)]);
            next[usize::from(key)] += 1;
            self.links[place] = link as u16;
            self.others[place] = other;
        }
        first
    }

    /// Takes all links of closed nodes for links into them, in lists of the
    /// links into nodes.
    fn mark_closed(&mut self, study: &Study) {
        for node in study.closed_nodes() {
            self.first_closed[at_node(node)] = self.first[at_node(node)];
        }
    }

    /// Where a node's list lies.
    #[inline(always)]
    pub fn range(&self, node: u8) -> std::ops::Range<usize> {
        let node = at_node(node);
        usize::from(self.first[node])..usize::from(self.first[node + 1])
    }

    /// Where a node's links into open nodes lie.
    #[inline(always)]
    pub fn open_range(&self, node: u8) -> std::ops::Range<usize> {
        let node = at_node(node);
        usize::from(self.first[node])..usize::from(self.first_closed[node])
    }

    /// Where a node's links into closed nodes lie.
    #[inline(always)]
    pub fn closed_range(&self, node: u8) -> std::ops::Range<usize> {
        let node = at_node(node);
        usize::from(self.first_closed[node])..usize::from(self.first[node + 1])
    }

    /// A node's links.
    #[inline(always)]
    pub fn links_of(&self, node: u8) -> &[u16] {
        &self.links[self.range(node)]
    }

    /// The other ends of a node's links.
    #[inline(always)]
    pub fn others_of(&self, node: u8) -> &[u8] {
        &self.others[self.range(node)]
    }

    /// The other ends of a node's links into open nodes.
    #[inline(always)]
    pub fn open_others_of(&self, node: u8) -> &[u8] {
        &self.others[self.open_range(node)]
    }
}

impl Adjacencies {
    /// Sorts the links that each class may use.
    pub fn of(study: &Study) -> Self {
        Adjacencies {
            cars: Adjacency::of(study),
            lorries: study
                .has_barred_links()
                .then(|| Adjacency::by(study, |link| !study.barred[link])),
        }
    }

    /// The links that a class may use.
    pub fn of_class(&self, class: Class) -> &Adjacency {
        match class {
            Class::Cars => &self.cars,
            Class::Lorries => self.lorries.as_ref().unwrap_or(&self.cars),
        }
    }
}

impl Adjacency {
    /// Sorts a study's links by tail and by head.
    pub fn of(study: &Study) -> Self {
        Adjacency::by(study, |_| true)
    }

    /// The same for permitted links only.
    fn by(study: &Study, permitted: impl Fn(usize) -> bool + Copy) -> Self {
        let (tails, heads) = (&study.tails[..study.links], &study.heads[..study.links]);
        let mut adjacency = Adjacency {
            out: Lists::EMPTY,
            into: Lists::EMPTY,
            links: 0,
            closed: study.closed,
        };
        adjacency.into.fill(study.nodes, heads, tails, permitted);
        if study.closed == 0 {
            adjacency.out.fill(study.nodes, tails, heads, permitted);
        } else {
            adjacency.out.fill_by_kind(study, permitted);
            adjacency.into.mark_closed(study);
        }
        adjacency.links = usize::from(adjacency.out.first[study.nodes]);
        adjacency
    }

    /// Whether there are closed nodes.
    #[inline]
    pub fn has_closed_nodes(&self) -> bool {
        self.closed != 0
    }

    /// Whether a node is closed.
    #[inline]
    pub fn is_closed(&self, node: u8) -> bool {
        self.closed >> at_node(node) & 1 != 0
    }
}
