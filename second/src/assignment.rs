//! Judging a table and moving it.

use crate::format::{MOST_LINKS, MOST_NODES};
use crate::least_times::{LANES, NO_LINK, Times, Trees, nodes_before};
use crate::loading::load;
use crate::network::{Adjacencies, Adjacency, ByLink, ByNode, Class, Study, at_node};
use crate::questions::LARGEST_SHARE;
use crate::staircase::{Gauge, Part};

/// The most loadings a pass adds.
const LARGEST_STEP: u32 = 64;

/// What a pass does to a table.
#[derive(Clone, Copy, Debug, PartialEq, Eq)]
pub enum Move {
    /// Adds this many loadings; the share grows by as much.
    Add(u32),
    /// Doubles the table and the share.
    Double,
}

/// Up to [`LANES`] destinations of one class, their trees and what the loading
/// sends along them.
struct Group {
    /// The row of each lane's destination.
    rows: Vec<usize>,
    trees: Trees,
    /// For each lane, the trips that leave each node by its next link.
    leaving: Vec<ByNode<u32>>,
}

/// The searches of one class: over the links that it may use, to the
/// destinations to which it has trips.
struct Searches<'a> {
    class: Class,
    adjacency: &'a Adjacency,
    link_times: Times,
    groups: Vec<Group>,
}

/// A study with the flows of one table, as far as judging needs them.
///
/// Rows without trips have no part in it: they add nothing to the loading, and
/// what a table lets circulate for them is in the totals. The classes share the
/// links' times, totals and loadings; only their searches are apart.
pub struct Assignment<'a> {
    study: &'a Study,
    gauges: Vec<Gauge>,
    /// For each class.
    searches: Vec<Searches<'a>>,

    /// The table's share, W.
    share: u32,
    /// The table's total on each link, S.
    totals: ByLink<u32>,
    /// Each link's time t at the table.
    times: ByLink<u32>,
    /// The loading's total on each link, Y.
    loading: ByLink<u32>,
}

/// A link on which the loading and the table differ.
struct Difference {
    gauge: Gauge,
    /// S.
    total: u32,
    /// Y.
    load: u32,
    /// d = W·Y − S, not 0.
    difference: i64,
}

/// The rows of a class with trips, or those without any, and their destinations.
fn rows(study: &Study, class: Class, with_trips: bool) -> Vec<(usize, u8)> {
    let all = study.rows_of(class);
    study
        .rows()
        .enumerate()
        .skip(all.start)
        .take(all.len())
        .filter(|(_, (_, trips))| trips.iter().any(|&count| count != 0) == with_trips)
        .map(|(row, (destination, _))| (row, destination))
        .collect()
}

/// Puts the destinations of these rows into groups of neighbours.
fn groups(mut left: Vec<(usize, u8)>, adjacency: &Adjacency) -> Vec<Group> {
    let mut groups = Vec::with_capacity(left.len().div_ceil(LANES));
    while let Some(&(_, first)) = left.first() {
        if left.len() > LANES {
            let mut rank = [u8::MAX; MOST_NODES];
            for (place, node) in nodes_before(&[first], adjacency).into_iter().enumerate() {
                rank[at_node(node)] = place as u8;
            }
            left.sort_by_key(|&(_, destination)| rank[at_node(destination)]);
        }
        let members: Vec<(usize, u8)> = left.drain(..left.len().min(LANES)).collect();
        let destinations = members
            .iter()
            .map(|&(_, destination)| destination)
            .collect();
        groups.push(Group {
            rows: members.iter().map(|&(row, _)| row).collect(),
            trees: Trees::new(destinations, adjacency),
            leaving: vec![[0; MOST_NODES]; members.len()],
        });
    }
    groups
}

impl Group {
    /// Copies the next links into the rows of a note, of `nodes` numbers each.
    fn copy_next_links(&self, nodes: usize, noted: &mut [u16]) {
        for (lane, &row) in self.rows.iter().enumerate() {
            let next_links = self.trees.tree(lane).next_links();
            noted[row * nodes..][..nodes].copy_from_slice(&next_links[..nodes]);
        }
    }
}

impl<'a> Searches<'a> {
    /// For a class; the times are yet to be set.
    fn new(study: &Study, adjacencies: &'a Adjacencies, class: Class) -> Self {
        let adjacency = adjacencies.of_class(class);
        Searches {
            class,
            adjacency,
            link_times: Times::new(adjacency),
            groups: groups(rows(study, class, true), adjacency),
        }
    }

    /// Takes over new times, by link, and finds the distances at them.
    fn find_distances(&mut self, times: &[u32]) {
        self.link_times.set(self.adjacency, times);
        for group in &mut self.groups {
            group.trees.find_distances(&self.link_times, self.adjacency);
        }
    }

    /// Makes the class's loading along the next links at these times, and adds
    /// it to the total on each link.
    fn find_loading(&mut self, study: &Study, loading: &mut ByLink<u32>) {
        for group in &mut self.groups {
            group
                .trees
                .find_next_links(&self.link_times, self.adjacency);
            for (lane, (&row, leaving)) in group.rows.iter().zip(&mut group.leaving).enumerate() {
                let tree = group.trees.tree(lane);
                let trips = study.trips_of(row);
                load(&study.heads, tree, trips, leaving, |link, flow| {
                    loading[link] += flow;
                });
            }
        }
    }

    /// Writes every node's next link at these times into the class's rows of a
    /// note. Rows without trips are searched only here.
    fn write_next_links(&self, study: &Study, noted: &mut [u16]) {
        for group in &self.groups {
            group.copy_next_links(study.nodes, noted);
        }
        for mut group in groups(rows(study, self.class, false), self.adjacency) {
            group.trees.find_distances(&self.link_times, self.adjacency);
            group
                .trees
                .find_next_links(&self.link_times, self.adjacency);
            group.copy_next_links(study.nodes, noted);
        }
    }
}

impl<'a> Assignment<'a> {
    /// A study with a table of this share and these totals by link.
    pub fn new(
        study: &'a Study,
        adjacencies: &'a Adjacencies,
        share: u32,
        totals: ByLink<u32>,
    ) -> Self {
        let roads = &study.roads[..study.links];
        let searches = study.classes();
        Assignment {
            study,
            gauges: roads.iter().copied().map(Gauge::of).collect(),
            searches: searches
                .map(|class| Searches::new(study, adjacencies, class))
                .collect(),
            share,
            totals,
            times: [0; MOST_LINKS],
            loading: [0; MOST_LINKS],
        }
    }

    /// Fills a table as long as it is used with the loading at empty roads. Hands
    /// back the assignment it was made with, which still has empty roads.
    pub fn start(study: &'a Study, adjacencies: &'a Adjacencies, table: &mut [u32]) -> Self {
        let mut empty = Assignment::new(study, adjacencies, 1, [0; MOST_LINKS]);
        empty.find_times();
        empty.find_loading();
        table.fill(0);
        empty.add_loading(1, table);
        empty
    }

    /// The table's share.
    pub fn share(&self) -> u32 {
        self.share
    }

    /// Takes each link's time at the table, and the distances with them.
    pub fn find_times(&mut self) {
        let part = Part::of_trip(self.share);
        let times = &mut self.times[..self.gauges.len()];
        for ((time, gauge), &total) in times.iter_mut().zip(&self.gauges).zip(&self.totals) {
            *time = gauge.time(total, part);
        }
        for searches in &mut self.searches {
            searches.find_distances(times);
        }
    }

    /// Makes the loading along the next links at these times.
    pub fn find_loading(&mut self) {
        self.loading = [0; MOST_LINKS];
        for searches in &mut self.searches {
            searches.find_loading(self.study, &mut self.loading);
        }
    }

    /// The groups of all classes.
    fn groups(&self) -> impl Iterator<Item = &Group> {
        self.searches.iter().flat_map(|searches| &searches.groups)
    }

    /// The table's gap, by its definition: the distances are enough.
    pub fn gap_from_distances(&self) -> u64 {
        let spent: u64 = self.times[..self.study.links]
            .iter()
            .zip(&self.totals)
            .map(|(&time, &total)| u64::from(time) * u64::from(total))
            .sum();
        let mut least = 0;
        for group in self.groups() {
            for (lane, &row) in group.rows.iter().enumerate() {
                let trips = self.study.trips_of(row);
                for &node in group.trees.nodes() {
                    // By question 11 there are no trips where there is no path.
                    if let Some(distance) = group.trees.distance(lane, node) {
                        least += u64::from(trips[usize::from(node)]) * u64::from(distance);
                    }
                }
            }
        }
        spent - u64::from(self.share) * least
    }

    /// The table's gap, from the loading.
    ///
    /// Every trip of the loading spends its distance, so the sum of
    /// D × distance is the sum of t·Y, and the gap is the sum of
    /// t × (S − W·Y). Its terms stay below 2⁴⁹ and its sums below 2⁵⁸.
    pub fn gap_from_loading(&self) -> u64 {
        let share = i64::from(self.share);
        let flows = self.totals[..self.study.links].iter().zip(&self.loading);
        let gap: i64 = flows
            .zip(&self.times)
            .map(|((&total, &load), &time)| {
                (i64::from(total) - share * i64::from(load)) * i64::from(time)
            })
            .sum();
        gap as u64
    }

    /// The table's cost, and how many of its links are over: on step 256.
    pub fn cost_and_over(&self) -> (u64, u32) {
        let roads = &self.study.roads[..self.study.links];
        let (mut cost, mut links_over) = (0, 0);
        for (road, &total) in roads.iter().zip(&self.totals) {
            let (area, over) = road.area(total, self.share);
            cost += area;
            links_over += u32::from(over);
        }
        (cost, links_over)
    }

    /// The move a pass makes from this table, if it makes one.
    ///
    /// Let f(j) be the sum of d × (time at S + j·Y with share W + j). The
    /// flow there, (S + j·Y) / (W + j), lies between S / W and Y and comes
    /// the nearer to Y the larger j is. So where d is positive the time never
    /// falls as j grows, and where it is negative it never rises: no term of
    /// f ever falls, and the largest j with f(j) at most 0 can be closed in
    /// on from both sides.
    pub fn choose_move(&self) -> Option<Move> {
        let mut differences = Vec::with_capacity(self.study.links);
        let flows = self.totals.iter().zip(&self.loading);
        for (&gauge, (&total, &load)) in self.gauges.iter().zip(flows) {
            let difference = i64::from(self.share) * i64::from(load) - i64::from(total);
            if difference != 0 {
                differences.push(Difference {
                    gauge,
                    total,
                    load,
                    difference,
                });
            }
        }
        let fits = |step: u32| -> bool {
            let part = Part::of_trip(self.share + step);
            let sum: i64 = differences
                .iter()
                .map(|link| {
                    let time = link.gauge.time(link.total + step * link.load, part);
                    link.difference * i64::from(time)
                })
                .sum();
            sum <= 0
        };

        let mut largest = 0; // the largest step known to fit
        let mut least = LARGEST_STEP.min(LARGEST_SHARE - self.share) + 1; // the least known not to
        let mut stride = 1;
        while least - largest > 1 {
            // Stride out from the small end, where most answers lie, until a
            // step fails; then halve what is left.
            let step = largest + stride.min((least - largest) / 2);
            if fits(step) {
                largest = step;
                stride *= 2;
            } else {
                least = step;
            }
        }
        if largest > 0 {
            Some(Move::Add(largest))
        } else if 2 * self.share <= LARGEST_SHARE {
            Some(Move::Double)
        } else {
            None
        }
    }

    /// Makes a move, here and in the table, which has a row of m numbers for
    /// each row of trips.
    pub fn make_move(&mut self, chosen: Move, table: &mut [u32]) {
        match chosen {
            Move::Add(step) => {
                self.share += step;
                for (total, &load) in self.totals.iter_mut().zip(&self.loading) {
                    *total += step * load;
                }
                self.add_loading(step, table);
            }
            Move::Double => {
                self.share *= 2;
                self.totals.iter_mut().for_each(|total| *total *= 2);
                table.iter_mut().for_each(|flow| *flow *= 2);
            }
        }
    }

    /// Puts the loading in the place of the totals, as after a start.
    pub fn take_loading(&mut self) {
        self.totals = self.loading;
    }

    /// Adds the loading `count` times to such a table.
    pub fn add_loading(&self, count: u32, table: &mut [u32]) {
        let links = self.study.links;
        for group in self.groups() {
            for (lane, &row) in group.rows.iter().enumerate() {
                let flows = &mut table[row * links..][..links];
                let tree = group.trees.tree(lane);
                let leaving = &group.leaving[lane];
                for &node in tree.nodes() {
                    if let Some(link) = tree.next_link(node) {
                        flows[link] += count * leaving[at_node(node)];
                    }
                }
            }
        }
    }

    /// Writes a move from this table, once the loading is found, into a note
    /// that has a row of n numbers for each row of trips behind its first.
    pub fn write_note(&self, chosen: Move, note: &mut [u16]) {
        match chosen {
            Move::Add(step) => {
                note[0] = step as u16;
                for searches in &self.searches {
                    searches.write_next_links(self.study, &mut note[1..]);
                }
            }
            Move::Double => {
                note[0] = 0;
                note[1..].fill(NO_LINK);
            }
        }
    }
}
