//! What in a study makes check refuse it.
//!
//! Check answers with a number; here that number's first culprit is found, so
//! that a modeller knows which link, destination or node to look at.

use std::ops::RangeInclusive;

use crate::format::{
    BARRED_BYTES, CAPACITIES, CLOSED_BYTES, Class, FREE_TIMES, Link, MOST_TRIPS, POWERS, RISES,
    Study,
};
use crate::words::{count, grouped, range, trips};

/// The first culprit for a refusal of question 6 to 11, 19 or 23, in words.
pub fn culprit(study: &Study, number: u8) -> Option<String> {
    let by_link =
        |explain: fn(&Study, &Link) -> Option<String>| {
            study.links.iter().enumerate().find_map(|(number, link)| {
                Some(format!("link {number}: {}", explain(study, link)?))
            })
        };
    match number {
        6 => by_link(wrong_ends),
        7 => by_link(wrong_figure),
        8 => wrong_destination(study),
        9 => own_trips(study),
        10 => too_many_trips(study),
        11 => stranded(study).map(Stranded::in_words),
        19 => wrong_byte("node", "closed", &study.closed, CLOSED_BYTES),
        23 => wrong_byte("link", "barred", &study.barred, BARRED_BYTES),
        _ => None,
    }
}

fn wrong_ends(study: &Study, link: &Link) -> Option<String> {
    let last = study.nodes - 1;
    for (name, node) in [("tail", link.tail), ("head", link.head)] {
        if node > last {
            return Some(format!("{name} {node}, limit 0 to {last}"));
        }
    }
    (link.tail == link.head).then(|| format!("tail and head are both {}", link.tail))
}

fn wrong_figure(_: &Study, link: &Link) -> Option<String> {
    [
        ("free time", link.free, FREE_TIMES),
        ("rise", link.rise, RISES),
        ("capacity", link.capacity, CAPACITIES),
        ("power", link.power, POWERS),
    ]
    .into_iter()
    .find(|(_, figure, limits)| !limits.contains(figure))
    .map(|(name, figure, limits)| format!("{name} {figure}, limit {}", range(&limits)))
}

fn wrong_destination(study: &Study) -> Option<String> {
    let last = study.nodes - 1;
    let mut before = None;
    for destination in &study.destinations {
        let node = destination.node;
        if node > last {
            return Some(format!("destination {node}, limit 0 to {last}"));
        }
        if let Some(before) = before.filter(|&before| before >= node) {
            return Some(format!(
                "destination {node} comes after destination {before}"
            ));
        }
        before = Some(node);
    }
    None
}

/// Of both classes, cars first.
fn own_trips(study: &Study) -> Option<String> {
    Class::ALL.into_iter().find_map(|class| {
        study.destinations.iter().find_map(|destination| {
            let node = destination.node;
            let own = *destination.trips_of(class).get(usize::from(node))?;
            let trips = count(own, class.trip());
            (own != 0).then(|| format!("destination {node} has {trips} to itself"))
        })
    })
}

fn too_many_trips(study: &Study) -> Option<String> {
    let total = study.total();
    let trips = trips(total, study.total_of(Class::Lorries));
    (total > MOST_TRIPS).then(|| format!("{trips}, limit {}", grouped(MOST_TRIPS)))
}

/// The first byte beyond its limits, of one for each node or link.
fn wrong_byte(noun: &str, name: &str, bytes: &[u8], limits: RangeInclusive<u16>) -> Option<String> {
    let mut bytes = bytes.iter().map(|&byte| u16::from(byte)).enumerate();
    let (number, byte) = bytes.find(|(_, byte)| !limits.contains(byte))?;
    let limits = range(&limits);
    Some(format!(
        "{noun} {number}: {name} byte {byte}, limit {limits}"
    ))
}

/// Trips without a path.
#[derive(Clone, Copy, Debug, PartialEq, Eq)]
pub struct Stranded {
    /// Their class.
    pub class: Class,
    /// The node they begin at.
    pub from: u16,
    /// Their destination.
    pub to: u16,
    /// How many there are.
    pub trips: u16,
    /// What there is in place of a path.
    pub obstacle: Obstacle,
}

/// What there is in place of a path.
#[derive(Clone, Copy, Debug, PartialEq, Eq)]
pub enum Obstacle {
    /// No links lead there.
    NoLinks,
    /// There would be a path if all nodes were open.
    ClosedNodes,
    /// There would be a path if no link were barred.
    BarredLinks,
    /// There would be a path if all nodes were open or if no link were barred,
    /// either way, or only if both were so.
    ClosedOrBarred,
}

impl Stranded {
    fn in_words(self) -> String {
        let Stranded { from, to, .. } = self;
        let trips = count(self.trips, self.class.trip());
        let but = match self.obstacle {
            Obstacle::NoLinks => "",
            Obstacle::ClosedNodes => " but through closed nodes",
            Obstacle::BarredLinks => " but over barred links",
            Obstacle::ClosedOrBarred => " but through closed nodes or over barred links",
        };
        format!("node {from} has {trips} to destination {to} and no path to it{but}")
    }
}

/// The first trips without a path: by class, cars first, then by destination,
/// then by node.
pub fn stranded(study: &Study) -> Option<Stranded> {
    Class::ALL.into_iter().find_map(|class| {
        study.destinations.iter().find_map(|destination| {
            let rules = Rules::of(class, destination.node);
            let reached = nodes_with_path(study, rules);
            (0..)
                .zip(destination.trips_of(class).iter().zip(reached))
                .find(|&(_, (&trips, reached))| trips != 0 && !reached)
                .map(|(from, (&trips, _))| Stranded {
                    class,
                    from,
                    to: destination.node,
                    trips,
                    obstacle: obstacle(study, rules, from),
                })
        })
    })
}

/// What there is in place of a path from a node, which has none by the rules.
fn obstacle(study: &Study, rules: Rules, from: u16) -> Obstacle {
    let has_path = |closed: bool, barred: bool| {
        let rules = Rules {
            closed,
            barred,
            ..rules
        };
        nodes_with_path(study, rules)[usize::from(from)]
    };
    match (has_path(false, rules.barred), has_path(rules.closed, false)) {
        (true, false) => Obstacle::ClosedNodes,
        (false, true) => Obstacle::BarredLinks,
        (false, false) if !has_path(false, false) => Obstacle::NoLinks,
        _ => Obstacle::ClosedOrBarred,
    }
}

/// Which links may carry flow to a destination.
#[derive(Clone, Copy)]
struct Rules {
    /// The destination's node.
    to: u16,
    /// No flow passes through closed nodes.
    closed: bool,
    /// No flow uses barred links.
    barred: bool,
}

impl Rules {
    /// The rules for a class of trips.
    fn of(class: Class, to: u16) -> Self {
        Rules {
            to,
            closed: true,
            barred: class == Class::Lorries,
        }
    }

    /// The links that may carry flow.
    fn permitted<'a>(&self, study: &'a Study) -> Vec<&'a Link> {
        let links = study.links.iter().zip(&study.barred);
        links
            .filter(|(link, barred)| {
                let shut = self.closed && link.head != self.to && study.is_closed(link.head);
                let barred = self.barred && **barred == 1;
                !shut && !barred
            })
            .map(|(link, _)| link)
            .collect()
    }
}

/// For each node, has it a path of permitted links? Links whose ends are no
/// nodes lead nowhere.
fn nodes_with_path(study: &Study, rules: Rules) -> Vec<bool> {
    let mut reached: Vec<bool> = (0..study.nodes).map(|node| node == rules.to).collect();
    let links = rules.permitted(study);
    let mut growing = true;
    while growing {
        growing = false;
        for link in &links {
            let from_head = reached.get(usize::from(link.head)) == Some(&true);
            if let Some(tail) = reached.get_mut(usize::from(link.tail))
                && from_head
                && !*tail
            {
                *tail = true;
                growing = true;
            }
        }
    }
    reached
}
