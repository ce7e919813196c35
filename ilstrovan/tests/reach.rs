//! Question 11 (request A.3): which nodes have a path to a destination, told by
//! studies with a single trip. The proved check, the second implementation's, and
//! what the network's shape says, or a plain fixed point.

mod common;

use common::Proved;
use second::draft::{Dice, Draft, DraftLink, Versioned};
use second::stream::Calls;

const NODES: u16 = 128;

/// The first and the last node of either word of marks.
const WORD_ENDS: [u16; 4] = [0, 63, 64, 127];

/// A study without trips.
fn without_trips(nodes: u16, ends: &[(u16, u16)], destinations: &[u16]) -> Draft {
    let link = |&(tail, head): &(u16, u16)| -> DraftLink { [tail, head, 1, 0, 1] };
    Draft {
        nodes,
        links: ends.iter().map(link).collect(),
        destinations: destinations.to_vec(),
        trips: vec![vec![0; usize::from(nodes)]; destinations.len()],
    }
}

/// Whether a trip from a node to the destination at a place in the list has a
/// path, by both implementations.
fn reaches(study: &Versioned, place: usize, node: u16) -> bool {
    let mut study = study.clone();
    study.draft.trips[place][usize::from(node)] = 1;
    let file = study.file();
    let number = Proved.check(&file);
    assert_eq!(number, second::check(&file), "node {node}, place {place}");
    assert!(number == 0 || number == 11, "refused {number}");
    number == 0
}

/// Holds every node but the destination to what is expected of it.
fn expect(study: &Versioned, place: usize, expected: impl Fn(u16) -> bool) {
    assert_eq!(Proved.check(&study.file()), 0, "without trips");
    let destination = study.draft.destinations[place];
    for node in (0..study.draft.nodes).filter(|&node| node != destination) {
        let found = reaches(study, place, node);
        assert_eq!(found, expected(node), "node {node} to {destination}");
    }
}

fn ascending() -> Vec<(u16, u16)> {
    (1..NODES).map(|node| (node - 1, node)).collect()
}

fn descending() -> Vec<(u16, u16)> {
    (1..NODES).map(|node| (node, node - 1)).collect()
}

#[test]
fn chains() {
    for destination in WORD_ENDS {
        let up = without_trips(NODES, &ascending(), &[destination]).into();
        expect(&up, 0, |node| node < destination);
        let down = without_trips(NODES, &descending(), &[destination]).into();
        expect(&down, 0, |node| node > destination);
    }
}

/// The links in any order: here the last first.
#[test]
fn chains_turned_round() {
    for destination in WORD_ENDS {
        for mut links in [ascending(), descending()] {
            let rises = links[0].0 < links[0].1;
            links.reverse();
            let study = without_trips(NODES, &links, &[destination]).into();
            expect(&study, 0, |node| (node < destination) == rises);
        }
    }
}

#[test]
fn stars() {
    for middle in WORD_ENDS {
        let others = || (0..NODES).filter(|&node| node != middle);
        let inward: Vec<_> = others().map(|node| (node, middle)).collect();
        let study = without_trips(NODES, &inward, &[middle]).into();
        expect(&study, 0, |_| true);
        // None but the destination is reached.
        let outward: Vec<_> = others().map(|node| (middle, node)).collect();
        let study = without_trips(NODES, &outward, &[middle]).into();
        expect(&study, 0, |_| false);
    }
}

/// A single link: its tail is the only other node that is reached.
#[test]
fn one_reached() {
    for tail in WORD_ENDS {
        for head in WORD_ENDS.into_iter().filter(|&head| head != tail) {
            let study = without_trips(NODES, &[(tail, head)], &[head]).into();
            expect(&study, 0, |node| node == tail);
        }
    }
}

/// As many destinations as there can be, each searched after the others.
#[test]
fn chains_to_many() {
    let mut destinations: Vec<u16> = (0..28).map(|k| 4 * k + 2).collect();
    destinations.extend(WORD_ENDS);
    destinations.sort_unstable();
    let up = without_trips(NODES, &ascending(), &destinations).into();
    let down = without_trips(NODES, &descending(), &destinations).into();
    for (place, &destination) in destinations.iter().enumerate() {
        expect(&up, place, |node| node < destination);
        expect(&down, place, |node| node > destination);
    }
}

/// A ring, and ways out of it from which no link leads back.
#[test]
fn ways_out_of_a_ring() {
    let mut links: Vec<_> = (0..96).map(|node| (node, (node + 1) % 96)).collect();
    links.extend((96..NODES).map(|exit| (3 * (exit - 96), exit)));
    let exits: Vec<u16> = (96..NODES).collect();
    let study = without_trips(NODES, &links, &exits).into();
    for place in 0..exits.len() {
        expect(&study, place, |node| node < 96);
    }
}

/// Two rings with no link between them, their nodes in turn.
#[test]
fn two_rings() {
    let links: Vec<_> = (0..NODES).map(|node| (node, (node + 2) % NODES)).collect();
    let destinations: Vec<u16> = (0..32).collect();
    let study = without_trips(NODES, &links, &destinations).into();
    for place in 0..32 {
        expect(&study, usize::from(place), |node| node % 2 == place % 2);
    }
}

/// A closed node's own mark is set, and nothing is marked through it unless it is
/// the destination.
#[test]
fn closed_nodes() {
    for closed in WORD_ENDS {
        let chain = |links: &[_], destination| {
            without_trips(NODES, links, &[destination]).closing(&[closed])
        };
        expect(&chain(&ascending(), closed), 0, |node| node < closed);
        expect(&chain(&descending(), closed), 0, |node| node > closed);
        if closed < 127 {
            let study = chain(&ascending(), 127);
            expect(&study, 0, |node| node >= closed);
        }
        if closed > 0 {
            let study = chain(&descending(), 0);
            expect(&study, 0, |node| node <= closed);
        }
    }
}

/// The nodes with a path, marked link by link until nothing changes.
fn fixed_point(study: &Versioned, destination: u16) -> Vec<bool> {
    let open = |node: u16| match &study.closed {
        Some(closed) => closed[usize::from(node)] == 0,
        None => true,
    };
    let mut marked = vec![false; usize::from(study.draft.nodes)];
    marked[usize::from(destination)] = true;
    let mut changed = true;
    while changed {
        changed = false;
        for &[tail, head, ..] in &study.draft.links {
            let leads = marked[usize::from(head)] && (open(head) || head == destination);
            if leads && !marked[usize::from(tail)] {
                marked[usize::from(tail)] = true;
                changed = true;
            }
        }
    }
    marked
}

/// Thin random networks of both versions, of which parts do not reach others.
#[test]
fn thin_networks() {
    let mut dice = Dice::new(113);
    let mut told = [0; 2];
    for turn in 0..600 {
        let nodes = dice.between(2, [8, 33, 66, 128][turn % 4]) as u16;
        let links = dice.between(1, 4 * u64::from(nodes));
        let ends: Vec<_> = (0..links)
            .map(|_| {
                let tail = dice.below(u64::from(nodes)) as u16;
                let step = dice.between(1, u64::from(nodes) - 1) as u16;
                (tail, (tail + step) % nodes)
            })
            .collect();
        let destinations: Vec<u16> = (0..nodes).filter(|_| dice.once_in(4)).take(32).collect();
        if destinations.is_empty() {
            continue;
        }
        let draft = without_trips(nodes, &ends, &destinations);
        let study = if turn % 2 == 0 {
            draft.into()
        } else {
            let closed: Vec<u16> = (0..nodes).filter(|_| dice.once_in(3)).collect();
            draft.closing(&closed)
        };
        for (place, &destination) in destinations.iter().enumerate() {
            let marked = fixed_point(&study, destination);
            for node in (0..nodes).filter(|&node| node != destination) {
                if nodes < 12 || dice.once_in(8) {
                    let found = reaches(&study, place, node);
                    assert_eq!(found, marked[usize::from(node)], "turn {turn}, node {node}");
                    told[usize::from(found)] += 1;
                }
            }
        }
    }
    assert!(told[0] > 5_000 && told[1] > 5_000, "{told:?}");
}
