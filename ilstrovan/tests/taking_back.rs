//! Notes and taking back (request A.6) with studies of versions 1 to 3.

mod common;
mod noted;
mod pair;
mod sessions;
mod studies;

use noted::{Why, damaged, doubling};
use second::draft::{Dice, Draft, DraftLink, Plan, Versioned};
use sessions::{Session, Tally, expect, many_destinations, sessions, started};
use studies::{large_closed, powered, small_closed};

/// What a note is not refused for before version 4.
const WITHOUT_LORRIES: &[Why] = &[Why::BarredLink];

#[test]
fn small_studies() {
    let study = |dice: &mut Dice| Plan::small(dice).draft(dice).into();
    let absent = &[Why::ClosedNode, Why::BarredLink];
    expect(&sessions(6_001, 120_000, study), 3_000, 300, absent);
}

#[test]
fn small_studies_with_closed_nodes() {
    let tally = sessions(6_002, 120_000, small_closed);
    expect(&tally, 3_000, 300, WITHOUT_LORRIES);
}

#[test]
fn small_studies_with_powers() {
    let study = |dice: &mut Dice| {
        let study = small_closed(dice);
        powered(dice, study)
    };
    let tally = sessions(6_003, 120_000, study);
    expect(&tally, 3_000, 300, WITHOUT_LORRIES);
}

/// Up to 32 destinations, of which whole groups of eight have no trips.
#[test]
fn studies_of_many_destinations() {
    let study = |dice: &mut Dice| {
        let study = many_destinations(dice);
        any_version(dice, study)
    };
    let tally = sessions(6_004, 12_000, study);
    expect(&tally, 500, 60, WITHOUT_LORRIES);
}

#[test]
fn large_studies() {
    let study = |dice: &mut Dice| {
        let study = large_closed(dice);
        any_version(dice, study)
    };
    let tally = sessions(6_005, 6_000, study);
    expect(&tally, 300, 30, WITHOUT_LORRIES);
}

/// A study of version 2, in version 1, 2 or 3.
fn any_version(dice: &mut Dice, study: Versioned) -> Versioned {
    match dice.below(3) {
        0 => study.draft.into(),
        1 => study,
        _ => study.with_some_powers(dice),
    }
}

/// Ways through all nodes, of which there are up to 128, and the same cut off or
/// turned back anywhere.
#[test]
fn longest_ways() {
    let mut dice = Dice::new(6_006);
    let mut tally = Tally::default();
    let mut longest = 0;
    while tally.pair.calls < 12_000 {
        let (study, links) = way_through_all(&mut dice);
        longest = longest.max(links.len());
        let share = dice.pick(&[1, 2, 9, 500]);
        let step = dice.pick(&[1, 3, 64, 524]);
        let note = note_of(&study, &links, step);
        let judged = started(&study, share);
        let mut table = judged.clone();
        study.add_noted(&note, &mut table);
        let grown = share + u32::from(step);
        let mut session = Session::new(&mut tally, &study, table.clone(), grown);
        let left = session.take_back(&table, grown, &note);
        assert!(left == Some((judged, share)));
        for _ in 0..12 {
            let other = damaged(&mut dice, &study, &note, grown);
            session.take_back(&table, grown, &other);
        }
    }
    assert_eq!(longest, 127);
    let refused = tally.refused;
    assert!(refused[Why::Round as usize] > 1_000, "{refused:?}");
    assert!(refused[Why::NoLink as usize] > 1_000, "{refused:?}");
}

/// A study whose destination is reached from some node by links through all the
/// others, and these links.
fn way_through_all(dice: &mut Dice) -> (Versioned, Vec<u16>) {
    let nodes = dice.pick(&[2, 3, 9, 40, 64, 65, 127, 128]);
    let order = shuffled(dice, (0..nodes).collect());
    let (first, last) = (order[0], order[order.len() - 1]);
    let mut trips = vec![0; usize::from(nodes)];
    trips[usize::from(first)] = dice.pick(&[1, 900, 60_000]);
    trips[usize::from(dice.pick(&order[..order.len() - 1]))] = 2;
    let links = links_through(dice, &order);
    let draft = Draft {
        nodes,
        destinations: vec![last],
        trips: vec![trips],
        links: links.clone(),
    };
    let closed = dice.pick(&[[first, last], [first, first], [last, last]]);
    let study = any_version(dice, draft.closing(&closed));
    let way = order.windows(2).map(|ends| {
        let link = links.iter().position(|link| link[..2] == *ends);
        link.expect("a link of the way") as u16
    });
    (study, way.collect())
}

/// Links through nodes in this order, and others, in any order.
fn links_through(dice: &mut Dice, order: &[u16]) -> Vec<DraftLink> {
    let way = order.windows(2).map(|ends| [ends[0], ends[1], 9, 5, 7]);
    let mut links: Vec<DraftLink> = way.collect();
    for _ in 0..dice.index(3 * order.len()) {
        let tail = dice.index(order.len());
        let head = (tail + 1 + dice.index(order.len() - 1)) % order.len();
        links.push([order[tail], order[head], 12, 3, 2]);
    }
    shuffled(dice, links)
}

fn shuffled<T>(dice: &mut Dice, mut values: Vec<T>) -> Vec<T> {
    for place in 1..values.len() {
        values.swap(place, dice.index(place + 1));
    }
    values
}

/// The note with these links, each for its tail, for a single destination.
fn note_of(study: &Versioned, links: &[u16], step: u16) -> Vec<u16> {
    let mut note = doubling(study);
    note[0] = step;
    for &link in links {
        let [tail, ..] = study.draft.links[usize::from(link)];
        note[1 + usize::from(tail)] = link;
    }
    note
}
