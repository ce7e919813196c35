//! Studies with lorries at random, whole and with faults, and the largest.

use crate::studies::{large_closed, powered, small_closed};
use second::draft::{Dice, Plan, Versioned, grid};
use second::questions::LARGEST_TOTAL;

/// The study in version 4: some without lorry trips, some with lorries only, some
/// with no link barred to them or with all.
pub fn with_lorries(dice: &mut Dice, study: Versioned) -> Versioned {
    let tenths = dice.pick(&[0, 2, 5, 9, 10]);
    let mut study = study.with_some_lorries(dice, tenths);
    if dice.once_in(8) {
        study.draft.trips.iter_mut().for_each(|trips| trips.fill(0));
    }
    let tenths = dice.pick(&[0, 0, 1, 1, 2, 3, 5, 10]);
    study.barring_some(dice, tenths)
}

/// A small study with lorries, one in four without closed nodes, half of them with
/// powers.
pub fn small(dice: &mut Dice) -> Versioned {
    let study = small_closed(dice);
    let study = match dice.below(4) {
        0 => study.draft.into(),
        1 => study,
        _ => powered(dice, study),
    };
    with_lorries(dice, study)
}

/// A study of 40 to 128 nodes with lorries and powers.
pub fn large(dice: &mut Dice) -> Versioned {
    let study = large_closed(dice);
    let study = powered(dice, study);
    with_lorries(dice, study)
}

/// The study, one in six with what only version 4 is refused for.
pub fn with_a_fault(dice: &mut Dice, study: Versioned) -> Versioned {
    let links = study.draft.links.len();
    match dice.below(30) {
        0 => lorries_to_themselves(dice, &study),
        1 => most_lorries(dice, &study),
        2 => study.barring(&Vec::from_iter(0..links)),
        3 => {
            let mut barred = vec![0; links];
            barred[dice.index(links)] = dice.pick(&[2, 3, 128, 255]);
            study.with_barred(barred)
        }
        4 => {
            let length = dice.pick(&[0, links - 1, links + 1]);
            study.with_barred(vec![0; length])
        }
        _ => study,
    }
}

/// The study with lorry trips from a destination to itself.
fn lorries_to_themselves(dice: &mut Dice, study: &Versioned) -> Versioned {
    let position = dice.index(study.draft.destinations.len());
    let node = study.draft.destinations[position];
    let trips = dice.pick(&[1, 2, 65_535]);
    sending(study, position, node, trips)
}

/// The study with so many lorry trips from one node, which may have no path, that
/// those of both classes are at the limit, or one above it.
fn most_lorries(dice: &mut Dice, study: &Versioned) -> Versioned {
    let position = dice.index(study.draft.destinations.len());
    let node = dice.below(u64::from(study.draft.nodes)) as u16;
    let others = sending(study, position, node, 0).total();
    let trips = u64::from(LARGEST_TOTAL) - others + dice.below(2);
    sending(study, position, node, trips.min(65_535) as u16)
}

/// The study with so many lorry trips from a node to the destination at a
/// position.
fn sending(study: &Versioned, position: usize, node: u16, trips: u16) -> Versioned {
    let mut lorries = study.lorries.clone().expect("there are lorries");
    lorries[position][usize::from(node)] = trips;
    study.clone().with_lorries(lorries)
}

/// 128 nodes, 512 links, 32 destinations, closed nodes, powers and barred links.
pub fn largest(dice: &mut Dice) -> Versioned {
    let mut links = grid(dice, 16, 8, 512, 300, 300);
    while links.len() < 512 {
        links.push(dice.pick(&links));
    }
    let plan = Plan {
        nodes: (2, 2),
        links: (1, 1),
        destinations: 32,
        time: 1,
        capacity: 1,
        trips: 9,
        tenths: 9,
    };
    let mut draft = plan.with_links(dice, 128, links);
    while draft.destinations.len() < 32 {
        draft = plan.with_links(dice, 128, draft.links);
    }
    let study = draft.closing_some(dice, 1).with_some_powers(dice);
    let study = study.with_some_lorries(dice, 5);
    study.barring_some(dice, 1)
}
