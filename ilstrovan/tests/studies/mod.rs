//! Studies at random, whole and with faults, and blank notes for them.

use second::draft::{Dice, Draft, Plan, Versioned, grid};

/// A small study of version 2, most of them with trips.
pub fn small_closed(dice: &mut Dice) -> Versioned {
    loop {
        let study = any_closed(dice);
        if study.draft.total() > 0 || dice.once_in(8) {
            return study;
        }
    }
}

/// A study of few links or, two in three, of several ways round: from none to
/// all of its nodes closed, or zones beside streets.
fn any_closed(dice: &mut Dice) -> Versioned {
    let mut plan = Plan::small(dice);
    if !dice.once_in(3) {
        plan.nodes = (3, 7);
        plan.links = (10, 24);
    }
    let draft = plan.draft(dice);
    if dice.once_in(3) {
        let zones = dice.between(1, 4) as u16;
        return plan.with_zones(dice, draft.nodes, zones, draft.links);
    }
    let tenths = dice.between(0, 10);
    closing(dice, draft, tenths)
}

/// The study with so many nodes in ten closed. In one of eight, trips may have no
/// path.
pub fn closing(dice: &mut Dice, draft: Draft, tenths: u64) -> Versioned {
    let whole = draft.clone();
    let mut study = draft.closing_some(dice, tenths);
    if dice.once_in(8) {
        study.draft = whole;
    }
    study
}

/// The study in version 3. In one of twenty a power is not 1 to 4.
pub fn powered(dice: &mut Dice, study: Versioned) -> Versioned {
    let mut study = study.with_some_powers(dice);
    if let Some(powers) = &mut study.powers
        && dice.once_in(20)
    {
        let link = dice.index(powers.len());
        powers[link] = dice.pick(&[0, 5, 6, 255, 256, 257, 260, 1_024, 65_535]);
    }
    study
}

/// How a study of 40 to 128 nodes is to turn out.
fn large_plan(dice: &mut Dice) -> Plan {
    Plan {
        nodes: (40, 128),
        links: (100, 512),
        destinations: 32,
        time: dice.pick(&[2, 60, 500, 16_383]),
        capacity: dice.pick(&[3, 100, 900, 65_535]),
        trips: dice.pick(&[1, 14, 30, 900]),
        tenths: dice.between(1, 10),
    }
}

/// A study of 40 to 128 nodes, a street grid or any network.
pub fn large(dice: &mut Dice) -> Versioned {
    let plan = large_plan(dice);
    if dice.once_in(2) {
        return plan.draft(dice).into();
    }
    let (wide, high) = dice.pick(&[(8, 8), (16, 8), (25, 5), (42, 3)]);
    let links = grid(dice, wide, high, 512, plan.time, plan.capacity);
    plan.with_links(dice, wide * high, links).into()
}

/// The same with some nodes closed, or zones beside a grid.
pub fn large_closed(dice: &mut Dice) -> Versioned {
    if dice.once_in(2) {
        let tenths = dice.pick(&[0, 1, 1, 2, 3, 5, 10]);
        let draft = large(dice).draft;
        return closing(dice, draft, tenths);
    }
    let plan = large_plan(dice);
    let (wide, high) = dice.pick(&[(8, 8), (12, 8), (16, 6), (24, 4)]);
    let zones = dice.between(1, 32) as u16;
    let most = 512 - 4 * usize::from(zones);
    let links = grid(dice, wide, high, most, plan.time, plan.capacity);
    plan.with_zones(dice, wide * high, zones, links)
}

/// The study with every node open and no link barred.
pub fn open(study: &Versioned) -> Versioned {
    Versioned {
        closed: None,
        barred: None,
        ..study.clone()
    }
}

/// A note that holds a pattern: one time in twelve too short.
pub fn blank_note(dice: &mut Dice, study: &Versioned) -> Vec<u16> {
    let enough = study.note_length();
    let length = match dice.below(24) {
        0 => dice.index(enough),
        1 => enough - 1,
        2 | 3 => enough + dice.index(9),
        _ => enough,
    };
    let first = dice.index(65_536);
    (first..first + length)
        .map(|number| number as u16)
        .collect()
}
