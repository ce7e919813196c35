//! Networks on which moves are made and taken back: destinations without trips,
//! nodes without a path, studies at random, damaged notes, and the limits.

use super::{List, largest, patterned_note, side_by_side};
use crate::draft::{Dice, Draft, DraftLink, Plan, Versioned, grid};
use crate::least_times::NO_LINK;

impl List {
    /// A run over the table that was left last, two moves of where it ends, and
    /// both of them back. Hands back the share of the run.
    pub(super) fn moves_and_back(&mut self, study: &Versioned, budget: u32) -> u32 {
        let (file, length) = (study.file(), study.note_length());
        let mut share = self.run_on(&file, budget, 0);
        let first = self.note_on(&file, &mut share, length);
        self.note_on(&file, &mut share, length);
        self.audit_on(&file, share);
        self.take_back_on(&file, &mut share, None);
        self.take_back_on(&file, &mut share, Some(&first));
        self.audit_on(&file, share);
        share
    }

    /// A move of the table that was left last, and its note taken back with the
    /// last number that is looked at wrong, and one number too short.
    pub(super) fn last_number_of_a_note(&mut self, study: &Versioned, mut share: u32) {
        let (file, length) = (study.file(), study.note_length());
        let mut note = self.note_on(&file, &mut share, length);
        let trips: Vec<u16> = study.rows().concat();
        let last = trips.iter().rposition(|&count| count > 0);
        note[1 + last.expect("there are trips")] = NO_LINK;
        self.take_back_on(&file, &mut share.clone(), Some(&note));
        self.take_back_on(&file, &mut share, Some(&note[..length - 1]));
    }
}

/// A street grid with this many destinations, of which every `every`th one has
/// trips; none for 0.
fn idle_grid(dice: &mut Dice, destinations: u64, every: usize) -> Draft {
    let links = grid(dice, 6, 6, 110, 90, 30);
    let plan = Plan {
        nodes: (2, 2),
        links: (1, 1),
        destinations,
        time: 90,
        capacity: 30,
        trips: 9,
        tenths: 7,
    };
    let mut draft = plan.with_links(dice, 36, links.clone());
    while (draft.destinations.len() as u64) < destinations {
        draft = plan.with_links(dice, 36, links.clone());
    }
    for (position, trips) in draft.trips.iter_mut().enumerate() {
        if every == 0 || position % every != every - 1 {
            trips.fill(0);
        }
    }
    draft
}

/// Destinations to which nobody goes, alone and in groups of eight and more.
pub(super) fn destinations_without_trips(list: &mut List) {
    let mut dice = Dice::new(29);
    list.start(&Draft::town().file(), vec![6; 32 * 110]);
    for (destinations, every) in [
        (1, 0),
        (3, 2),
        (8, 0),
        (9, 9),
        (17, 17),
        (32, 2),
        (32, 12),
        (32, 32),
        (32, 0),
    ] {
        let draft = idle_grid(&mut dice, destinations, every);
        let study = match every % 3 {
            0 => draft.into(),
            1 => draft.with_some_powers(&mut dice),
            _ => draft.closing_some(&mut dice, 2),
        };
        list.moves_and_back(&study, [1, 8, 14][every % 3]);
    }
}

/// Nodes without a path, and destinations that nobody reaches.
pub(super) fn nodes_without_a_path(list: &mut List) {
    // 3 and 4 go round by themselves, 5 has only a way in, 6 only a way out,
    // and 7 nothing at all.
    let draft = Draft {
        nodes: 8,
        links: vec![
            [0, 1, 10, 10, 2],
            [1, 2, 15, 7, 1],
            [0, 2, 20, 9, 4],
            [3, 4, 6, 9, 4],
            [4, 3, 1, 1, 1],
            [2, 5, 2, 2, 2],
            [6, 0, 3, 90, 1],
            [2, 0, 3, 90, 1],
        ],
        destinations: vec![1, 2, 3, 5, 6, 7],
        trips: vec![vec![0; 8]; 6],
    };
    let mut busy = draft.clone();
    busy.trips[1][0] = 3;
    busy.trips[1][6] = 1;
    busy.trips[2][4] = 2;
    busy.trips[3][1] = 5;
    list.start(&busy.file(), vec![4; 48]);
    for study in [
        draft.into(),
        busy.clone().into(),
        busy.clone().closing(&[1, 3, 5, 6]),
        busy.with_powers(vec![1, 2, 3, 4, 1, 2, 3, 4]),
    ] {
        list.moves_and_back(&study, 6);
    }
}

/// A small or middling study of any version.
pub(super) fn some_study(dice: &mut Dice, turn: usize) -> Versioned {
    let plan = Plan::small(dice);
    let (wide, high) = (dice.between(2, 4) as u16, dice.between(2, 3) as u16);
    let crowd = Plan {
        destinations: dice.between(2, 9),
        time: 200,
        capacity: 15,
        trips: 25,
        tenths: dice.between(2, 8),
        ..plan
    };
    let links = grid(dice, wide, high, 512, 200, 15);
    let nodes = wide * high;
    match turn % 6 {
        0 => plan.draft(dice).into(),
        1 => plan.draft(dice).closing_some(dice, 3),
        2 => crowd.with_links(dice, nodes, links).into(),
        3 => crowd
            .with_links(dice, nodes, links)
            .closing_some(dice, 2)
            .with_some_powers(dice),
        4 => crowd.with_zones(dice, nodes, 3, links),
        _ => crowd.with_links(dice, nodes, links).with_some_powers(dice),
    }
}

/// Moves of random studies taken back by the notes that they left, and by notes
/// with a number changed.
pub(super) fn random_studies(list: &mut List) {
    let mut dice = Dice::new(30);
    for turn in 0..10 {
        let study = some_study(&mut dice, turn);
        moves_of_study(list, &mut dice, &study, turn);
    }
}

/// Moves of a study taken back by the notes that they left, and by others.
pub(super) fn moves_of_study(list: &mut List, dice: &mut Dice, study: &Versioned, turn: usize) {
    let (file, length) = (study.file(), study.note_length());
    let table = vec![dice.any_u32(); study.table_length() + turn % 2];
    list.run(&file, table, 1 + turn as u32, 0);
    let mut share = list.run_on(&file, 12, 0);
    for _ in 0..3 {
        list.note_on(&file, &mut share, length + turn % 3);
        if list.player.note[0] > 0 {
            break;
        }
    }
    let (table, note) = (list.player.table.clone(), list.player.note.clone());
    let reached = share;
    list.take_back_on(&file, &mut share, None);
    list.audit_on(&file, share);
    for _ in 0..4 {
        let damaged = damaged_note(dice, study, &note);
        list.take_back(&file, &table, reached, &damaged);
    }
}

/// A note with one or two numbers changed, mostly those of nodes with trips.
fn damaged_note(dice: &mut Dice, study: &Versioned, note: &[u16]) -> Vec<u16> {
    let draft = &study.draft;
    let trips: Vec<u16> = study.rows().concat();
    let mut other = note.to_vec();
    for _ in 0..dice.between(1, 2) {
        let mut place = dice.index(trips.len());
        for _ in 0..8 {
            if trips[place] == 0 {
                place = dice.index(trips.len());
            }
        }
        let node = (place % usize::from(draft.nodes)) as u16;
        let own: Vec<usize> = (0..draft.links.len())
            .filter(|&link| draft.links[link][0] == node)
            .collect();
        other[1 + place] = match dice.below(6) {
            0 => NO_LINK,
            1 => draft.links.len() as u16,
            2 => dice.index(draft.links.len()) as u16,
            _ if own.is_empty() => dice.any_u32() as u16,
            _ => dice.pick(&own) as u16,
        };
    }
    if dice.once_in(5) {
        other[0] = dice.pick(&[0, 1, note[0] + 1, 1_024]);
    }
    other
}

/// Notes that nobody's passes have made, and tables that have their loadings
/// or have not.
pub(super) fn made_notes(list: &mut List) {
    let mut dice = Dice::new(31);
    for turn in 0..9 {
        let study = some_study(&mut dice, turn);
        made_notes_of_study(list, &mut dice, &study, turn);
    }
}

/// The same for one study.
pub(super) fn made_notes_of_study(
    list: &mut List,
    dice: &mut Dice,
    study: &Versioned,
    turn: usize,
) {
    let file = study.file();
    let share = dice.pick(&[1, 2, 9, 500]);
    let step = dice.pick(&[1, 2, 64, 65, 524]);
    let note = study.some_note(dice, step);
    let mut table = study.wandering_table(dice, share);
    let before = table.clone();
    study.add_noted(&note, &mut table);
    let grown = share + u32::from(step);
    list.take_back(&file, &table, grown, &note);
    list.audit_on(&file, share);
    // One part of a trip too few of some flow, another note, another share.
    if study.add_cycle(dice, &mut table, 1) {
        list.take_back(&file, &table, grown, &note);
    }
    let other = study.some_note(dice, step);
    list.take_back(&file, &table, grown, &other);
    if turn.is_multiple_of(4) {
        list.take_back(&file, &before, share, &note);
        list.pass_with(&file, &before, share, &note);
    }
}

/// A line of 128 nodes, walked from end to end, and cut or turned round
/// somewhere.
pub(super) fn long_line(list: &mut List) {
    let links: Vec<DraftLink> = (0..127)
        .flat_map(|node| [[node, node + 1, 9, 5, 1], [node + 1, node, 9, 5, 1]])
        .collect();
    let mut trips = vec![0; 128];
    trips[0] = 65_535;
    let draft = Draft {
        nodes: 128,
        links,
        destinations: vec![127],
        trips: vec![trips],
    };
    let file = draft.file();
    let mut note: Vec<u16> = (0..129).map(|place| 2 * place).collect();
    note.rotate_right(1);
    for (step, share) in [
        (1_023, 1_024),
        (1_024, 1_024),
        (64, 65),
        (0, 1_024),
        (0, 1_023),
    ] {
        let table: Vec<u32> = (0..254)
            .map(|link| (1 - link % 2) * 65_535 * share)
            .collect();
        note[0] = step;
        list.take_back(&file, &table, share, &note);
    }
    note[0] = 1;
    list.start(&file, vec![0; 254]);
    let mut share = 1;
    list.pass_on(&file, &mut share);
    for (place, link) in [
        (127, 251),
        (127, 254),
        (2, 1),
        (64, 125),
        (128, 253),
        (1, 0),
    ] {
        let mut other = note.clone();
        other[place] = link;
        list.take_back_on(&file, &mut share, Some(&other));
    }
}

/// Studies with one count at its limit.
pub(super) fn single_limits(list: &mut List) {
    let mut dice = Dice::new(32);
    list.start(&Draft::town().file(), vec![6; 1_100]);
    for (nodes, links, destinations) in [
        (2, 1, 1),
        (2, 512, 2),
        (128, 1, 1),
        (128, 300, 2),
        (32, 34, 32),
    ] {
        let plan = Plan {
            nodes: (nodes, nodes),
            links: (links, links),
            destinations,
            time: 90,
            capacity: 9,
            trips: 20,
            tenths: 9,
        };
        let draft = plan.with_every_destination(&mut dice);
        let study = match links % 3 {
            0 => draft.with_some_powers(&mut dice),
            1 => draft.closing_some(&mut dice, 1),
            _ => draft.into(),
        };
        let mut share = list.moves_and_back(&study, 9);
        list.note_on(&study.file(), &mut share, study.note_length() - 1);
    }
}

/// Numbers around the last of 512 links.
pub(super) fn most_links(list: &mut List) {
    let file = side_by_side(&[[10, 10, 2]; 512], 4).file();
    list.start(&file, vec![6; 512]);
    let mut share = 1;
    list.note_on(&file, &mut share, 3);
    for link in [512, 1_024, 511, 1, 0] {
        list.take_back_on(&file, &mut share, Some(&[1, link, 65_535]));
    }
}

/// Studies of every version with 128 nodes, 512 links and 32 destinations.
pub(super) fn full_limits(list: &mut List) {
    let mut dice = Dice::new(33);
    let draft = largest(&mut dice, 250);
    let mut partly_idle = draft.clone();
    partly_idle.trips[3..27]
        .iter_mut()
        .for_each(|trips| trips.fill(0));

    list.start(&draft.file(), vec![7; 32 * 512]);
    list.take_back_on(&draft.file(), &mut 1, Some(&patterned_note(4_096)));
    for study in [
        Versioned::from(draft.clone()),
        partly_idle.closing_some(&mut dice, 1),
        draft.with_some_powers(&mut dice),
    ] {
        let share = list.moves_and_back(&study, 25);
        list.last_number_of_a_note(&study, share);
    }
}
