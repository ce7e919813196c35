//! Networks with lorries at random, and at the limits.

use super::power_networks::{crowded, made_tables};
use super::taking_back_networks::{made_notes_of_study, moves_of_study, some_study};
use super::{List, largest, paper};
use crate::draft::{Dice, Draft, Plan, Versioned, grid};

/// A small or middling study with lorries, of several kinds.
fn study(dice: &mut Dice, turn: usize) -> Versioned {
    let study = some_study(dice, turn);
    let (some, barred) = ([3, 7, 9][turn % 3], [2, 0, 1, 4][turn % 4]);
    let mut study = study.with_some_lorries(dice, some);
    if turn == 5 {
        // Lorries only.
        study.draft.trips.iter_mut().for_each(|trips| trips.fill(0));
    }
    study.barring_some(dice, barred)
}

/// Random studies with tables of all kinds: made by passes and runs, wandering,
/// with cycles, damaged, and by links that lorries or all must keep off.
pub(super) fn random_studies(list: &mut List) {
    let mut dice = Dice::new(34);
    for turn in 0..10 {
        let study = study(&mut dice, turn);
        let gap: Vec<u8> = (0..20).map(|_| dice.roll() as u8).collect();
        let gaps = [(); 7].map(|()| &gap[..dice.index(20)]);
        let file = match turn % 3 {
            0 => study.file_with_gaps(&gaps),
            _ => study.file(),
        };
        list.start(&file, vec![dice.any_u32(); study.table_length() + turn % 2]);
        let mut share = 1;
        list.note_on(&file, &mut share, study.note_length() + turn % 4);
        list.pass_on(&file, &mut share);
        list.audit_on(&file, share);
        let mut share = list.run_on(&file, dice.pick(&[20, 1_024, 1_024]), 0);
        list.pass_on(&file, &mut share);
        list.take_back_on(&file, &mut share, None);
        let page = 30 * study.draft.links.len();
        list.page_on(&file, share, paper(page - usize::from(turn % 5 == 4)));
        made_tables(list, &mut dice, &study, &file);
        let share = dice.pick(&[1, 7, 1_024]);
        let table = study.table_by_any_links(&mut dice, share);
        list.audit(&file, table, share);
    }
}

/// Moves of random studies taken back by the notes that they left and by damaged
/// ones, and notes that nobody's passes have made.
pub(super) fn notes(list: &mut List) {
    let mut dice = Dice::new(35);
    for turn in 0..7 {
        let study = study(&mut dice, turn);
        moves_of_study(list, &mut dice, &study, turn);
        made_notes_of_study(list, &mut dice, &study, turn);
    }
}

/// Larger networks, crowded, in which runs take long.
pub(super) fn long_runs(list: &mut List) {
    let mut dice = Dice::new(36);
    for capacity in [20, 90] {
        let (streets, zones) = crowded(&mut dice, capacity);
        for study in [streets.into(), zones.with_some_powers(&mut dice)] {
            let study = study.with_some_lorries(&mut dice, 4);
            let study = study.barring_some(&mut dice, 1);
            let file = study.file();
            list.run(&file, vec![1; study.table_length()], 60, 0);
            let mut share = list.run_on(&file, 1_024, 2);
            list.note_on(&file, &mut share, study.note_length());
            list.audit_on(&file, share);
        }
    }
}

/// Street grids to most of whose destinations only cars go, or only lorries, or
/// nobody.
pub(super) fn idle_destinations(list: &mut List) {
    let mut dice = Dice::new(37);
    list.start(&sparse(&mut dice).file(), vec![6; 2 * 20 * 80]);
    for kind in 0..4 {
        let mut study = sparse(&mut dice).with_some_lorries(&mut dice, 6);
        let lorries = study.lorries.as_mut().expect("there are lorries");
        for (position, (cars, lorries)) in study.draft.trips.iter_mut().zip(lorries).enumerate() {
            if position % 4 != kind || kind == 3 {
                cars.fill(0);
            }
            if position % 3 != kind {
                lorries.fill(0);
            }
        }
        let study = study.barring_some(&mut dice, 1);
        list.moves_and_back(&study, [1, 8, 14, 5][kind]);
    }
}

/// A street grid 6 by 4 with 20 destinations.
fn sparse(dice: &mut Dice) -> Draft {
    let links = grid(dice, 6, 4, 80, 90, 30);
    let plan = Plan {
        nodes: (2, 2),
        links: (1, 1),
        destinations: 20,
        time: 90,
        capacity: 30,
        trips: 9,
        tenths: 7,
    };
    let mut draft = plan.with_links(dice, 24, links);
    while draft.destinations.len() < 20 {
        draft = plan.with_links(dice, 24, draft.links);
    }
    draft
}

/// Studies with one count at its limit.
pub(super) fn single_limits(list: &mut List) {
    let mut dice = Dice::new(38);
    for (nodes, links, destinations) in [
        (2, 1, 1),
        (2, 512, 2),
        (128, 1, 1),
        (128, 300, 2),
        (32, 64, 32),
    ] {
        let plan = Plan {
            nodes: (nodes, nodes),
            links: (links, links),
            destinations,
            time: 90,
            capacity: 9,
            trips: 20,
            tenths: 9,
        };
        let draft = plan.with_every_destination(&mut dice);
        let study = draft.with_some_lorries(&mut dice, 5);
        let study = study.barring_some(&mut dice, 1);
        let file = study.file();
        list.pack(&file, vec![1; study.packed_length()]);
        list.start(&file, vec![0x77; study.table_length()]);
        let mut share = list.moves_and_back(&study, 9);
        list.note_on(&file, &mut share, study.note_length() - 1);
    }
}

/// Studies with 128 nodes, 512 links and 32 destinations: the largest there are,
/// with 32,768 numbers in a table and 8,193 in a note.
pub(super) fn full_limits(list: &mut List) {
    let mut dice = Dice::new(39);
    let draft = largest(&mut dice, 250);
    let mixed = draft.clone().with_some_powers(&mut dice);
    let mixed = mixed.closing_some(&mut dice, 1);
    let mixed = mixed.with_some_lorries(&mut dice, 4);
    let mixed = mixed.barring_some(&mut dice, 1);
    let plain = draft.with_some_lorries(&mut dice, 9);
    let plain = plain.barring(&[0, 17, 255, 256, 300, 511]);

    let file = mixed.file();
    list.check(&file);
    list.pack(&file, vec![0; mixed.packed_length()]);
    list.start(&file, vec![5; 40]);
    // One table goes through all calls, and one note through most, which spares
    // the stream others of their length.
    list.run(&file, vec![7; 2 * 32 * 512 + 3], 20, 0);
    list.note_on(&file, &mut 1, 40);
    let mut share = list.run_on(&file, 20, 0);
    list.note_on(&file, &mut share, 8_195);
    list.take_back_on(&file, &mut share, None);
    for study in [&mixed, &plain] {
        let file = study.file();
        let mut share = list.through_all_calls(&file, 4, 30);
        for _ in 0..2 {
            list.pass_on(&file, &mut share);
            list.take_back_on(&file, &mut share, None);
            list.pass_on(&file, &mut share);
        }
        list.audit_on(&file, share);
    }
    let mut file = plain.file();
    let share = list.run_on(&file, 25, 0);
    list.last_number_of_a_note(&plain, share);
    // A barred byte above 1 in the last place.
    *file.last_mut().expect("there are barred bytes") = 2;
    list.run_on(&file, 3, 0);
}
