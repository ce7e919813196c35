//! Networks with powers at random, and at the limits.

use super::{List, largest, paper};
use crate::draft::{Dice, Draft, Plan, Versioned, grid};

/// A small or middling study with powers, of several kinds.
fn study(dice: &mut Dice, turn: usize) -> Versioned {
    let plan = Plan::small(dice);
    let (wide, high) = (dice.between(2, 4) as u16, dice.between(2, 3) as u16);
    let crowd = Plan {
        destinations: dice.between(2, 5),
        time: 200,
        capacity: 15,
        trips: 25,
        tenths: 8,
        ..plan
    };
    let links = grid(dice, wide, high, 512, 200, 15);
    let nodes = wide * high;
    let study = match turn % 4 {
        0 => plan.draft(dice).into(),
        1 => plan.draft(dice).closing_some(dice, 2),
        2 => crowd.with_links(dice, nodes, links).into(),
        _ => crowd.with_zones(dice, nodes, 3, links),
    };
    study.with_some_powers(dice)
}

/// Random studies of version 3 with tables of all kinds: made by passes and
/// runs, wandering, with cycles, damaged.
pub(super) fn random_studies(list: &mut List) {
    let mut dice = Dice::new(26);
    for turn in 0..8 {
        let study = study(&mut dice, turn);
        let gap: Vec<u8> = (0..20).map(|_| dice.roll() as u8).collect();
        let gaps = [(); 5].map(|()| &gap[..dice.index(20)]);
        let file = match turn % 3 {
            0 => study.file_with_gaps(&gaps),
            _ => study.file(),
        };
        let page = 30 * study.draft.links.len();
        list.start(&file, vec![dice.any_u32(); study.draft.table_length()]);
        let mut share = 1;
        list.pass_on(&file, &mut share);
        list.pass_on(&file, &mut share);
        list.audit_on(&file, share);
        let mut share = list.run_on(&file, dice.pick(&[20, 1_024, 1_024]), 0);
        list.pass_on(&file, &mut share);
        list.page_on(&file, share, paper(page - usize::from(turn % 5 == 4)));
        made_tables(list, &mut dice, &study, &file);

        // A few bytes changed somewhere in the links.
        let mut other = file.clone();
        for _ in 0..2 {
            let place = 40 + dice.index(12 * study.draft.links.len());
            other[place] = dice.pick(&[0, 1, 2, 3, 4, 5, 255]);
        }
        list.check(&other);
    }
}

/// Tables that nobody's passes have made.
pub(super) fn made_tables(list: &mut List, dice: &mut Dice, study: &Versioned, file: &[u8]) {
    let share = dice.pick(&[1, 3, 10, 64, 513, 1_000, 1_024]);
    let mut table = study.wandering_table(dice, share);
    list.judge(file, &table, share);
    let amount = dice.pick(&[1, share, share * study.total() as u32 / 3]);
    if study.add_cycle(dice, &mut table, amount) {
        list.audit(file, table.clone(), share);
    }
    let place = dice.index(table.len());
    table[place] = table[place].wrapping_add(dice.pick(&[1, u32::MAX]));
    list.audit(file, table, share);
}

/// A crowded grid, its links with so much capacity at most, as streets alone and
/// with zones at its edge.
pub(super) fn crowded(dice: &mut Dice, capacity: u64) -> (Draft, Versioned) {
    let plan = Plan {
        nodes: (2, 2),
        links: (1, 1),
        destinations: 12,
        time: 120,
        capacity,
        trips: 9,
        tenths: 9,
    };
    let links = grid(dice, 6, 5, 512, 120, capacity);
    let streets = plan.with_links(dice, 30, links.clone());
    (streets, plan.with_zones(dice, 30, 8, links))
}

/// Larger networks, crowded, in which runs take long.
pub(super) fn long_runs(list: &mut List) {
    let mut dice = Dice::new(27);
    for capacity in [20, 90] {
        let (streets, zones) = crowded(&mut dice, capacity);
        for study in [
            streets.with_some_powers(&mut dice),
            zones.with_some_powers(&mut dice),
        ] {
            let file = study.file();
            list.run(&file, vec![1; study.draft.table_length()], 60, 0);
            let mut share = list.run_on(&file, 1_024, 2);
            list.pass_on(&file, &mut share);
            list.audit_on(&file, share);
        }
    }
}

/// Two studies with 128 nodes, 512 links and 32 destinations, one with every
/// power and one with powers 1 and 3 only.
pub(super) fn full_limits(list: &mut List) {
    let mut dice = Dice::new(28);
    let draft = largest(&mut dice, 250);
    let mixed = draft.clone().closing_some(&mut dice, 1);
    let mixed = mixed.with_powers((0..512).map(|_| dice.between(1, 4) as u16).collect());
    let odd = draft.with_powers((0..512).map(|_| dice.pick(&[1, 3])).collect());

    let file = mixed.file();
    list.check(&file);
    list.pack(&file, vec![0; mixed.packed_length() - 1]);
    list.pack(&file, vec![0; mixed.packed_length()]);
    list.run(&file, vec![7; 32 * 512], 40, 0);
    for study in [mixed, odd] {
        list.through_all_calls(&study.file(), 4, 30);
    }
}
