//! Networks with closed nodes at random, and at the limits.

use super::{List, largest, paper};
use crate::draft::{Dice, Draft, Plan, Versioned, grid};

/// A small or middling study with closed nodes.
fn study(dice: &mut Dice, turn: usize) -> Versioned {
    let plan = Plan::small(dice);
    let (wide, high) = (dice.between(2, 4) as u16, dice.between(2, 3) as u16);
    let crowd = Plan {
        destinations: dice.between(2, 6),
        time: 200,
        capacity: 15,
        trips: 25,
        tenths: 8,
        ..plan
    };
    match turn % 4 {
        0 => plan.draft(dice).closing_some(dice, 2),
        1 => {
            let links = grid(dice, wide, high, 512, 200, 15);
            let draft = crowd.with_links(dice, wide * high, links);
            draft.closing_some(dice, 2)
        }
        2 => {
            let links = grid(dice, wide, high, 512, 200, 15);
            let draft = crowd.with_links(dice, wide * high, links);
            let destinations = draft.destinations.clone();
            let mut study = draft.closing(&destinations);
            study.drop_pathless_trips();
            study
        }
        _ => {
            let links = grid(dice, wide, high, 512, 200, 15);
            crowd.with_zones(dice, wide * high, 4, links)
        }
    }
}

/// Random studies of version 2: runs, passes after runs, audits and tables
/// that wander, by permitted links and by others.
pub(super) fn random_studies(list: &mut List) {
    let mut dice = Dice::new(22);
    for turn in 0..8 {
        let study = study(&mut dice, turn);
        let file = study.file();
        let page = 30 * study.draft.links.len();
        list.start(&file, vec![dice.any_u32(); study.draft.table_length()]);
        let mut share = 1;
        list.pass_on(&file, &mut share);
        list.audit_on(&file, share);
        let mut share = list.run_on(&file, dice.pick(&[20, 1_024, 1_024]), 0);
        list.pass_on(&file, &mut share);
        list.audit_on(&file, share);
        list.page_on(&file, share, paper(page - usize::from(turn % 5 == 4)));

        let share = [1, 1_024, 64, 1_024, 3][turn % 5];
        let mut table = study.wandering_table(&mut dice, share);
        if turn % 2 == 0 {
            study.add_cycle(&mut dice, &mut table, share);
        }
        list.audit(&file, table.clone(), share);
        list.pass_on(&file, &mut share.clone());
        // The same trips through closed nodes, or a cycle through one.
        if turn % 3 == 0 {
            study.draft.add_cycle(&mut dice, &mut table, 1);
        } else {
            table = study.draft.wandering_table(&mut dice, share);
        }
        list.audit(&file, table, share);
    }
}

/// Flows whose sum at a node is wrong by 2³², and right ones beside them.
pub(super) fn sums_beyond_32_bits(list: &mut List) {
    let draft = Draft {
        nodes: 4,
        links: vec![[0, 1, 3, 3, 900]; 66],
        destinations: vec![0, 1, 2, 3],
        trips: vec![vec![0; 4], vec![65_535, 0, 0, 0], vec![0; 4], vec![0; 4]],
    };
    let most: u32 = 1_024 * 65_535;
    // One link has it all; or all have as much as they may, but for what
    // makes the sum 2³² too much.
    let mut right = vec![0; 264];
    right[66] = most;
    let mut wrong = right.clone();
    wrong[66..132].fill(most);
    wrong[131] -= (66 * u64::from(most) - u64::from(most) - (1 << 32)) as u32;
    for closed in [[].as_slice(), &[1], &[0, 2, 3]] {
        let file = draft.clone().closing(closed).file();
        list.audit(&file, right.clone(), 1_024);
        list.audit(&file, wrong.clone(), 1_024);
    }
}

/// The same study in version 1 and, with all nodes open, in version 2.
pub(super) fn twins(list: &mut List) {
    let mut dice = Dice::new(23);
    for capacity in [3, 30] {
        let links = grid(&mut dice, 3, 2, 512, 90, capacity);
        let plan = Plan {
            destinations: 3,
            trips: 12,
            tenths: 8,
            ..Plan::small(&mut dice)
        };
        let draft = plan.with_links(&mut dice, 6, links);
        let share = dice.pick(&[1, 10, 1_024]);
        let mut table = draft.wandering_table(&mut dice, share);
        draft.add_cycle(&mut dice, &mut table, 1);
        let output = draft.packed_length() + 8 + usize::from(draft.nodes);
        for file in [draft.file(), draft.clone().closing(&[]).file()] {
            list.check(&file);
            list.pack(&file, vec![1; output]);
            list.audit(&file, table.clone(), share);
            list.page_on(&file, share, paper(30 * draft.links.len()));
            list.pass_on(&file, &mut share.clone());
            list.run_on(&file, 40, 0);
            list.start(&file, vec![3; table.len()]);
        }
    }
}

/// Two studies with closed nodes, 128 nodes, 512 links and 32 destinations.
fn largest_two(dice: &mut Dice) -> [Versioned; 2] {
    let plan = Plan {
        nodes: (128, 128),
        links: (512, 512),
        destinations: 32,
        time: 300,
        capacity: 300,
        trips: 30,
        tenths: 9,
    };
    // Streets 12 by 8 and 32 zones beside them.
    let links = grid(dice, 12, 8, 384, 300, 300);
    let mut zones = plan.with_zones(dice, 96, 32, links);
    zones.draft.links.resize(512, [0, 95, 900, 9, 9]);
    // A grid 16 by 8 with some nodes closed, the last one among them.
    let mut closed = largest(dice, 300).closing_some(dice, 1);
    if let Some(last) = closed.closed.as_mut().and_then(|bytes| bytes.last_mut()) {
        *last = 1;
    }
    closed.drop_pathless_trips();
    [zones, closed]
}

/// Closed nodes with 128 nodes, 512 links and 32 destinations.
pub(super) fn full_limits(list: &mut List) {
    let studies = largest_two(&mut Dice::new(24));
    for study in &studies {
        let file = study.file();
        list.check(&file);
        list.pack(&file, vec![0; study.packed_length() - 1]);
        list.pack(&file, vec![0; study.packed_length()]);
        list.start(&file, vec![5; 40]);
    }
    // One table goes through all calls, which spares the stream others of its
    // length.
    list.run(&studies[0].file(), vec![7; 32 * 512], 25, 0);
    for study in &studies {
        let share = list.through_all_calls(&study.file(), 3, 60);
        // The other study's closed nodes are others.
        list.audit_on(&studies[0].file(), share);
    }
}
