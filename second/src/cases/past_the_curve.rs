//! Links past the curve: how many are on step 256, wherever a table is judged.

use super::{List, paper, side_by_side};
use crate::draft::{Dice, Draft, DraftLink, Plan, Versioned, grid};

impl List {
    /// A table by audit and by pass, and what the pass leaves by audit.
    pub(super) fn judge(&mut self, file: &[u8], table: &[u32], share: u32) {
        self.audit(file, table.to_vec(), share);
        self.pass_and_audit(file, share);
    }

    /// A pass on the table as the call before left it, and an audit of what
    /// the pass leaves.
    pub(super) fn pass_and_audit(&mut self, file: &[u8], mut share: u32) {
        self.pass_on(file, &mut share);
        self.audit_on(file, share);
    }
}

/// The town's two roads with other trips.
fn town_with(trips: u16) -> Vec<u8> {
    side_by_side(&[[10, 10, 2], [15, 0, 1]], trips).file()
}

/// A line of nodes, each with these roads to the one after it. All trips go
/// from the first node to the last.
pub(super) fn line(hops: &[&[[u16; 3]]], trips: u16) -> Draft {
    let mut links: Vec<DraftLink> = Vec::new();
    for (tail, roads) in (0..).zip(hops) {
        links.extend(roads.iter().map(|&[a, b, c]| [tail, tail + 1, a, b, c]));
    }
    let last = hops.len() as u16;
    let mut from = vec![0; hops.len() + 1];
    from[0] = trips;
    Draft {
        nodes: last + 1,
        links,
        destinations: vec![last],
        trips: vec![from],
    }
}

/// P2, P3 and P4, and other flows on the town's roads.
pub(super) fn town(list: &mut List) {
    list.judge(&town_with(8), &[8, 0], 1);
    list.audit(&town_with(9), vec![9, 0], 1);
    list.judge(&town_with(8), &[511, 1], 64);
    list.audit(&town_with(8), vec![4, 4], 1);
    // Numbers after the first p·m do not count.
    list.audit(&town_with(12), vec![8, 4, 900, 900], 1);
    list.audit(&town_with(12), vec![7, 5], 1);
}

/// Totals at four times capacity: on one link a part of a trip less, on two
/// exactly so much, on four a part more.
pub(super) fn edges(list: &mut List) {
    for (capacity, shares) in [
        (1, [1, 3, 49, 64, 1_023, 1_024].as_slice()),
        (2, &[1, 3, 64, 1_023, 1_024]),
        (49, &[1]),
        (255, &[1, 3, 64, 1_023, 1_024]),
        (16_285, &[809]),
        (16_383, &[1, 3, 64, 1_023, 1_024]),
        // Four times as much is more than there are trips.
        (16_384, &[1_024]),
        (32_768, &[512]),
        (65_535, &[1, 1_024]),
    ] {
        let trips = capacity.min(16_383) * 4 + if capacity < 16_384 { 1 } else { 3 };
        let hop: &[[u16; 3]] = &[[10, 10, capacity], [11, 10, 65_535]];
        let file = line(&[hop; 7], trips).file();
        for &share in shares {
            let all = share * u32::from(trips);
            let exactly = (4 * share * u32::from(capacity)).min(all - 1);
            let totals = [[exactly - 1].as_slice(), &[exactly; 2], &[exactly + 1; 4]].concat();
            let table = totals.iter().flat_map(|&total| [total, all - total]);
            list.audit(&file, table.collect(), share);
        }
    }
    // All above the edge, and below it after the move.
    let hop: &[[u16; 3]] = &[[10, 10, 255], [11, 10, 65_535]];
    let file = line(&[hop; 7], 1_021).file();
    list.judge(&file, &[1_020 * 1_023, 1_023].repeat(7), 1_023);
}

/// Roads without a rise, whose time is the same on every step.
pub(super) fn no_rise(list: &mut List) {
    let roads = [[10, 0, 1], [10, 0, 2], [10, 0, 3], [9, 0, 65_535]];
    let file = side_by_side(&roads, 23).file();
    for table in [[3, 8, 12, 0], [4, 7, 11, 1]] {
        list.audit(&file, table.to_vec(), 1);
    }
    for trips in [3, 4] {
        list.run(&side_by_side(&[[10, 0, 1]], trips).file(), vec![1], 9, 0);
    }
}

/// From 0 by one of two links to 1, and on to 2 and 3.
fn fork(trips: [u16; 3]) -> Draft {
    Draft {
        nodes: 4,
        links: vec![
            [0, 1, 10, 40, 2],
            [1, 2, 10, 40, 900],
            [1, 3, 10, 40, 900],
            [0, 1, 90, 40, 900],
        ],
        destinations: vec![1, 2, 3],
        trips: trips.map(|count| vec![count, 0, 0, 0]).to_vec(),
    }
}

/// Flows to several destinations, which count together and once.
pub(super) fn destinations(list: &mut List) {
    for trips in [[3, 3, 2], [3, 3, 1], [8, 9, 10]] {
        let file = fork(trips).file();
        list.start(&file, vec![5; 12]);
        list.pass_on(&file, &mut 1);
    }
    // Flow to 0, which has no trips, goes to and fro beside the trips to 1.
    let draft = Draft {
        nodes: 2,
        links: vec![[0, 1, 10, 10, 2], [0, 1, 15, 0, 4], [1, 0, 5, 5, 1]],
        destinations: vec![0, 1],
        trips: vec![vec![0, 0], vec![8, 0]],
    };
    let file = draft.file();
    list.audit(&file, vec![3, 0, 3, 5, 3, 0], 1);
    list.audit(&file, vec![28, 0, 28, 28, 28, 0], 7);
    list.judge(&file, &[15, 1, 16, 17, 15, 0], 4);
}

/// From 0 to 2 by the zone 1 or round it, in both versions, with the zone open
/// and closed.
pub(super) fn versions(list: &mut List) {
    let draft = Draft {
        nodes: 3,
        links: vec![[0, 1, 5, 4, 2], [1, 2, 5, 4, 3], [0, 2, 15, 9, 1]],
        destinations: vec![2],
        trips: vec![vec![8, 4, 0]],
    };
    let closed = draft.clone().closing(&[1]);
    for study in [draft.clone().closing(&[]), draft.into(), closed.clone()] {
        let file = study.file();
        list.start(&file, vec![3; 3]);
        list.pass_and_audit(&file, 1);
    }
    // Through the closed zone.
    list.audit(&closed.file(), vec![8, 12, 0], 1);
}

/// Passes after which more links count, or fewer, or as many.
pub(super) fn moves(list: &mut List) {
    // From narrow roads to wide ones, and the other way.
    let hop: &[[u16; 3]] = &[[10, 10, 2], [15, 0, 900]];
    list.judge(&line(&[hop; 3], 8).file(), &[8, 0].repeat(3), 1);
    let hop: &[[u16; 3]] = &[[10, 0, 1], [20, 5, 900]];
    list.judge(&line(&[hop; 3], 8).file(), &[0, 40].repeat(3), 5);
    // Every move to the second road makes it the dearer one, so the table is
    // doubled. Of the roads after them one is at four times capacity, one at
    // less than that and more than half of it.
    let file = line(
        &[&[[10, 10, 2], [15, 9_000, 1]], &[[5, 7, 3]], &[[5, 7, 2]]],
        8,
    )
    .file();
    list.start(&file, vec![6; 4]);
    let mut share = 1;
    list.pass_on(&file, &mut share);
    list.pass_on(&file, &mut share);
    list.audit_on(&file, share);
    // At the largest share there is no move.
    list.judge(&file, &[8_192, 0, 8_192, 8_192], 1_024);
}

/// Runs with every ending.
pub(super) fn runs(list: &mut List) {
    let roads = [
        [10, 7_777, 3],
        [11, 5_555, 2],
        [12, 900, 1],
        [500, 60, 2],
        [700, 2_000, 9],
    ];
    let file = side_by_side(&roads, 60).file();
    for budget in [1, 2, 3, 6] {
        list.run(&file, vec![9; 6], budget, 0);
    }
    let share = list.run_on(&file, 1_024, 0);
    list.pass_and_audit(&file, share);
    for excess in [4_000, 65_535] {
        list.run(&file, vec![9; 5], 1_024, excess);
    }
}

/// Up to 512 links side by side, each at four times its capacity.
pub(super) fn all_links(list: &mut List) {
    let roads: Vec<[u16; 3]> = (0..512).map(|link| [10 + link % 7, link % 5, 1]).collect();
    let file = side_by_side(&roads, 4 * 512).file();
    list.judge(&file, &[4; 512], 1);
    let mut table = vec![4 * 1_024 - 1; 512];
    table[511] += 512;
    list.audit(&file, table, 1_024);
    // So many links from the first one on, or up to the last one.
    for (count, place) in [(256, 255), (255, 511)] {
        let mut table = vec![0; 512];
        table[place + 1 - count..=place].fill(4);
        table[place] = 4 * 513 - 4 * count as u32;
        list.audit(&file, table, 1);
    }
}

/// Refusals of tables and runs that would count links.
pub(super) fn refusals(list: &mut List) {
    let file = town_with(8);
    for (table, share) in [
        ([8, 0].as_slice(), 0),
        (&[9, 0], 1),
        (&[8, 4], 1),
        (&[8], 1),
    ] {
        list.audit(&file, table.to_vec(), share);
        list.pass(&file, table.to_vec(), share);
    }
    list.run(&file, vec![8, 0], 0, 0);
    let mut other = file.clone();
    other[0] = 9;
    list.run(&other, vec![8, 0], 5, 0);
    // A page has no count.
    list.page(&file, &[8, 0], 1, paper(60));
}

/// Crowded networks with many destinations, in both versions.
pub(super) fn networks(list: &mut List) {
    let mut dice = Dice::new(25);
    let plan = Plan {
        destinations: 6,
        time: 90,
        capacity: 6,
        trips: 14,
        tenths: 9,
        ..Plan::small(&mut dice)
    };
    let links = grid(&mut dice, 4, 3, 512, 90, 6);
    let streets = Versioned::from(plan.with_links(&mut dice, 12, links));
    let links = grid(&mut dice, 3, 3, 512, 90, 12);
    let zones = plan.with_zones(&mut dice, 9, 4, links);
    for study in [streets, zones] {
        let file = study.file();
        list.start(&file, vec![2; study.draft.table_length() + 1]);
        let mut share = 1;
        for _ in 0..3 {
            list.pass_on(&file, &mut share);
        }
        list.audit_on(&file, share);
        list.run_on(&file, 60, 0);
        let mut table = study.wandering_table(&mut dice, 10);
        study.add_cycle(&mut dice, &mut table, 70);
        list.judge(&file, &table, 10);
    }
}
