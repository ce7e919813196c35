//! Links with powers of their own: their times, wherever these count.

use super::past_the_curve::line;
use super::{List, paper, side_by_side};
use crate::draft::{Draft, Versioned};

impl List {
    /// A table by audit and by page.
    fn audit_and_page(&mut self, file: &[u8], table: &[u32], share: u32, links: usize) {
        self.audit(file, table.to_vec(), share);
        self.page_on(file, share, paper(30 * links));
    }
}

/// The town of two roads with each power on link 0, and with others on link 1,
/// which has no rise.
pub(super) fn town(list: &mut List) {
    for (power, other) in [(1, 4), (2, 1), (3, 2), (4, 3)] {
        let file = Draft::town().with_powers(vec![power, other]).file();
        list.start(&file, vec![7, 9]);
        list.pass(&file, vec![2, 0], 1);
        list.judge(&file, &[16, 0], 8);
        list.audit(&file, vec![16, 2], 9);
        list.pass(&file, vec![511, 1_537], 1_024);
        for (budget, excess) in [(3, 0), (10, 4), (1_024, 0)] {
            list.run(&file, vec![5, 6, 7], budget, excess);
        }
        list.page(&file, &[13, 1], 7, paper(60));
        // At four times capacity.
        let file = side_by_side(&[[10, 10, 2], [15, 0, 1]], 9)
            .with_powers(vec![power, other])
            .file();
        list.audit_and_page(&file, &[8, 1], 1, 2);
    }
}

/// Times at steps on both sides of every edge of the curve, for every power
/// with small and large rises.
pub(super) fn steps(list: &mut List) {
    let rises = [1, 63, 64, 65, 16_383];
    let mut roads = Vec::new();
    let mut powers = Vec::new();
    for power in 1..=4 {
        roads.extend(rises.map(|rise| [power, rise, 64]));
        powers.extend([power; 5]);
    }
    // The last one takes the trips that are left.
    roads.push([16_383, 16_383, 65_535]);
    powers.push(1);
    let file = side_by_side(&roads, 6_000).with_powers(powers).file();
    for step in [0, 1, 2, 31, 32, 63, 64, 65, 127, 128, 255, 256, 257] {
        let mut table = vec![step; 20];
        table.push(6_000 - 20 * step);
        list.audit_and_page(&file, &table, 1, 21);
    }
    // A part of a trip short of the step.
    for step in [1, 63, 64, 65, 255, 256] {
        let mut table = vec![1_000 * step - 1; 20];
        table.push(6_000_000 - 20 * (1_000 * step - 1));
        list.page(&file, &table, 1_000, paper(630));
    }
}

/// The longest times, the most trips and the largest share, with every power.
pub(super) fn extremes(list: &mut List) {
    let roads = [[16_383, 16_383, 1]; 4];
    let file = side_by_side(&roads, 65_535)
        .with_powers(vec![1, 2, 3, 4])
        .file();
    for link in 0..4 {
        let mut table = [0; 4];
        table[link] = 1_024 * 65_535;
        list.audit(&file, table.to_vec(), 1_024);
        list.pass_on(&file, &mut 1_024);
    }
    let part = 65_535 * 256;
    list.audit_and_page(&file, &[part; 4], 1_024, 4);
    // Around and around, so that all links are as full as they may be.
    let mut draft = side_by_side(&roads, 65_535);
    draft.links.extend([[1, 0, 16_383, 16_383, 1]; 3]);
    for powers in [[1; 7], [2; 7], [3; 7], [4; 7], [4, 1, 2, 3, 1, 2, 3]] {
        let file = draft.clone().with_powers(powers.to_vec()).file();
        list.audit(&file, vec![1_024 * 65_535; 7], 1_024);
    }
    // No rise, and the least of all.
    for rise in [0, 1] {
        let file = side_by_side(&[[1, rise, 65_535]; 4], 65_535)
            .with_powers(vec![4, 3, 2, 1])
            .file();
        list.run(&file, vec![0; 4], 200, 0);
    }
}

/// Two roads with each pair of powers: which moves are made.
pub(super) fn choices(list: &mut List) {
    for first in 1..=4 {
        for second in 1..=4 {
            let roads = [[10, 700, 3], [30, 400, 2]];
            let file = side_by_side(&roads, 9)
                .with_powers(vec![first, second])
                .file();
            list.run(&file, vec![1; 2], 1_024, 0);
            if (first + second) % 4 == 1 {
                let share = list.player.table.iter().sum::<u32>() / 9;
                list.pass_and_audit(&file, share);
            }
        }
    }
    // From the start to where there is no move.
    let roads = [[10, 90, 2], [12, 80, 2], [14, 70, 2], [16, 60, 2]];
    let file = side_by_side(&roads, 12)
        .with_powers(vec![4, 3, 2, 1])
        .file();
    list.start(&file, vec![3; 5]);
    let mut share = 1;
    for _ in 0..8 {
        list.pass_on(&file, &mut share);
    }
    list.audit_on(&file, share);
    list.page_on(&file, share, paper(120));
}

/// Links past the curve with every power.
pub(super) fn past_the_curve(list: &mut List) {
    let hop: &[[u16; 3]] = &[[10, 10, 255], [11, 10, 65_535]];
    let study = line(&[hop; 4], 1_021).with_powers(vec![1, 1, 2, 2, 3, 3, 4, 4]);
    let file = study.file();
    for share in [1, 64, 1_024] {
        let (all, exactly) = (1_021 * share, 1_020 * share);
        for totals in [[exactly - 1; 4], [exactly; 4], [0, exactly, all, exactly]] {
            let table = totals.iter().flat_map(|&total| [total, all - total]);
            list.audit(&file, table.collect(), share);
        }
    }
    // Runs that stay past the curve, and passes that leave it.
    for power in 1..=4 {
        let roads = [[10, 7_777, 3], [11, 5_555, 2], [700, 2_000, 9]];
        let file = side_by_side(&roads, 60).with_powers(vec![power; 3]).file();
        list.pass(&file, vec![60, 0, 0], 1);
        list.run(&file, vec![9; 3], 1_024, 0);
    }
}

/// From 0 to 2 by the zone 1 or round it, with powers and the zone open and
/// closed.
pub(super) fn closed_nodes(list: &mut List) {
    let draft = Draft {
        nodes: 3,
        links: vec![[0, 1, 5, 40, 2], [1, 2, 5, 40, 3], [0, 2, 15, 90, 1]],
        destinations: vec![1, 2],
        trips: vec![vec![2, 0, 0], vec![8, 4, 0]],
    };
    let powers = vec![2, 1, 3];
    let open = draft.clone().with_powers(powers.clone());
    for study in [
        open.clone().closing(&[1]),
        draft.closing(&[0, 1, 2]).with_powers(powers),
        open,
    ] {
        let file = study.file();
        list.start(&file, vec![3; 6]);
        list.pass_and_audit(&file, 1);
        let share = list.run_on(&file, 200, 0);
        list.page_on(&file, share, paper(90));
        // Through the zone, and with one byte of a page too few.
        list.audit(&file, vec![2, 0, 0, 8, 12, 0], 1);
        list.page_on(&file, 1, paper(89));
    }
}

/// A study of version 2 and the same with all powers 4.
pub(super) fn twins(list: &mut List) {
    let draft = Draft {
        nodes: 4,
        links: vec![
            [0, 1, 10, 40, 2],
            [1, 2, 10, 40, 3],
            [0, 3, 15, 40, 2],
            [3, 2, 15, 40, 2],
            [2, 0, 9, 9, 9],
        ],
        destinations: vec![0, 2],
        trips: vec![vec![0, 1, 1, 1], vec![9, 2, 0, 3]],
    };
    let study = draft.closing(&[3]);
    for study in [study.clone(), study.with_powers(vec![4; 5])] {
        list.all_calls(&study);
    }
}

impl List {
    /// All calls but taking back for one study, tables by a start and passes.
    pub(super) fn all_calls(&mut self, study: &Versioned) {
        let file = study.file();
        let links = study.draft.links.len();
        self.check(&file);
        self.pack(&file, vec![1; study.packed_length() + 1]);
        self.start(&file, vec![2; study.table_length() + 1]);
        let mut share = 1;
        for _ in 0..3 {
            self.pass_on(&file, &mut share);
        }
        self.audit_on(&file, share);
        self.page_on(&file, share, paper(30 * links + 1));
        self.run_on(&file, 200, 0);
    }
}
