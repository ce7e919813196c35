//! Closed nodes: where flow goes, which tables are accepted, who has a path.

use super::{List, paper};
use crate::draft::{Draft, DraftLink, Versioned};

impl List {
    /// Check, pack, start, pass, run, audit and page with one study, the pass,
    /// the audit and the page of the table that the start makes.
    fn all_seven(&mut self, study: &Versioned) {
        let file = study.file();
        let length = study.draft.table_length();
        self.check(&file);
        self.pack(&file, vec![0x3C; study.packed_length() + 1]);
        self.start(&file, vec![0xFACE; length]);
        self.audit_on(&file, 1);
        self.page_on(&file, 1, paper(30 * study.draft.links.len()));
        self.pass_on(&file, &mut 1);
        let share = self.run_on(&file, 9, 0);
        self.page_on(&file, share, paper(30 * study.draft.links.len()));
    }

    /// A table by audit, pass and page.
    fn table(&mut self, file: &[u8], table: &[u32], share: u32, page: usize) {
        self.audit(file, table.to_vec(), share);
        self.pass(file, table.to_vec(), share);
        self.page(file, table, share, paper(page));
    }
}

/// From 0 to 2 by the zone 1 or round it; the zone has trips of its own.
fn middle() -> Draft {
    Draft {
        nodes: 3,
        links: vec![[0, 1, 5, 4, 2], [1, 2, 5, 4, 2], [0, 2, 15, 9, 1]],
        destinations: vec![2],
        trips: vec![vec![2, 1, 0]],
    }
}

/// The zone in the middle, open in both versions and closed.
pub(super) fn zone_in_the_middle(list: &mut List) {
    for study in [
        Versioned::from(middle()),
        middle().closing(&[]),
        middle().closing(&[1]),
    ] {
        list.all_seven(&study);
        let file = study.file();
        for (table, share) in [([2, 3, 0], 1), ([0, 1_024, 2_048], 1_024)] {
            list.table(&file, &table, share, 90);
        }
        list.run(&file, vec![1; 4], 1_024, 0);
    }
}

/// Nodes 1 and 3 are destinations, node 1 is closed; links into it come from
/// 0 and from 2.
pub(super) fn crossing() -> Draft {
    Draft {
        nodes: 4,
        links: vec![
            [0, 1, 10, 20, 3],
            [1, 2, 10, 20, 3],
            [0, 2, 30, 20, 3],
            [2, 3, 10, 20, 3],
            [2, 1, 10, 20, 3],
            [3, 0, 10, 20, 3],
        ],
        destinations: vec![1, 3],
        trips: vec![vec![2, 0, 0, 1], vec![3, 2, 0, 0]],
    }
}

/// Tables with flow into a closed node, to it and to others.
pub(super) fn flow_into_a_zone(list: &mut List) {
    let file = crossing().closing(&[1]).file();
    let twin = crossing().file();
    // All to 1 by link 0, all to 3 past 1.
    let to_1 = [3, 0, 0, 0, 0, 1];
    let to_3 = [0, 2, 3, 5, 0, 0];
    // The same trips the other way: to 1 by 2, to 3 through 1. The total on
    // link 0 is the same, and on link 4 it is to 1.
    let past_1 = [0, 0, 3, 0, 3, 1];
    let through_1 = [3, 5, 0, 5, 0, 0];
    for rows in [
        [to_1, to_3],
        [past_1, through_1],
        [to_1, through_1],
        [past_1, to_3],
    ] {
        list.table(&file, &rows.concat(), 1, 180);
        list.audit(&twin, rows.concat(), 1);
        let finer: Vec<u32> = rows.concat().iter().map(|flow| 7 * flow).collect();
        list.pass(&file, finer, 7);
    }
    // From 1 to 2 and back: to 1 it leaves its destination and comes back, to
    // 3 it goes through 1. So does what goes round by 0, 1 and 2 to 3.
    let straight = [to_1, to_3].concat();
    for round in [[1, 4].as_slice(), &[7, 10], &[0, 1, 3, 5], &[6, 7, 9, 11]] {
        for amount in [1, 8] {
            let mut table = straight.clone();
            round.iter().for_each(|&place| table[place] += amount);
            list.audit(&file, table, 1);
            list.pass_on(&file, &mut 1);
        }
    }
}

/// Question 20 after 16 and before 18.
pub(super) fn order_of_table_questions(list: &mut List) {
    let file = crossing().closing(&[1]).file();
    let through = vec![3, 0, 0, 0, 0, 1, 3, 5, 0, 5, 0, 0];
    for (share, page) in [(0, 180), (1, 179), (2, 179), (1_025, 0)] {
        list.table(&file, &through, share, page);
    }
    // One more on the link into the closed node alone, or too much of it.
    for (place, number) in [(6, 4), (6, 9), (10, 1)] {
        let mut table = through.clone();
        table[place] = number;
        list.table(&file, &table, 1, 179);
    }
    // The longest table that is too short, and one that is longer.
    list.table(&file, &through[..11], 1, 179);
    list.table(&file, &[through.as_slice(), &[1]].concat(), 1, 179);
    // Start and run make their own tables: what was lent does not matter.
    list.start(&file, through.clone());
    list.audit_on(&file, 1);
    list.run(&file, through, 20, 0);
}

/// Destinations without trips, whose flow may go round as well.
pub(super) fn idle_destinations(list: &mut List) {
    let mut draft = crossing();
    draft.destinations = vec![0, 1, 2, 3];
    draft.trips = vec![vec![0; 4], vec![5, 0, 0, 0], vec![0; 4], vec![0; 4]];
    for closed in [[1].as_slice(), &[1, 2], &[]] {
        let file = draft.clone().closing(closed).file();
        for row in 0..4 {
            let mut table = vec![0; 24];
            table[6] = 5;
            table[6 * row + 1] += 2;
            table[6 * row + 4] += 2;
            list.audit(&file, table, 1);
        }
        list.pass_on(&file, &mut 1);
    }
}

/// Next links where a forbidden link would fit by its time, or be shorter.
pub(super) fn next_links(list: &mut List) {
    // By 1 or by 2, at equal times; link 0 leads by 1.
    let ways = |time: u16| Draft {
        nodes: 4,
        links: vec![
            [0, 1, time, 3, 4],
            [0, 2, 5, 3, 4],
            [1, 3, 5, 3, 4],
            [2, 3, 5, 3, 4],
        ],
        destinations: vec![3],
        trips: vec![vec![6, 2, 1, 0]],
    };
    for time in [4, 5, 6] {
        for closed in [[].as_slice(), &[1], &[0, 1, 3]] {
            let file = ways(time).closing(closed).file();
            list.start(&file, vec![0; 4]);
            list.run_on(&file, 12, 0);
        }
    }
}

/// From 0 straight to a closed destination or by 1, at equal times, with the
/// straight link first, last or twice. One destination, and four.
pub(super) fn ties_at_a_closed_destination(list: &mut List) {
    let straight: DraftLink = [0, 2, 10, 6, 5];
    let by_1: [DraftLink; 2] = [[0, 1, 4, 6, 5], [1, 2, 6, 6, 5]];
    let back: [DraftLink; 2] = [[2, 3, 1, 1, 9], [3, 0, 1, 1, 9]];
    for links in [
        [vec![straight], by_1.to_vec()].concat(),
        [by_1.to_vec(), vec![straight]].concat(),
        [vec![by_1[1], straight], vec![by_1[0], straight]].concat(),
    ] {
        let links = [links, back.to_vec()].concat();
        for destinations in [vec![2], vec![0, 1, 2, 3]] {
            let trips = |s: u16| vec![9 * u16::from(s == 2), 0, 0, 0];
            let draft = Draft {
                nodes: 4,
                links: links.clone(),
                trips: destinations.iter().map(|&s| trips(s)).collect(),
                destinations,
            };
            for closed in [[2].as_slice(), &[1, 2]] {
                let file = draft.clone().closing(closed).file();
                list.start(&file, vec![8; draft.table_length()]);
                list.run_on(&file, 30, 0);
            }
        }
    }
}

/// A line 0 1 2 3 both ways, with trips to both ends.
fn line() -> Draft {
    Draft {
        nodes: 4,
        links: vec![
            [0, 1, 3, 1, 2],
            [1, 2, 3, 1, 2],
            [2, 3, 3, 1, 2],
            [3, 2, 3, 1, 2],
            [2, 1, 3, 1, 2],
            [1, 0, 3, 1, 2],
        ],
        destinations: vec![0, 3],
        trips: vec![vec![0, 1, 0, 0], vec![0, 0, 4, 0]],
    }
}

/// Studies with a path as long as a node is open, and none when it is closed.
pub(super) fn paths(list: &mut List) {
    let line = line();
    for closed in (0_u8..16).step_by(3) {
        let closed = (0..4).map(|node| closed >> node & 1).collect();
        list.check(&line.clone().with_closed(closed).file());
    }
    for (position, node) in [(0, 2), (0, 3), (1, 0), (1, 1)] {
        let mut other = line.clone();
        other.trips[position][node] = 1;
        for closed in [[].as_slice(), &[1], &[2], &[0, 3]] {
            list.check(&other.clone().closing(closed).file());
        }
        let file = other.closing(&[1, 2]).file();
        match node {
            0 => list.start(&file, vec![5; 12]),
            1 => list.run(&file, vec![5; 12], 3, 0),
            2 => drop(list.pass(&file, vec![5; 12], 1)),
            _ => list.page(&file, &[0; 12], 1, paper(9)),
        }
    }
}

/// A destination that is closed and on the way to another one, before it and
/// after it in the list of destinations.
pub(super) fn paths_by_a_destination(list: &mut List) {
    let line = line();
    for destinations in [vec![1, 2], vec![1, 3], vec![0, 1]] {
        let mut other = line.clone();
        other.trips = vec![vec![0; 4]; 2];
        for (row, &destination) in other.trips.iter_mut().zip(&destinations) {
            row.iter_mut().for_each(|count| *count = 1);
            row[usize::from(destination)] = 0;
        }
        other.destinations = destinations;
        for closed in [[].as_slice(), &[1], &[2], &[0, 3]] {
            list.start(&other.clone().closing(closed).file(), vec![5; 12]);
        }
    }
}

/// Many destinations on a ring, and one that only a node outside reaches.
pub(super) fn paths_to_many(list: &mut List) {
    let mut links: Vec<DraftLink> = (0..10)
        .map(|node| [node, (node + 1) % 10, 2, 1, 3])
        .collect();
    links.extend([[10, 0, 2, 1, 3], [10, 11, 2, 1, 3], [4, 12, 2, 1, 3]]);
    let destinations: Vec<u16> = vec![0, 1, 2, 3, 5, 7, 11, 12];
    let mut draft = Draft {
        nodes: 13,
        links,
        trips: vec![vec![0; 13]; 8],
        destinations,
    };
    // From the node outside everybody is reached; from the ring, 11 is not.
    draft.trips.iter_mut().for_each(|trips| trips[10] = 1);
    for (position, node) in [(0, 9), (6, 3), (7, 5), (7, 11), (5, 12)] {
        let mut other = draft.clone();
        other.trips[position][node] = 1;
        for closed in [[].as_slice(), &[10, 11, 12]] {
            list.check(&other.clone().closing(closed).file());
        }
    }
    list.check(&draft.clone().closing(&[4]).file());
    list.start(&draft.closing(&[10, 11]).file(), vec![0; 104]);
}

/// All nodes closed: trips go over one link only.
pub(super) fn all_closed(list: &mut List) {
    let town = Draft::town().closing(&[0, 1]);
    list.all_seven(&town);
    list.table(&town.file(), &[16, 2], 9, 60);
    let mut star = Draft {
        nodes: 4,
        links: vec![
            [0, 3, 9, 9, 1],
            [1, 3, 9, 9, 1],
            [2, 3, 9, 9, 1],
            [0, 3, 12, 0, 1],
            [3, 0, 4, 0, 1],
            [0, 1, 1, 0, 1],
        ],
        destinations: vec![0, 3],
        trips: vec![vec![0, 0, 0, 2], vec![3, 1, 1, 0]],
    };
    let file = star.clone().closing(&[0, 1, 2, 3]).file();
    list.start(&file, vec![6; 12]);
    list.run_on(&file, 30, 0);
    // From the destination and back is permitted; through 1 is not.
    for table in [
        [0, 0, 0, 0, 2, 0, 3, 1, 1, 0, 0, 0],
        [1, 0, 0, 0, 3, 0, 3, 1, 1, 0, 0, 0],
        [0, 0, 0, 0, 2, 0, 3, 1, 1, 2, 2, 0],
        [0, 0, 0, 0, 2, 0, 0, 4, 1, 0, 0, 3],
    ] {
        list.audit(&file, table.to_vec(), 1);
    }
    star.trips[0][1] = 1;
    list.check(&star.closing(&[0, 1, 2, 3]).file());
}
