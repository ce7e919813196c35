//! Networks and tables out of the ordinary, and studies at every limit.

use second::draft::{Dice, Draft, DraftLink, Plan, Versioned, grid};
use second::staircase::Road;
use second::{
    FINEST, MOVED, PassAnswer, REACHED, SPENT, TakeBackAnswer, audit, check, pack, page, run,
    start, take_back,
};

/// A pass that is taken back where it moves the table, and made again.
#[track_caller]
fn pass(file: &[u8], table: &mut [u32], share: u32) -> PassAnswer {
    let mut note = vec![7; 8_200];
    let before = table.to_vec();
    let answer = second::pass(file, table, share, &mut note);
    if answer.outcome != MOVED {
        assert_eq!(note, vec![7; 8_200]);
        return answer;
    }
    let (after, noted) = (table.to_vec(), note.clone());
    assert_eq!(take_back(file, table, answer.share, &note), left(share));
    assert!(table == before && note == noted);
    assert_eq!(second::pass(file, table, share, &mut note), answer);
    assert!(table == after && note == noted);
    answer
}

/// A taking back that is made and leaves this share.
fn left(share: u32) -> TakeBackAnswer {
    TakeBackAnswer { refusal: 0, share }
}

fn draft(nodes: u16, links: &[DraftLink], destinations: &[u16], trips: &[&[u16]]) -> Draft {
    Draft {
        nodes,
        links: links.to_vec(),
        destinations: destinations.to_vec(),
        trips: trips.iter().map(|row| row.to_vec()).collect(),
    }
}

fn started(draft: &Draft) -> Vec<u32> {
    let mut table = vec![u32::MAX; draft.table_length()];
    assert_eq!(start(&draft.file(), &mut table), 0);
    table
}

#[test]
fn parallel_links_of_equal_time() {
    // The lowest number takes all, wherever it stands among the others.
    for first in 0..3 {
        let mut links = vec![[0, 1, 9, 4, 7]; 4];
        for link in &mut links[..first] {
            link[2] = 10;
        }
        let draft = draft(2, &links, &[1], &[&[6, 0]]);
        let mut expected = vec![0; 4];
        expected[first] = 6;
        assert_eq!(started(&draft), expected);
    }
}

#[test]
fn ties_further_away() {
    // From 0 to 3 by 1 or by 2, both 10: link 0 leads by 2.
    let links = [
        [0, 2, 4, 0, 1],
        [0, 1, 5, 0, 1],
        [1, 3, 5, 0, 1],
        [2, 3, 6, 0, 1],
        [0, 3, 11, 0, 1],
    ];
    let draft = draft(4, &links, &[3], &[&[5, 1, 0, 0]]);
    assert_eq!(started(&draft), [5, 0, 1, 5, 0]);
}

#[test]
fn destinations_are_passed_through() {
    // The only way to 2 leads through 1, which is a destination itself.
    let links = [[0, 1, 3, 1, 1], [1, 2, 3, 1, 1]];
    let draft = draft(3, &links, &[1, 2], &[&[4, 0, 0], &[5, 2, 0]]);
    assert_eq!(started(&draft), [4, 0, 5, 7]);
}

#[test]
fn nodes_without_paths() {
    // 3 and 4 go round by themselves; 5 stands alone.
    let links = [
        [0, 1, 3, 1, 1],
        [3, 4, 2, 8, 1],
        [4, 3, 2, 8, 1],
        [0, 3, 1, 0, 1],
        [1, 2, 3, 1, 1],
    ];
    let draft = draft(6, &links, &[2], &[&[4, 1, 0, 0, 0, 0]]);
    let file = draft.file();
    let table = started(&draft);
    assert_eq!(table, [4, 0, 0, 0, 5]);

    // Flow to 2 that circulates where 2 cannot be reached: it conserves, and
    // all its time is gap.
    let plain = audit(&file, &table, 1);
    let mut round = table.clone();
    round[1] += 5;
    round[2] += 5;
    let answer = audit(&file, &round, 1);
    let road = Road {
        free: 2,
        rise: 8,
        capacity: 1,
        power: 4,
    };
    assert_eq!(answer.refusal, 0);
    assert_eq!(answer.gap, plain.gap + 2 * 5 * u64::from(road.time(5, 1)));
    assert_eq!(answer.cost, plain.cost + 2 * road.area(5, 1).0);
    // Flow that goes there and stays does not conserve.
    let mut lost = table;
    lost[3] += 1;
    assert_eq!(audit(&file, &lost, 1).refusal, 16);
}

#[test]
fn cycles() {
    // A ring with trips once round but one; flow may go round the whole ring
    // for any destination, through the destination too.
    let links = [
        [0, 1, 5, 9, 3],
        [1, 2, 5, 9, 3],
        [2, 3, 5, 9, 3],
        [3, 0, 5, 9, 3],
    ];
    let draft = draft(4, &links, &[1, 3], &[&[2, 0, 1, 0], &[6, 0, 0, 0]]);
    let file = draft.file();
    let table = started(&draft);
    assert_eq!(table, [3, 0, 1, 1, 6, 6, 6, 0]);
    let plain = audit(&file, &table, 1);
    assert_eq!(plain.gap, 0);
    for row in [0, 4] {
        for amount in [0, 1, 3_u32] {
            let mut round = table.clone();
            round[row..row + 4]
                .iter_mut()
                .for_each(|flow| *flow += amount);
            let answer = audit(&file, &round, 1);
            // 9 trips in all, and 9 of them on link 0 already.
            assert_eq!(answer.refusal, if amount > 0 { 15 } else { 0 });
        }
    }
    // Where two halves of the ring have 100 trips each, there is room for 100
    // more on every link.
    let mut halves = draft.clone();
    halves.trips = vec![vec![100, 0, 0, 0], vec![0, 0, 100, 0]];
    let file = halves.file();
    let table = started(&halves);
    assert_eq!(table, [100, 0, 0, 0, 0, 0, 100, 0]);
    assert_eq!(audit(&file, &table, 1).gap, 0);
    for row in [0, 4] {
        for (amount, refusal) in [(1, 0), (7, 0), (100, 0), (101, 15)] {
            let mut round = table.clone();
            round[row..row + 4]
                .iter_mut()
                .for_each(|flow| *flow += amount);
            let answer = audit(&file, &round, 1);
            assert_eq!(answer.refusal, refusal);
            if refusal == 0 {
                assert!(answer.gap > 0);
                // A pass keeps the cycle, as a smaller part of a larger share.
                let judged = pass(&file, &mut round, 1);
                assert_eq!((judged.gap, judged.cost), (answer.gap, answer.cost));
                assert_eq!((judged.outcome, judged.share), (MOVED, 65));
                assert_eq!(round[row + 1], amount);
                assert_eq!(audit(&file, &round, 65).refusal, 0);
            }
        }
    }
}

#[test]
fn no_trips_at_any_share() {
    let links = [[0, 1, 3, 1, 1], [1, 0, 2, 8, 1], [1, 2, 7, 7, 7]];
    for destinations in [vec![1], vec![0, 1, 2]] {
        let trips = vec![vec![0; 3]; destinations.len()];
        let draft = Draft {
            nodes: 3,
            links: links.to_vec(),
            destinations,
            trips,
        };
        let file = draft.file();
        let empty = vec![0; draft.table_length()];
        for share in 1..=1_024 {
            let mut table = empty.clone();
            let answer = pass(&file, &mut table, share);
            assert_eq!((answer.refusal, answer.gap, answer.cost), (0, 0, 0));
            // Every j fits, so the largest is taken; at the end there is none.
            let (outcome, next) = match share {
                1_024 => (FINEST, 1_024),
                _ => (MOVED, (share + 64).min(1_024)),
            };
            assert_eq!((answer.outcome, answer.share), (outcome, next));
            assert_eq!(table, empty);
        }
        for place in 0..empty.len() {
            let mut table = empty.clone();
            table[place] = 1;
            assert_eq!(audit(&file, &table, 1_024).refusal, 15);
        }
        for budget in [1, 1_024] {
            let mut table = vec![8; empty.len() + 2];
            let answer = run(&file, &mut table, budget, 0);
            assert_eq!(
                (answer.ending, answer.judged, answer.share),
                (REACHED, 1, 1)
            );
            assert_eq!((answer.gap, answer.cost), (0, 0));
            assert_eq!(table, [empty.clone(), vec![8; 2]].concat());
        }
    }
}

#[test]
fn the_most_trips() {
    for capacity in [1, 400, 65_535] {
        let links = [
            [0, 1, 16_383, 16_383, capacity],
            [0, 1, 1, 16_383, capacity],
        ];
        let draft = draft(2, &links, &[1], &[&[65_535, 0]]);
        let file = draft.file();
        let mut table = started(&draft);
        assert_eq!(table, [0, 65_535]);
        let mut share = 1;
        for _ in 0..30 {
            let answer = pass(&file, &mut table, share);
            assert_eq!(answer.refusal, 0);
            share = answer.share;
            assert_eq!(table.iter().sum::<u32>(), share * 65_535);
        }
        for budget in [1, 7, 1_024] {
            let answer = run(&file, &mut table, budget, 0);
            assert_eq!(answer.refusal, 0);
            let audited = audit(&file, &table, answer.share);
            assert_eq!(
                (audited.gap, audited.cost, audited.over),
                (answer.gap, answer.cost, answer.over)
            );
        }
    }
}

/// All 512 links as full as they may be, at the highest times: the highest
/// cost and gap there are.
#[test]
fn the_fullest_table() {
    let mut links = vec![[0, 1, 16_383, 16_383, 1]; 256];
    links.extend(vec![[1, 0, 16_383, 16_383, 1]; 254]);
    links.extend([[1, 2, 16_383, 16_383, 1], [2, 0, 16_383, 16_383, 1]]);
    let draft = draft(3, &links, &[1], &[&[65_535, 0, 0]]);
    let file = draft.file();
    let full = 1_024 * 65_535_u32;
    let mut table = vec![full; 512];

    let top = 16_383 + 256 * 16_383_u64;
    let treads: u64 = (0..256_u64)
        .map(|step| 16_383 + 16_383 * step.pow(4) / 16_777_216)
        .sum();
    let area = 1_024 * treads + (64 * u64::from(full) - 256 * 1_024) * top;
    let gap = 512 * top * u64::from(full) - 1_024 * 65_535 * top;
    let answer = audit(&file, &table, 1_024);
    assert_eq!((answer.refusal, answer.gap), (0, gap));
    assert_eq!(answer.cost, 512 * area);
    assert!(answer.cost > i64::MAX as u64);
    assert_eq!(answer.over, 512);

    let judged = pass(&file, &mut table, 1_024);
    assert_eq!((judged.gap, judged.cost), (answer.gap, answer.cost));
    assert_eq!(judged.over, 512);
    assert_eq!((judged.outcome, judged.share), (FINEST, 1_024));
    assert_eq!(table, vec![full; 512]);

    table[7] += 1;
    assert_eq!(audit(&file, &table, 1_024).refusal, 15);
    table[7] -= 2;
    assert_eq!(audit(&file, &table, 1_024).refusal, 16);
}

/// Sums of flows that are wrong by 2³² are wrong, with few destinations and
/// with many.
#[test]
fn sums_beyond_32_bits() {
    let most = 1_024 * 65_535_u32;
    for count in 2..=32 {
        let last = usize::from(count - 1);
        let mut trips = vec![vec![0; usize::from(count)]; usize::from(count)];
        trips[last][0] = 65_535;
        let draft = Draft {
            nodes: count,
            links: vec![[0, count - 1, 3, 3, 900]; 66],
            destinations: (0..count).collect(),
            trips,
        };
        let file = draft.file();
        let mut table = vec![0; draft.table_length()];
        table[66 * last] = most;
        assert_eq!(audit(&file, &table, 1_024).refusal, 0);
        // All links as full as they may be, but for what makes it 2³² too much.
        table[66 * last..].fill(most);
        table[66 * last] -= (65 * u64::from(most) - (1 << 32)) as u32;
        assert_eq!(audit(&file, &table, 1_024).refusal, 16);
    }
}

/// A line of 127 links at the highest times: the largest distances.
#[test]
fn the_longest_way() {
    let links: Vec<DraftLink> = (0..127)
        .map(|node| [node, node + 1, 16_383, 16_383, 1])
        .collect();
    let mut trips = vec![0; 128];
    trips[0] = 65_535;
    let draft = draft(128, &links, &[127], &[&trips]);
    let file = draft.file();
    let mut table = started(&draft);
    assert_eq!(table, vec![65_535; 127]);
    // No choice, no gap.
    let answer = audit(&file, &table, 1);
    assert_eq!((answer.refusal, answer.gap), (0, 0));
    let mut share = 1;
    while share < 1_024 {
        let answer = pass(&file, &mut table, share);
        assert_eq!((answer.outcome, answer.gap), (MOVED, 0));
        assert_eq!(answer.share, (share + 64).min(1_024));
        share = answer.share;
        assert_eq!(table, vec![65_535 * share; 127]);
    }
    assert_eq!(pass(&file, &mut table, share).outcome, FINEST);
}

/// Studies with each count at its limit, alone and together.
#[test]
fn studies_at_the_limits() {
    let mut dice = Dice::new(3);
    for (nodes, links, destinations) in [
        (128, 1, 1),
        (128, 512, 1),
        (128, 512, 32),
        (128, 127, 32),
        (32, 512, 32),
        (2, 512, 2),
        (2, 1, 1),
        (2, 1, 2),
        (127, 511, 31),
    ] {
        let plan = Plan {
            nodes: (nodes, nodes),
            links: (links, links),
            destinations,
            time: 900,
            capacity: 50,
            trips: 12,
            tenths: 8,
        };
        let draft = plan.with_every_destination(&mut dice);
        let file = draft.file();
        assert_eq!(check(&file), 0);

        let mut output = vec![1; file.len() + 1];
        assert_eq!(pack(&file, &mut output), 0);
        assert_eq!(output[..file.len()], file);
        assert_eq!(output[file.len()], 1);

        let length = draft.table_length();
        let mut table = vec![7; length + 1];
        assert_eq!(start(&file, &mut table[..length - 1]), 12);
        let answer = run(&file, &mut table, 40, 0);
        assert_eq!(answer.refusal, 0);
        assert_eq!(table[length], 7);
        let audited = audit(&file, &table, answer.share);
        assert_eq!(
            (audited.refusal, audited.gap, audited.cost, audited.over),
            (0, answer.gap, answer.cost, answer.over)
        );
    }
    // One more of each.
    let mut one_more = grid(&mut dice, 16, 8, 512, 10, 10);
    one_more.resize(512, [0, 1, 1, 1, 1]);
    let trips = vec![vec![0; 128]; 32];
    let full = Draft {
        nodes: 128,
        links: one_more,
        destinations: (0..32).collect(),
        trips,
    };
    assert_eq!(check(&full.file()), 0);
    let mut other = full.clone();
    other.nodes = 129;
    other.trips.iter_mut().for_each(|row| row.push(0));
    assert_eq!(check(&other.file()), 3);
    let mut other = full.clone();
    other.links.push([0, 1, 1, 1, 1]);
    assert_eq!(check(&other.file()), 3);
    let mut other = full;
    other.destinations.push(32);
    other.trips.push(vec![0; 128]);
    assert_eq!(check(&other.file()), 3);
}

/// The table that a start makes where these nodes are closed.
fn started_closing(draft: &Draft, nodes: &[u16]) -> Vec<u32> {
    let mut table = vec![u32::MAX; draft.table_length()];
    assert_eq!(start(&draft.clone().closing(nodes).file(), &mut table), 0);
    table
}

#[test]
fn a_forbidden_link_that_would_fit() {
    // From 0 to 3 by 1 or by 2, both 10: link 0 leads by 1.
    let links = [
        [0, 1, 5, 0, 1],
        [0, 2, 5, 0, 1],
        [1, 3, 5, 0, 1],
        [2, 3, 5, 0, 1],
    ];
    let draft = draft(4, &links, &[3], &[&[6, 1, 0, 0]]);
    assert_eq!(started(&draft), [6, 0, 7, 0]);
    assert_eq!(started_closing(&draft, &[]), [6, 0, 7, 0]);
    assert_eq!(started_closing(&draft, &[0, 3]), [6, 0, 7, 0]);
    assert_eq!(started_closing(&draft, &[1]), [0, 6, 1, 6]);
    assert_eq!(started_closing(&draft, &[2]), [6, 0, 7, 0]);
    let stuck = draft.clone().closing(&[1, 2]);
    assert_eq!(check(&stuck.file()), 11);
    // A shorter way through the closed node makes no difference.
    let mut shorter = draft;
    shorter.links[0][2] = 1;
    assert_eq!(started_closing(&shorter, &[1]), [0, 6, 1, 6]);
    let answer = audit(&shorter.closing(&[1]).file(), &[0, 6, 1, 6], 1);
    assert_eq!((answer.refusal, answer.gap), (0, 0));
}

/// A closed destination has next links into it as an open one has, with one
/// destination searched alone and with many side by side.
#[test]
fn ties_at_a_closed_destination() {
    let straight: DraftLink = [0, 2, 10, 0, 1];
    let by_1: [DraftLink; 2] = [[0, 1, 4, 0, 1], [1, 2, 6, 0, 1]];
    let back: DraftLink = [2, 0, 3, 0, 1];
    for (links, first) in [
        ([straight, by_1[0], by_1[1], back], 0),
        ([by_1[0], straight, by_1[1], back], 0),
        ([by_1[1], by_1[0], straight, back], 1),
        ([by_1[1], straight, by_1[0], back], 1),
    ] {
        for others in 0..9 {
            // More nodes, each with a link from 2 and one to it, and with
            // trips from 2.
            let mut study = draft(3 + others, &links, &[2], &[&[5, 0, 0]]);
            study.trips[0].resize(3 + usize::from(others), 0);
            for node in 3..3 + others {
                study.links.push([2, node, 1, 0, 1]);
                study.links.push([node, 2, 1, 0, 1]);
                study.destinations.push(node);
                let mut trips = vec![0; 3 + usize::from(others)];
                trips[2] = 1;
                study.trips.push(trips);
            }
            let all: Vec<u16> = (2..3 + others).collect();
            for nodes in [[].as_slice(), &[2], &[0, 2], &all] {
                let table = started_closing(&study, nodes);
                assert_eq!(table[first], 5, "{links:?} {others} {nodes:?}");
                assert_eq!(audit(&study.file(), &table, 1).gap, 0);
            }
            // With 1 closed there is only the straight way.
            let straight = links.iter().position(|link| *link == straight);
            assert_eq!(started_closing(&study, &[1])[straight.unwrap()], 5);
        }
    }
}

#[test]
fn closed_destinations_are_not_passed_through() {
    // To 2 by 1, or round by 3; 1 is a destination itself.
    let links = [
        [0, 1, 3, 1, 1],
        [1, 2, 3, 1, 1],
        [0, 3, 9, 1, 1],
        [3, 2, 9, 1, 1],
        [2, 0, 1, 1, 1],
    ];
    let draft = draft(4, &links, &[1, 2], &[&[4, 0, 1, 0], &[5, 2, 0, 0]]);
    assert_eq!(started(&draft), [5, 0, 0, 0, 1, 5, 7, 0, 0, 0]);
    let round = [5, 0, 0, 0, 1, 0, 2, 5, 5, 0];
    assert_eq!(started_closing(&draft, &[1]), round);
    assert_eq!(started_closing(&draft, &[1, 2]), round);
    // From 2 to 1 they pass 0.
    assert_eq!(check(&draft.closing(&[0, 1]).file()), 11);
}

/// The question is asked of each destination's flow, not of the total.
#[test]
fn flow_into_a_closed_node_by_destination() {
    let links = [
        [0, 1, 10, 0, 1],
        [1, 2, 10, 0, 1],
        [0, 2, 10, 0, 1],
        [2, 1, 10, 0, 1],
    ];
    let draft = draft(3, &links, &[1, 2], &[&[3, 0, 0], &[3, 0, 0]]);
    let file = draft.closing(&[1]).file();
    // The total on link 0, into the closed node, is the same in both.
    let apart = [3, 0, 0, 0, 0, 0, 3, 0];
    let through = [0, 0, 3, 3, 3, 3, 0, 0];
    assert_eq!(audit(&file, &apart, 1).refusal, 0);
    assert_eq!(audit(&file, &through, 1).refusal, 20);
    // To 1 by 2 is permitted, and so is to leave 1 and come back.
    assert_eq!(audit(&file, &[0, 0, 3, 3, 0, 0, 3, 0], 1).refusal, 0);
    assert_eq!(audit(&file, &[3, 2, 0, 2, 0, 0, 3, 0], 1).refusal, 0);
    assert_eq!(audit(&file, &[3, 0, 0, 0, 0, 2, 3, 2], 1).refusal, 20);
}

#[test]
fn a_closed_node_sends_and_receives() {
    // A line 0 1 2 with all nodes closed: only neighbours have paths.
    let links = [
        [0, 1, 2, 2, 2],
        [1, 2, 2, 2, 2],
        [2, 1, 2, 2, 2],
        [1, 0, 2, 2, 2],
    ];
    let near = draft(3, &links, &[0, 1, 2], &[&[0, 1, 0], &[3, 0, 5], &[0, 2, 0]]);
    let table = started_closing(&near, &[0, 1, 2]);
    assert_eq!(table, [0, 0, 0, 1, 3, 0, 5, 0, 0, 2, 0, 0]);
    for (position, node) in [(0, 2), (2, 0)] {
        let mut far = near.clone();
        far.trips[position][node] = 1;
        assert_eq!(check(&far.clone().closing(&[0, 2]).file()), 0);
        assert_eq!(check(&far.closing(&[1]).file()), 11);
    }
}

/// A node that has a path only through closed nodes has no distance, and flow
/// for it may circulate where heads are open.
#[test]
fn nodes_behind_a_closed_node() {
    // 2 and 3 go round by themselves; their only way to 0 leads by 1.
    let links = [
        [1, 0, 3, 1, 1],
        [2, 1, 2, 8, 1],
        [2, 3, 2, 8, 1],
        [3, 2, 2, 8, 1],
    ];
    let study = draft(4, &links, &[0], &[&[0, 4, 0, 0]]).closing(&[1]);
    let file = study.file();
    assert_eq!(audit(&file, &[4, 0, 0, 0], 1).gap, 0);
    let road = Road {
        free: 2,
        rise: 8,
        capacity: 1,
        power: 4,
    };
    let round = audit(&file, &[4, 0, 3, 3], 1);
    assert_eq!(round.gap, 2 * 3 * u64::from(road.time(3, 1)));
    let mut table = [4, 0, 3, 3];
    assert_eq!(pass(&file, &mut table, 1).outcome, MOVED);
    assert_eq!(table[1], 0);
}

/// Zones beside the streets, and street grids with nodes closed: nobody drives
/// through a closed node, and closing nodes never shortens a way.
#[test]
fn zones() {
    let mut dice = Dice::new(5);
    for turn in 0..40 {
        let links = grid(&mut dice, 5, 4, 512, 90, 40);
        let plan = Plan {
            nodes: (2, 2),
            links: (1, 1),
            destinations: dice.between(1, 12),
            time: 90,
            capacity: 40,
            trips: 20,
            tenths: 7,
        };
        let study: Versioned = if turn % 2 == 0 {
            plan.with_zones(&mut dice, 20, 12, links)
        } else {
            let draft = plan.with_links(&mut dice, 20, links);
            draft.closing_some(&mut dice, 2)
        };
        let (file, links) = (study.file(), study.draft.links.len());
        let mut table = vec![1; study.draft.table_length()];
        let answer = run(&file, &mut table, 30, 0);
        assert_eq!(answer.refusal, 0);
        for (place, &flow) in table.iter().enumerate() {
            let destination = study.draft.destinations[place / links];
            assert!(flow == 0 || study.may_carry(place % links, destination));
        }
        // With all nodes open the same table is no nearer to its least.
        let open = audit(&study.draft.file(), &table, answer.share);
        assert_eq!((open.refusal, open.cost), (0, answer.cost));
        assert!(open.gap >= answer.gap);
        // Nor does one that wanders by permitted links.
        let wandering = study.wandering_table(&mut dice, 9);
        assert!(matches!(audit(&file, &wandering, 9).refusal, 0 | 15));
    }
}

/// A crowded study with these counts.
fn draft_of(dice: &mut Dice, nodes: u64, links: u64, destinations: u64) -> Draft {
    let plan = Plan {
        nodes: (nodes, nodes),
        links: (links, links),
        destinations,
        time: 900,
        capacity: 50,
        trips: 12,
        tenths: 8,
    };
    plan.with_every_destination(dice)
}

/// Packs a study and runs it, with as much room as it needs and with less.
fn pack_and_run(study: &Versioned) {
    let file = study.file();
    assert_eq!(check(&file), 0);
    let mut output = vec![1; file.len() + 1];
    assert_eq!(pack(&file, &mut output[..file.len() - 1]), 17);
    assert_eq!(pack(&file, &mut output), 0);
    assert_eq!(output[..file.len()], file);
    assert_eq!(output[file.len()], 1);

    let length = study.table_length();
    let mut table = vec![7; length + 1];
    assert_eq!(start(&file, &mut table[..length - 1]), 12);
    let answer = run(&file, &mut table, 40, 0);
    assert_eq!((answer.refusal, table[length]), (0, 7));
    let audited = audit(&file, &table, answer.share);
    assert_eq!(
        (audited.refusal, audited.gap, audited.cost, audited.over),
        (0, answer.gap, answer.cost, answer.over)
    );
}

/// Studies of version 2 with each count at its limit.
#[test]
fn closed_nodes_at_the_limits() {
    let mut dice = Dice::new(6);
    for (nodes, links, destinations, tenths) in [
        (128, 512, 32, 1),
        (128, 512, 32, 0),
        (128, 512, 32, 10),
        (128, 512, 1, 2),
        (65, 400, 32, 3),
        (64, 400, 9, 3),
        (2, 512, 2, 10),
        (2, 1, 1, 10),
    ] {
        let draft = draft_of(&mut dice, nodes, links, destinations);
        pack_and_run(&draft.closing_some(&mut dice, tenths));
    }
}

/// A run is a start and passes, as many as it says, and 'spent' cannot occur
/// with the largest budget.
#[test]
fn a_run_is_a_start_and_passes() {
    let mut dice = Dice::new(4);
    for turn in 0..1_000 {
        let draft = Plan::small(&mut dice).draft(&mut dice);
        let study = match turn % 5 {
            0 => draft.closing_some(&mut dice, 2),
            1 => draft.with_some_powers(&mut dice),
            2 => draft
                .with_some_lorries(&mut dice, 5)
                .barring_some(&mut dice, 2),
            _ => Versioned::from(draft),
        };
        let (length, total, file) = (study.table_length(), study.total(), study.file());
        let budget = dice.pick(&[1, 2, 5, 20, 1_024]);
        let excess = dice.pick(&[0, 0, 2, 90]);
        let mut table = vec![6; length + 1];
        let answer = run(&file, &mut table, budget, excess);
        assert_eq!(answer.refusal, 0);
        assert!((1..=budget).contains(&answer.judged));
        assert!(budget < 1_024 || answer.ending != SPENT);

        let mut other = vec![6; length + 1];
        assert_eq!(start(&file, &mut other), 0);
        let mut share = 1;
        for _ in 1..answer.judged {
            let step = pass(&file, &mut other, share);
            assert_eq!((step.refusal, step.outcome), (0, MOVED));
            assert!(step.gap > u64::from(excess) * u64::from(share) * total);
            assert!(step.share > share);
            share = step.share;
        }
        assert_eq!((share, &other), (answer.share, &table));
        let last = pass(&file, &mut other, share);
        assert_eq!(
            (last.gap, last.cost, last.over),
            (answer.gap, answer.cost, answer.over)
        );
        let reached = last.gap <= u64::from(excess) * u64::from(share) * total;
        assert_eq!(reached, answer.ending == REACHED);
        if !reached {
            assert_eq!(last.outcome == MOVED, answer.ending == SPENT);
        }
    }
}

/// All 512 links as full as they may be, with each power and with all four.
#[test]
fn the_fullest_table_with_powers() {
    let mut links = vec![[0, 1, 16_383, 16_383, 1]; 256];
    links.extend(vec![[1, 0, 16_383, 16_383, 1]; 255]);
    links.push([1, 0, 16_383, 16_383, 65_535]);
    let draft = draft(2, &links, &[1], &[&[65_535, 0]]);
    let full = 1_024 * 65_535_u32;
    let mut table = vec![full; 512];
    table[511] = 0;

    let top = |power: u32| 16_383 + 16_383 * 4_u64.pow(power);
    let area = |power: u32| {
        let treads = (0..256_u64).map(|step| 16_383 + 16_383 * step.pow(power) / 64_u64.pow(power));
        1_024 * treads.sum::<u64>() + (64 * u64::from(full) - 256 * 1_024) * top(power)
    };
    for chosen in [[1; 4], [2; 4], [3; 4], [4; 4], [1, 2, 3, 4], [4, 3, 3, 2]] {
        let powers: Vec<u16> = chosen.into_iter().cycle().take(512).collect();
        let study = draft.clone().with_powers(powers.clone());
        let (mut cost, mut spent, mut least) = (0, 0, u64::MAX);
        for (link, &power) in powers[..511].iter().enumerate() {
            cost += area(power.into());
            spent += top(power.into()) * u64::from(full);
            if link < 256 {
                least = least.min(top(power.into()));
            }
        }
        let answer = audit(&study.file(), &table, 1_024);
        assert_eq!((answer.refusal, answer.over), (0, 511));
        assert_eq!(answer.cost, cost);
        assert_eq!(answer.gap, spent - 1_024 * 65_535 * least);
        let mut after = table.clone();
        let judged = pass(&study.file(), &mut after, 1_024);
        assert_eq!((judged.gap, judged.cost), (answer.gap, answer.cost));
    }
}

/// The cost is the sum of the roads' areas and the gap that of their times, each
/// link with its own power.
#[test]
fn every_link_has_its_own_power() {
    let mut dice = Dice::new(8);
    for _ in 0..300 {
        let draft = Plan::small(&mut dice).draft(&mut dice);
        let study = draft.with_some_powers(&mut dice);
        let share = dice.pick(&[1, 5, 64, 1_024]);
        let table = study.wandering_table(&mut dice, share);
        let answer = audit(&study.file(), &table, share);
        if answer.refusal != 0 {
            continue;
        }
        let links = study.draft.links.len();
        let mut cost = 0;
        let mut lines = vec![0; 30 * links];
        assert_eq!(page(&study.file(), &table, share, &mut lines), 0);
        for (link, [_, _, free, rise, capacity]) in study.draft.links.iter().enumerate() {
            let road = Road {
                free: *free,
                rise: *rise,
                capacity: *capacity,
                power: study.power(link),
            };
            let total = table.chunks(links).map(|row| row[link]).sum::<u32>();
            cost += road.area(total, share).0;
            let time = road.time(total.into(), share.into());
            let printed = format!("{}.{:02}\n", time / 100, time % 100);
            assert!(lines[30 * link..][..30].ends_with(printed.as_bytes()));
        }
        assert_eq!(answer.cost, cost);
    }
}

/// Up to capacity a smaller power takes more time, far past it less.
#[test]
fn smaller_powers_rise_earlier() {
    let costs = |trips: u16| {
        let draft = draft(2, &[[0, 1, 10, 900, 64]], &[1], &[&[trips, 0]]);
        [1, 2, 3, 4].map(|power| {
            let file = draft.clone().with_powers(vec![power]).file();
            audit(&file, &[trips.into()], 1).cost
        })
    };
    assert!(costs(64).windows(2).all(|pair| pair[0] > pair[1]));
    assert!(costs(256).windows(2).all(|pair| pair[0] < pair[1]));
}

/// Studies of version 3 with each count at its limit. The largest has 14,568
/// bytes.
#[test]
fn powers_at_the_limits() {
    let mut dice = Dice::new(9);
    for (nodes, links, destinations, tenths) in [
        (128, 512, 32, 1),
        (128, 512, 32, 0),
        (128, 512, 1, 2),
        (33, 400, 32, 3),
        (2, 512, 2, 10),
        (2, 1, 1, 10),
    ] {
        let draft = draft_of(&mut dice, nodes, links, destinations);
        let powers = (0..links).map(|link| 1 + link as u16 % 4).collect();
        let study = draft.with_powers(powers).closing_some(&mut dice, tenths);
        let sections = 12 * links + 2 * destinations + 2 * destinations * nodes + nodes;
        assert_eq!(study.file().len() as u64, 40 + sections);
        assert!(study.file().len() <= 14_568);
        pack_and_run(&study);
    }
}

/// The note of the first move by loadings from a start.
fn first_note(study: &Versioned) -> Vec<u16> {
    let file = study.file();
    let mut table = vec![0; study.table_length()];
    assert_eq!(start(&file, &mut table), 0);
    let mut note = vec![9; study.note_length()];
    let mut share = 1;
    loop {
        let answer = second::pass(&file, &mut table, share, &mut note);
        assert_eq!(answer.outcome, MOVED);
        if note[0] > 0 {
            return note;
        }
        assert!(note[1..].iter().all(|&link| link == 65_535));
        share = answer.share;
    }
}

#[test]
fn what_the_note_has() {
    // To 2 and to 3; 4 goes round with 5, and from there nobody gets away.
    let links = [
        [0, 1, 4, 0, 1],
        [1, 2, 4, 0, 1],
        [0, 2, 8, 0, 1],
        [2, 1, 3, 0, 1],
        [1, 3, 5, 0, 1],
        [4, 5, 1, 0, 1],
        [5, 4, 1, 0, 1],
        [0, 4, 1, 0, 1],
        [1, 3, 5, 0, 1],
    ];
    const NONE: u16 = 65_535;
    // Only node 0 has trips, and only to 2: the other next links are noted too.
    for trips in [[1, 0, 0, 0, 0, 0], [0; 6]] {
        let study = draft(6, &links, &[2, 3], &[&trips, &[0; 6]]);
        let note = first_note(&study.clone().into());
        let expected = [
            [64].as_slice(),
            &[0, 1, NONE, NONE, NONE, NONE],
            &[0, 4, 3, NONE, NONE, NONE],
        ];
        assert_eq!(note, expected.concat());
        // Round a closed node, and not on through a closed destination.
        let note = first_note(&study.clone().closing(&[1, 2]));
        let expected = [
            [64].as_slice(),
            &[2, 1, NONE, NONE, NONE, NONE],
            &[NONE, 4, NONE, NONE, NONE, NONE],
        ];
        assert_eq!(note, expected.concat());
    }
}

/// Next links of destinations to which nobody goes, alone and in whole groups,
/// are those that they would have with trips. Times are the same at every flow.
#[test]
fn notes_of_destinations_without_trips() {
    let mut dice = Dice::new(10);
    for turn in 0..40 {
        let mut busy = draft_of(&mut dice, 40, 150, 32);
        busy.links.iter_mut().for_each(|link| link[3] = 0);
        let busy = busy.closing_some(&mut dice, turn % 4);
        let note = first_note(&busy);
        let nodes = note[1..].chunks(40).zip(&busy.draft.destinations);
        for (row, &destination) in nodes {
            for (link, hops) in row.iter().zip(busy.hops(destination)) {
                assert_eq!(*link == 65_535, matches!(hops, None | Some(0)));
            }
        }
        for kept in [0, 1, 2, 3, 8, 9, 24, 31] {
            // Trips to so many of the destinations, from anywhere on.
            let mut idle = busy.clone();
            let first = dice.index(32);
            for (position, trips) in idle.draft.trips.iter_mut().enumerate() {
                if (position + 32 - first) % 32 >= kept {
                    trips.fill(0);
                }
            }
            assert_eq!(first_note(&idle)[1..], note[1..]);
        }
    }
}

/// What is left after taking back is not questioned: with a cycle it may have
/// more flow on a link than its share allows.
#[test]
fn what_is_left_is_not_questioned() {
    let links = [[0, 1, 5, 5, 5], [1, 2, 5, 5, 5], [2, 1, 5, 5, 5]];
    let file = draft(3, &links, &[1], &[&[4, 0, 0]]).file();
    // Flow to 1 leaves it and comes back.
    let mut table = [40, 40, 40];
    assert_eq!(audit(&file, &table, 10).refusal, 0);
    assert_eq!(take_back(&file, &mut table, 10, &[1, 0, 9, 9]), left(9));
    assert_eq!(table, [36, 40, 40]);
    assert_eq!(audit(&file, &table, 9).refusal, 15);
    assert_eq!(take_back(&file, &mut table, 9, &[1, 0, 9, 9]).refusal, 15);
    let mut table = [40, 40, 40];
    assert_eq!(take_back(&file, &mut table, 10, &[0; 4]), left(5));
    assert_eq!(audit(&file, &table, 5).refusal, 0);
}

/// A study of one of several kinds: of version 1, with closed nodes, with zones,
/// with powers or with lorries.
fn some_study(dice: &mut Dice, kind: usize) -> Versioned {
    let plan = Plan::small(dice);
    let (wide, high) = (dice.between(2, 5) as u16, dice.between(1, 3) as u16);
    let crowd = Plan {
        destinations: dice.between(1, 10),
        time: 90,
        capacity: 15,
        trips: 25,
        tenths: dice.between(0, 9),
        ..plan
    };
    let links = grid(dice, wide, high, 512, 90, 15);
    let nodes = wide * high;
    match kind {
        0 => plan.draft(dice).into(),
        1 => plan.draft(dice).closing_some(dice, 3),
        2 => plan.draft(dice).with_some_powers(dice),
        3 => crowd.with_links(dice, nodes, links).into(),
        4 => crowd.with_zones(dice, nodes, 4, links),
        5 => crowd
            .with_zones(dice, nodes, 4, links)
            .with_some_powers(dice),
        6 => crowd
            .with_links(dice, nodes, links)
            .closing_some(dice, 2)
            .with_some_powers(dice),
        7 => crowd
            .with_links(dice, nodes, links)
            .with_some_lorries(dice, 5)
            .barring_some(dice, 1),
        _ => crowd
            .with_zones(dice, nodes, 4, links)
            .with_some_powers(dice)
            .with_some_lorries(dice, 8)
            .barring_some(dice, 1),
    }
}

/// After every move of studies of all versions, taking back restores table and
/// share and leaves the note; in the end all moves are taken back one by one.
#[test]
fn every_move_is_taken_back() {
    let mut dice = Dice::new(11);
    let (mut loadings, mut doublings) = (0, 0);
    for turn in 0..900 {
        let study = some_study(&mut dice, turn % 9);
        let file = study.file();
        let mut table = vec![5; study.table_length() + 2];
        assert_eq!(start(&file, &mut table), 0);
        let mut share = 1;
        let mut moves = Vec::new();
        for _ in 0..30 {
            let before = (table.clone(), share);
            let mut note = vec![6; study.note_length() + 2];
            let answer = second::pass(&file, &mut table, share, &mut note);
            assert_eq!(
                (&note[note.len() - 2..], &table[table.len() - 2..]),
                (&[6; 2][..], &[5; 2][..])
            );
            if answer.outcome == FINEST {
                assert!(note.iter().all(|&number| number == 6));
                break;
            }
            if note[0] > 0 {
                assert_eq!(answer.share, share + u32::from(note[0]));
                loadings += 1;
            } else {
                assert_eq!(answer.share, 2 * share);
                doublings += 1;
            }
            let (after, noted) = (table.clone(), note.clone());
            assert_eq!(
                take_back(&file, &mut table, answer.share, &note),
                left(share)
            );
            assert!((&table, share) == (&before.0, before.1) && note == noted);
            (table, share) = (after, answer.share);
            moves.push((before, note));
        }
        for (before, note) in moves.into_iter().rev() {
            assert_eq!(take_back(&file, &mut table, share, &note), left(before.1));
            (_, share) = before;
            assert!(table == before.0);
        }
        assert_eq!(share, 1);
    }
    assert!(
        loadings > 5_000 && doublings > 500,
        "{loadings} {doublings}"
    );
}

/// Tables that wander and go round, with closed nodes and powers, moved and
/// taken back.
#[test]
fn moves_of_made_tables() {
    let mut dice = Dice::new(12);
    let mut moved = 0;
    for turn in 0..900 {
        let study = some_study(&mut dice, turn % 9);
        let share = dice.between(1, 1_024) as u32;
        let mut table = study.wandering_table(&mut dice, share);
        study.add_cycle(&mut dice, &mut table, share);
        moved += usize::from(pass(&study.file(), &mut table, share).outcome == MOVED);
    }
    assert!(moved > 200, "{moved}");
}

/// Notes that nobody's passes have made, and steps up to the largest.
#[test]
fn made_notes() {
    let mut dice = Dice::new(13);
    let mut made = 0;
    for turn in 0..900 {
        let study = some_study(&mut dice, turn % 9);
        let file = study.file();
        let share = dice.pick(&[1, 1, 2, 10, 100, 512]);
        let step = dice.pick(&[1, 2, 64, 65, 512]).min(1_024 - share as u16);
        let before = study.wandering_table(&mut dice, share);
        let note = study.some_note(&mut dice, step);
        let mut table = before.clone();
        study.add_noted(&note, &mut table);
        let grown = share + u32::from(step);
        if audit(&file, &table, grown).refusal != 0 {
            continue;
        }
        assert_eq!(take_back(&file, &mut table, grown, &note), left(share));
        assert_eq!(table, before);
        made += 1;
    }
    assert!(made > 300, "{made}");
}

/// Studies with each count at its limit, moved and taken back.
#[test]
fn taking_back_at_the_limits() {
    let mut dice = Dice::new(14);
    for (nodes, links, destinations) in [
        (128, 512, 32),
        (128, 512, 1),
        (128, 127, 32),
        (128, 1, 1),
        (32, 512, 32),
        (2, 512, 2),
        (2, 1, 1),
    ] {
        let draft = draft_of(&mut dice, nodes, links, destinations);
        for study in [
            Versioned::from(draft.clone()),
            draft.clone().closing_some(&mut dice, 2),
            draft.clone().with_some_powers(&mut dice),
            draft
                .with_some_lorries(&mut dice, 6)
                .barring_some(&mut dice, 1),
        ] {
            let file = study.file();
            let mut table = vec![0; study.table_length()];
            assert_eq!(start(&file, &mut table), 0);
            let mut share = 1;
            for _ in 0..12 {
                share = pass(&file, &mut table, share).share;
            }
            // One number of the note is missing.
            let length = study.note_length();
            let classes = study.classes().count() as u64;
            assert_eq!(length as u64, 1 + classes * nodes * destinations);
            let mut note = vec![0; length - 1];
            assert_eq!(
                second::pass(&file, &mut table, share, &mut note).refusal,
                12
            );
            assert_eq!(take_back(&file, &mut table, share, &note).refusal, 12);
        }
    }
}

/// The most trips at the largest share, taken back in one step.
#[test]
fn the_largest_step() {
    let links: Vec<DraftLink> = (0..127)
        .map(|node| [node, node + 1, 16_383, 16_383, 1])
        .collect();
    let mut trips = vec![0; 128];
    trips[0] = 65_535;
    let file = draft(128, &links, &[127], &[&trips]).file();
    let mut note: Vec<u16> = (0..129).map(|place: u16| place.wrapping_sub(1)).collect();
    for (step, share) in [
        (1_023, 1_024),
        (1_022, 1_023),
        (1, 2),
        (1, 1_024),
        (64, 1_024),
    ] {
        note[0] = step;
        let step = u32::from(step);
        let mut table = vec![65_535 * share; 127];
        assert_eq!(
            take_back(&file, &mut table, share, &note),
            left(share - step)
        );
        assert_eq!(table, vec![65_535 * (share - step); 127]);
    }
    for step in [1_024, 1_025, 32_768, 65_535] {
        note[0] = step;
        let mut table = vec![65_535 * 1_024; 127];
        assert_eq!(take_back(&file, &mut table, 1_024, &note).refusal, 22);
        assert_eq!(table, vec![65_535 * 1_024; 127]);
    }
    note[0] = 0;
    let mut table = vec![65_535 * 1_024; 127];
    assert_eq!(take_back(&file, &mut table, 1_024, &note), left(512));
    assert_eq!(table, vec![65_535 * 512; 127]);
}

/// Two ways from 0 to 3, the shorter one by 1; lorries go by 2 where a link by 1
/// is barred to them.
#[test]
fn lorries_go_round_a_barred_link() {
    let links = [
        [0, 1, 3, 1, 9],
        [1, 3, 3, 1, 9],
        [0, 2, 4, 1, 9],
        [2, 3, 4, 1, 9],
    ];
    let study = draft(4, &links, &[3], &[&[2, 1, 0, 0]]).with_lorries(vec![vec![5, 0, 1, 0]]);
    for (barred, lorries, distance) in [
        ([].as_slice(), [5, 5, 0, 1], 6),
        (&[0], [0, 0, 5, 6], 8),
        (&[1], [0, 0, 5, 6], 8),
        (&[2], [5, 5, 0, 1], 6),
    ] {
        let study = study.clone().barring(barred);
        let mut table = vec![8; 8];
        assert_eq!(start(&study.file(), &mut table), 0);
        assert_eq!(table, [&[2, 3, 0, 0][..], &lorries].concat());
        // With flow and capacity as they are all times are free times.
        let answer = audit(&study.file(), &table, 1);
        let spent = 2 * 6 + 3 + 5 * distance + 4;
        assert_eq!((answer.gap, answer.cost), (0, 64 * spent));
    }
    // Neither way is left.
    for barred in [[0, 2], [0, 3], [1, 3]] {
        assert_eq!(check(&study.clone().barring(&barred).file()), 11);
    }
}

/// A barred link with the lowest number that would fit by its time.
#[test]
fn a_barred_link_that_would_fit() {
    let links = [[0, 1, 9, 4, 7]; 4];
    let study = draft(2, &links, &[1], &[&[6, 0]]).with_lorries(vec![vec![4, 0]]);
    for (barred, first) in [
        ([].as_slice(), 0),
        (&[0], 1),
        (&[0, 1], 2),
        (&[1, 2], 0),
        (&[0, 1, 2], 3),
    ] {
        let mut table = vec![8; 8];
        assert_eq!(start(&study.clone().barring(barred).file(), &mut table), 0);
        let mut expected = [6, 0, 0, 0, 0, 0, 0, 0];
        expected[4 + first] = 4;
        assert_eq!(table, expected);
    }
}

/// Two tables of one study with different lorry flows but equal totals and share:
/// the same gap, cost and move, and the same next links.
#[test]
fn lorry_flows_with_equal_totals() {
    let mut dice = Dice::new(15);
    let mut moved = 0;
    for _ in 0..200 {
        let links: Vec<DraftLink> = (0..dice.between(2, 5))
            .map(|_| [0, 1, dice.between(5, 9) as u16, dice.below(40) as u16, 3])
            .collect();
        let count = links.len();
        let study = draft(2, &links, &[1], &[&[6, 0]]).with_lorries(vec![vec![6, 0]]);
        let share = dice.pick(&[1, 5, 64, 1_000]);
        let table = study.wandering_table(&mut dice, share);
        let exchanged = [&table[count..], &table[..count]].concat();
        let file = study.file();
        let (mut first, mut second) = (table.clone(), exchanged.clone());
        let (mut note, mut other) = (vec![0; 5], vec![0; 5]);
        let answer = second::pass(&file, &mut first, share, &mut note);
        assert_eq!(second::pass(&file, &mut second, share, &mut other), answer);
        assert_eq!((answer.refusal, &note), (0, &other));
        if answer.outcome == MOVED {
            let added = |after: &[u32], before: &[u32]| -> Vec<u32> {
                let pairs = after.iter().zip(before);
                pairs.map(|(after, before)| after - before).collect()
            };
            if note[0] > 0 {
                assert_eq!(added(&first, &table), added(&second, &exchanged));
            }
            moved += 1;
        }
        let pages = [&table, &exchanged].map(|table| {
            let mut bytes = vec![0; 30 * count];
            assert_eq!(page(&file, table, share, &mut bytes), 0);
            bytes
        });
        assert_eq!(pages[0], pages[1]);
    }
    assert!(moved > 100, "{moved}");
}

/// The note has next links of both classes, for rows without trips too.
#[test]
fn the_note_of_both_classes() {
    let links = [
        [0, 1, 4, 0, 1],
        [1, 2, 4, 0, 1],
        [0, 2, 9, 0, 1],
        [2, 0, 5, 0, 1],
    ];
    let study = draft(3, &links, &[0, 2], &[&[0; 3], &[2, 1, 0]]);
    let none = 65_535;
    let cars = [none, 1, 3, 0, 1, none];
    for (barred, lorries) in [
        ([].as_slice(), cars),
        (&[0], [none, 1, 3, 2, 1, none]),
        (&[1], [none, none, 3, 2, none, none]),
        (&[3], [none, none, none, 0, 1, none]),
    ] {
        let study = study
            .clone()
            .with_lorries(vec![vec![0; 3]; 2])
            .barring(barred);
        let note = first_note(&study);
        assert_eq!(note[1..], [cars, lorries].concat());
    }
}

/// Studies of version 4 with each count at its limit, the largest study first:
/// 23,288 bytes, 32,768 numbers in a table and 8,193 in a note.
#[test]
fn lorries_at_the_limits() {
    let mut dice = Dice::new(16);
    for (nodes, links, destinations, barred) in [
        (128, 512, 32, 1),
        (128, 512, 32, 0),
        (128, 512, 1, 2),
        (65, 400, 32, 3),
        (2, 512, 2, 5),
        (2, 1, 1, 10),
    ] {
        let draft = draft_of(&mut dice, nodes, links, destinations);
        let study = draft.with_some_powers(&mut dice);
        let study = study.with_some_lorries(&mut dice, 5);
        let study = study.barring_some(&mut dice, barred);
        pack_and_run(&study);
        if (nodes, links, destinations) == (128, 512, 32) {
            assert_eq!(study.packed_length(), 23_288);
            assert_eq!((study.table_length(), study.note_length()), (32_768, 8_193));
        }
    }
}

/// The most trips at the largest share, half of them lorries, all on one link:
/// as much as question 15 allows of both together.
#[test]
fn the_fullest_table_with_lorries() {
    let links = [[0, 1, 16_383, 16_383, 1], [1, 0, 16_383, 16_383, 1]];
    let study = draft(2, &links, &[1], &[&[32_768, 0]]).with_lorries(vec![vec![32_767, 0]]);
    let file = study.file();
    let (cars, lorries) = (32_768 * 1_024, 32_767 * 1_024);
    // One part of a trip more goes round.
    for table in [[cars + 1, 1, lorries, 0], [cars, 0, lorries + 1, 1]] {
        assert_eq!(audit(&file, &table, 1_024).refusal, 15);
    }
    let table = [cars, 0, lorries, 0];
    let answer = audit(&file, &table, 1_024);
    assert_eq!((answer.refusal, answer.over), (0, 1));
    assert_eq!(answer.gap, 0);
    let mut after = table;
    assert_eq!(pass(&file, &mut after, 1_024).outcome, FINEST);
}
