//! The cases of the town of two roads, of a town with a zone in the middle, and
//! of the first town with other powers; at the end, moves of these towns taken
//! back.

use second::draft::{Draft, Versioned};
use second::staircase::{LAST_STEP, Road};
use second::{
    AuditAnswer, FINEST, MOVED, PassAnswer, REACHED, RUN_FINEST, RunAnswer, SPENT, TakeBackAnswer,
    audit, check, listing, pack, page, page_listing, run, start, take_back,
};

const LINK_0: Road = Road {
    free: 10,
    rise: 10,
    capacity: 2,
    power: 4,
};
const LINK_1: Road = Road {
    free: 15,
    rise: 0,
    capacity: 1,
    power: 4,
};

fn town() -> Vec<u8> {
    Draft::town().file()
}

/// A pass whose note nobody looks at.
fn pass(file: &[u8], table: &mut [u32], share: u32) -> PassAnswer {
    second::pass(file, table, share, &mut [0; 8])
}

fn town_with(change: impl Fn(&mut Draft)) -> Vec<u8> {
    let mut draft = Draft::town();
    change(&mut draft);
    draft.file()
}

#[test]
fn the_file() {
    let file = town();
    assert_eq!(file.len(), 58);
    #[rustfmt::skip]
    let header = [
        1, 0, 2, 0, 2, 0, 1, 0,
        32, 0, 0, 0, 20, 0, 0, 0,
        52, 0, 0, 0, 2, 0, 0, 0,
        54, 0, 0, 0, 4, 0, 0, 0,
    ];
    assert_eq!(file[..32], header);
    #[rustfmt::skip]
    let rest = [
        0, 0, 1, 0, 10, 0, 10, 0, 2, 0,
        0, 0, 1, 0, 15, 0, 0, 0, 1, 0,
        1, 0,
        2, 0, 0, 0,
    ];
    assert_eq!(file[32..], rest);
    assert_eq!(check(&file), 0);
}

#[test]
fn p1_share_1_flow_2() {
    assert_eq!(LINK_0.time(2, 1), 20);
}

/// How many links of a table are over by its audit, in the town with so many
/// trips.
fn over(trips: u16, table: &[u32], share: u32) -> u32 {
    let file = town_with(|draft| draft.trips[0][0] = trips);
    let answer = audit(&file, table, share);
    assert_eq!(answer.refusal, 0);
    answer.over
}

#[test]
fn p2_flow_8() {
    assert_eq!(LINK_0.time(8, 1), 2_570);
    assert_eq!(LINK_0.step(8, 1), LAST_STEP);
    assert_eq!(over(8, &[8, 0], 1), 1);
}

#[test]
fn p3_flow_9() {
    assert_eq!(LINK_0.time(9, 1), 2_570);
    assert_eq!(LINK_0.step(9, 1), LAST_STEP);
    assert_eq!(over(9, &[9, 0], 1), 1);
}

#[test]
fn p4_share_64_flow_511() {
    assert_eq!(LINK_0.time(511, 64), 2_530);
    assert_eq!(LINK_0.step(511, 64), LAST_STEP - 1);
    assert_eq!(over(8, &[511, 1], 64), 0);
    assert_eq!(over(8, &[512, 0], 64), 1);
}

#[test]
fn the_road_without_a_rise_counts_too() {
    assert_eq!(over(7, &[7, 0], 1), 0);
    assert_eq!(over(11, &[7, 4], 1), 1);
    assert_eq!(over(12, &[8, 4], 1), 2);
    assert_eq!(over(11, &[8, 3], 1), 1);
}

/// The count of a pass is of the table that it judges, with its share.
#[test]
fn over_before_and_after_a_move() {
    for (table, share, trips, before, after) in [
        ([8, 0], 1, 8, 1, ([8, 24], 4, 1)),
        ([4, 0], 1, 4, 0, ([4, 4], 2, 0)),
        ([511, 1], 64, 8, 0, ([511, 513], 128, 1)),
    ] {
        let file = town_with(|draft| draft.trips[0][0] = trips);
        let mut moved = table;
        let answer = pass(&file, &mut moved, share);
        assert_eq!((answer.outcome, answer.over), (MOVED, before));
        let audited = audit(&file, &moved, answer.share);
        assert_eq!((moved, answer.share, audited.over), after);
    }
}

/// The count in a refusal is 0, whatever the table holds.
#[test]
fn over_in_a_refusal() {
    let file = town_with(|draft| draft.trips[0][0] = 8);
    for (table, share, refusal) in [([8, 0], 0, 14), ([9, 0], 1, 15), ([8, 4], 1, 16)] {
        let mut lent = table;
        let answer = pass(&file, &mut lent, share);
        assert_eq!((answer.refusal, answer.over), (refusal, 0));
        let answer = audit(&file, &table, share);
        assert_eq!((answer.refusal, answer.over), (refusal, 0));
    }
    let answer = run(&file, &mut [8, 0], 0, 0);
    assert_eq!((answer.refusal, answer.over), (13, 0));
}

/// Counts of runs with every ending, of the last judged table.
#[test]
fn over_at_the_end_of_a_run() {
    let file = town_with(|draft| {
        draft.links = vec![[0, 1, 10, 7_777, 3], [0, 1, 11, 5_555, 2]];
        draft.trips[0] = vec![60, 0];
    });
    let mut endings = [false; 4];
    for (budget, excess) in [(1, 0), (2, 0), (5, 0), (1_024, 0), (1_024, 65_535)] {
        let mut table = [0; 2];
        let answer = run(&file, &mut table, budget, excess);
        let totals = table.map(u64::from);
        let roads = [(3, totals[0]), (2, totals[1])];
        let full = |&(capacity, total): &(u64, u64)| {
            64 * total >= 256 * capacity * u64::from(answer.share)
        };
        assert_eq!(
            answer.over as usize,
            roads.iter().filter(|road| full(road)).count()
        );
        assert!(answer.over > 0);
        endings[usize::from(answer.ending)] = true;
    }
    assert_eq!(endings, [false, true, true, true]);
}

#[test]
fn p5_start() {
    let mut table = [77, 88, 99];
    assert_eq!(start(&town(), &mut table), 0);
    assert_eq!(table, [2, 0, 99]);
}

#[test]
fn p6_gap_of_the_start() {
    // 128 wide: 64 treads of width 2 and heights 10 to 19.
    let cost: u64 = (0..64)
        .map(|step| 2 * u64::from(LINK_0.time_on(step)))
        .sum();
    let answer = audit(&town(), &[2, 0], 1);
    assert_eq!(
        answer,
        AuditAnswer {
            refusal: 0,
            gap: 10,
            cost,
            over: 0
        }
    );
}

#[test]
fn p7_the_pass_takes_one() {
    let mut table = [16, 0];
    let answer = pass(&town(), &mut table, 8);
    assert_eq!(
        (answer.refusal, answer.outcome, answer.share),
        (0, MOVED, 9)
    );
    assert_eq!(answer.gap, 80);
    assert_eq!(table, [16, 2]);
}

#[test]
fn p8_share_9() {
    assert_eq!(LINK_0.time(16, 9), 15);
    assert_eq!(LINK_1.time(2, 9), 15);
    let answer = audit(&town(), &[16, 2], 9);
    assert_eq!(
        answer,
        AuditAnswer {
            refusal: 0,
            gap: 0,
            cost: 13_104,
            over: 0
        }
    );
}

#[test]
fn p9_budget_3() {
    let mut table = [1, 2, 3];
    let answer = run(&town(), &mut table, 3, 0);
    assert_eq!(answer.refusal, 0);
    assert_eq!(answer.ending, SPENT);
    assert_eq!(answer.judged, 3);
    assert_eq!(answer.share, 4);
    assert_eq!(answer.gap, 40);
    assert_eq!(table, [8, 0, 3]);
    assert_eq!(answer.cost, audit(&town(), &[8, 0], 4).cost);
}

#[test]
fn p10_excess() {
    let mut table = [0; 2];
    let answer = run(&town(), &mut table, 3, 5);
    assert_eq!(
        (answer.ending, answer.judged, answer.share),
        (REACHED, 1, 1)
    );
    assert_eq!(table, [2, 0]);
    let answer = run(&town(), &mut table, 1_024, 4);
    assert_eq!(
        (answer.ending, answer.judged, answer.share),
        (REACHED, 5, 9)
    );
    let answer = run(&town(), &mut table, 4, 4);
    assert_eq!((answer.ending, answer.judged, answer.share), (SPENT, 4, 8));
}

#[test]
fn the_passes_of_a_run() {
    let mut table = [0; 2];
    assert_eq!(start(&town(), &mut table), 0);
    let mut share = 1;
    let mut seen = vec![(share, table)];
    while seen.len() < 5 {
        let answer = pass(&town(), &mut table, share);
        assert_eq!((answer.refusal, answer.outcome), (0, MOVED));
        share = answer.share;
        seen.push((share, table));
    }
    let expected = [
        (1, [2, 0]),
        (2, [4, 0]),
        (4, [8, 0]),
        (8, [16, 0]),
        (9, [16, 2]),
    ];
    assert_eq!(seen, expected);
}

#[test]
fn no_trips() {
    let file = town_with(|draft| draft.trips[0] = vec![0, 0]);
    let mut table = [5, 6];
    let answer = run(&file, &mut table, 7, 0);
    assert_eq!(
        answer,
        RunAnswer {
            refusal: 0,
            ending: REACHED,
            judged: 1,
            share: 1,
            gap: 0,
            cost: 0,
            over: 0
        }
    );
    assert_eq!(table, [0, 0]);
}

#[test]
fn trips_to_oneself() {
    assert_eq!(check(&town_with(|draft| draft.trips[0] = vec![0, 1])), 9);
}

#[test]
fn no_link_into_the_destination() {
    let away = |draft: &mut Draft| {
        for link in &mut draft.links {
            link.swap(0, 1);
        }
    };
    assert_eq!(check(&town_with(away)), 11);
    let idle = town_with(|draft| {
        away(draft);
        draft.trips[0] = vec![0, 0];
    });
    assert_eq!(check(&idle), 0);
    let mut table = [3, 3];
    assert_eq!(start(&idle, &mut table), 0);
    assert_eq!(table, [0, 0]);
}

#[test]
fn most_trips() {
    let most = town_with(|draft| draft.trips[0] = vec![65_535, 0]);
    assert_eq!(check(&most), 0);
    let mut table = [0; 2];
    assert_eq!(start(&most, &mut table), 0);
    assert_eq!(table, [65_535, 0]);
    for (trips, refusal) in [(vec![32_768, 0, 32_767], 0), (vec![32_768, 0, 32_768], 10)] {
        let file = town_with(|draft| {
            draft.nodes = 3;
            draft.links.push([2, 1, 1, 0, 1]);
            draft.trips[0] = trips.clone();
        });
        assert_eq!(check(&file), refusal);
    }
}

#[test]
fn a_table_too_short() {
    let file = town();
    let mut table = [4];
    assert_eq!(start(&file, &mut table), 12);
    assert_eq!(pass(&file, &mut table, 1).refusal, 12);
    assert_eq!(run(&file, &mut table, 1, 0).refusal, 12);
    assert_eq!(audit(&file, &table, 1).refusal, 12);
    assert_eq!(table, [4]);
}

#[test]
fn budgets() {
    let mut table = [4, 5];
    for budget in [0, 1_025, 65_536, u32::MAX] {
        let refused = RunAnswer {
            refusal: 13,
            ..RunAnswer::default()
        };
        assert_eq!(run(&town(), &mut table, budget, 0), refused);
        assert_eq!(table, [4, 5]);
    }
    assert_eq!(run(&town(), &mut table, 1_024, 0).ending, REACHED);
    assert_eq!(run(&town(), &mut table, 1, 0).ending, SPENT);
}

#[test]
fn flows_at_share_9() {
    for (flows, refusal) in [
        ([16, 2], 0),
        ([16, 1], 16),
        ([18, 1], 16),
        ([18, 0], 0),
        ([19, 0], 15),
        ([0, 19], 15),
    ] {
        let mut table = flows;
        assert_eq!(audit(&town(), &table, 9).refusal, refusal);
        let answer = pass(&town(), &mut table, 9);
        if refusal != 0 {
            let refused = PassAnswer {
                refusal,
                ..PassAnswer::default()
            };
            assert_eq!(answer, refused);
            assert_eq!(table, flows);
        } else {
            assert_eq!(answer.refusal, 0);
        }
    }
}

#[test]
fn the_finest_table() {
    // All trips on the dearer road at the largest share: there is no j, and
    // no doubling.
    let mut table = [0, 2_048];
    let answer = pass(&town(), &mut table, 1_024);
    assert_eq!(
        (answer.refusal, answer.outcome, answer.share),
        (0, FINEST, 1_024)
    );
    assert_eq!(answer.gap, 5 * 2_048);
    assert_eq!(answer.cost, 15 * 64 * 2_048);
    assert_eq!(table, [0, 2_048]);
}

#[test]
fn a_run_that_ends_finest() {
    // One trip and two roads at equal times when empty, where the next link
    // is always the lower one: at some share no table is better than its
    // neighbours, and its gap is not 0.
    let file = town_with(|draft| {
        draft.links = vec![[0, 1, 10, 7_777, 3], [0, 1, 11, 5_555, 2]];
        draft.trips[0] = vec![5, 0];
    });
    let mut table = [0; 2];
    let answer = run(&file, &mut table, 1_024, 0);
    assert_eq!(answer.ending, RUN_FINEST);
    assert!(answer.gap > 0 && 2 * answer.share > 1_024);
    assert_eq!(table[0] + table[1], 5 * answer.share);
    let before = table;
    let judged = pass(&file, &mut table, answer.share);
    assert_eq!((judged.outcome, judged.share), (FINEST, answer.share));
    assert_eq!((judged.gap, judged.cost), (answer.gap, answer.cost));
    assert_eq!(judged.over, answer.over);
    assert_eq!(table, before);
}

#[test]
fn packing() {
    let file = Draft::town().file_with_gaps([&[1], &[2; 9], &[3; 4], &[4; 2]]);
    assert_eq!(file.len(), 58 + 16);
    let mut output = [0xAB; 60];
    assert_eq!(pack(&file, &mut output), 0);
    assert_eq!(output[..58], town());
    assert_eq!(output[58..], [0xAB; 2]);
    let mut again = [0; 58];
    assert_eq!(pack(&output[..58], &mut again), 0);
    assert_eq!(again[..], town());
    assert_eq!(pack(&file, &mut [0; 57]), 17);
}

/// The page at share 9, flows 16 and 2.
const PAGE: &str = concat!(
    "  0   0   1     1.77     0.15\n",
    "  1   0   1     0.22     0.15\n",
);

#[test]
fn the_page() {
    let mut bytes = [0xAB; 63];
    assert_eq!(page(&town(), &[16, 2, 5], 9, &mut bytes), 0);
    assert_eq!(bytes[..60], *PAGE.as_bytes());
    assert_eq!(bytes[60..], [0xAB; 3]);
}

#[test]
fn other_pages() {
    let text = |table: [u32; 2], share: u32| {
        let mut bytes = [0; 60];
        assert_eq!(page(&town(), &table, share, &mut bytes), 0);
        String::from_utf8(bytes.to_vec()).unwrap()
    };
    for (table, share, expected) in [
        (
            [2, 0],
            1,
            [
                "  0   0   1     2.00     0.20",
                "  1   0   1     0.00     0.15",
            ],
        ),
        (
            [0, 2],
            1,
            [
                "  0   0   1     0.00     0.10",
                "  1   0   1     2.00     0.15",
            ],
        ),
        (
            [2_037, 11],
            1_024,
            [
                "  0   0   1     1.98     0.19",
                "  1   0   1     0.01     0.15",
            ],
        ),
        (
            [10, 2_038],
            1_024,
            [
                "  0   0   1     0.00     0.10",
                "  1   0   1     1.99     0.15",
            ],
        ),
    ] {
        let text = text(table, share);
        assert_eq!(text.lines().collect::<Vec<_>>(), expected);
    }
}

#[test]
fn the_widest_page() {
    let file = town_with(|draft| {
        draft.links = vec![[0, 1, 16_383, 16_383, 1]; 2];
        draft.trips[0] = vec![65_535, 0];
    });
    let expected = concat!(
        "  0   0   1 65535.00 42104.31\n",
        "  1   0   1     0.00   163.83\n",
    );
    for share in [1, 9, 1_024] {
        let mut bytes = [0; 60];
        assert_eq!(page(&file, &[65_535 * share, 0], share, &mut bytes), 0);
        assert_eq!(bytes, *expected.as_bytes());
    }
}

#[test]
fn refused_pages() {
    for (flows, share, length, refusal) in [
        ([16, 2].as_slice(), 9, 59, 18),
        (&[16, 2], 9, 0, 18),
        (&[16, 1], 9, 60, 16),
        (&[16, 1], 9, 59, 16),
        (&[19, 0], 9, 59, 15),
        (&[16, 2], 0, 59, 14),
        (&[16], 0, 59, 12),
    ] {
        let mut bytes = vec![0xAB; length];
        assert_eq!(page(&town(), flows, share, &mut bytes), refusal);
        assert_eq!(bytes, vec![0xAB; length]);
    }
}

fn input(budget: u16, excess: u16, file: &[u8]) -> Vec<u8> {
    let numbers = [budget.to_le_bytes(), excess.to_le_bytes()].concat();
    [numbers.as_slice(), file].concat()
}

fn listed(input: &[u8]) -> String {
    String::from_utf8(listing(input)).unwrap()
}

#[test]
fn the_listing() {
    let expected = "reached\njudged 5\nshare 9\ngap 0\ncost 13104\nover 0\n\
        link 0 16 15\nlink 1 2 15\n";
    assert_eq!(listed(&input(10, 0, &town())), expected);
}

#[test]
fn a_listing_with_links_over() {
    let file = town_with(|draft| draft.trips[0] = vec![8, 0]);
    let expected = "spent\njudged 1\nshare 1\ngap 20440\ncost 264478\nover 1\n\
        link 0 8 2570\nlink 1 0 15\n";
    assert_eq!(listed(&input(1, 0, &file)), expected);
    // A pass later the first road is on its curve again, and the second road is
    // over, whose time is 15 on every step.
    let expected = "spent\njudged 2\nshare 4\ngap 40\ncost 28992\nover 1\n\
        link 0 8 20\nlink 1 24 15\n";
    assert_eq!(listed(&input(2, 0, &file)), expected);
}

#[test]
fn other_listings() {
    let listed_first = |budget, excess, file: &[u8]| {
        let text = listed(&input(budget, excess, file));
        text.lines().next().unwrap().to_string()
    };
    assert_eq!(listed_first(3, 0, &town()), "spent");
    assert_eq!(listed_first(1, 5, &town()), "reached");
    let finest = town_with(|draft| {
        draft.links = vec![[0, 1, 10, 7_777, 3], [0, 1, 11, 5_555, 2]];
        draft.trips[0] = vec![5, 0];
    });
    assert_eq!(listed_first(1_024, 0, &finest), "finest");
}

#[test]
fn refused_listings() {
    for length in 0..4 {
        assert_eq!(listed(&[7; 3][..length.min(3)]), "refused 1\n");
    }
    assert_eq!(listed(&input(10, 0, &[])), "refused 1\n");
    assert_eq!(listed(&input(10, 0, &town()[..31])), "refused 1\n");
    assert_eq!(listed(&input(0, 0, &town())), "refused 13\n");
    assert_eq!(listed(&input(1_025, 0, &town())), "refused 13\n");
    assert_eq!(listed(&input(0, 0, &[0; 40])), "refused 2\n");
    let own = town_with(|draft| draft.trips[0] = vec![0, 1]);
    assert_eq!(listed(&input(0, 0, &own)), "refused 9\n");
    for (length, first) in [(65_536, "reached"), (65_537, "refused 1")] {
        let mut file = town();
        file.resize(length, 0);
        let text = listed(&input(10, 0, &file));
        assert_eq!(text.lines().next(), Some(first));
    }
}

fn page_listed(input: &[u8]) -> String {
    String::from_utf8(page_listing(input)).unwrap()
}

#[test]
fn the_page_of_a_run() {
    assert_eq!(page_listed(&input(10, 0, &town())), PAGE);
    // The third table, flows 8 and 0 at share 4.
    let third = "  0   0   1     2.00     0.20\n  1   0   1     0.00     0.15\n";
    assert_eq!(page_listed(&input(3, 0, &town())), third);
    let gaps = Draft::town().file_with_gaps([&[9], &[9; 5], &[9; 2], &[9; 40]]);
    assert_eq!(page_listed(&input(10, 0, &gaps)), PAGE);
}

#[test]
fn refused_pages_of_a_run() {
    for length in 0..4 {
        assert_eq!(page_listed(&vec![7; length]), "refused 1\n");
    }
    assert_eq!(page_listed(&input(10, 0, &[])), "refused 1\n");
    assert_eq!(page_listed(&input(10, 0, &town()[..31])), "refused 1\n");
    assert_eq!(page_listed(&input(0, 0, &town())), "refused 13\n");
    assert_eq!(page_listed(&input(1_025, 0, &town())), "refused 13\n");
    assert_eq!(page_listed(&input(0, 0, &[0; 40])), "refused 2\n");
    let own = town_with(|draft| draft.trips[0] = vec![0, 1]);
    assert_eq!(page_listed(&input(0, 0, &own)), "refused 9\n");
}

/// From 0 to 2 by the zone 1, which takes 10, or round it, which takes 15; the
/// zone has a trip of its own.
fn middle() -> Draft {
    Draft {
        nodes: 3,
        links: vec![[0, 1, 5, 0, 1], [1, 2, 5, 0, 1], [0, 2, 15, 0, 1]],
        destinations: vec![2],
        trips: vec![vec![2, 1, 0]],
    }
}

/// The zone open in version 1, open in version 2 and closed.
fn middles() -> [Vec<u8>; 3] {
    [
        middle().file(),
        middle().closing(&[]).file(),
        middle().closing(&[1]).file(),
    ]
}

#[test]
fn the_file_of_version_2() {
    let file = middle().closing(&[1]).file();
    assert_eq!(file.len(), 81);
    #[rustfmt::skip]
    let header = [
        2, 0, 3, 0, 3, 0, 1, 0,
        40, 0, 0, 0, 30, 0, 0, 0,
        70, 0, 0, 0, 2, 0, 0, 0,
        72, 0, 0, 0, 6, 0, 0, 0,
        78, 0, 0, 0, 3, 0, 0, 0,
    ];
    assert_eq!(file[..40], header);
    assert_eq!(file[40..78], middle().file()[32..]);
    assert_eq!(file[78..], [0, 1, 0]);
    assert_eq!(check(&file), 0);
}

#[test]
fn through_the_zone_or_round_it() {
    let starts = middles().map(|file| {
        let mut table = [9; 4];
        assert_eq!(start(&file, &mut table), 0);
        table
    });
    assert_eq!(starts, [[2, 3, 0, 9], [2, 3, 0, 9], [0, 1, 2, 9]]);
}

#[test]
fn gap_and_cost_of_both() {
    // Times are 5, 5 and 15 at every flow. Through the zone 2·5 + 3·5 are
    // spent, round it 5 + 2·15.
    let through = |gap| AuditAnswer {
        refusal: 0,
        gap,
        cost: 64 * 25,
        over: 0,
    };
    let round = |gap| AuditAnswer {
        refusal: 0,
        gap,
        cost: 64 * 35,
        over: 0,
    };
    let refused = AuditAnswer {
        refusal: 20,
        ..AuditAnswer::default()
    };
    let [first, open, closed] = middles();
    for file in [first, open] {
        assert_eq!(audit(&file, &[2, 3, 0], 1), through(0));
        assert_eq!(audit(&file, &[0, 1, 2], 1), round(10));
    }
    // Where the zone is closed, to go round it is the least there is.
    assert_eq!(audit(&closed, &[2, 3, 0], 1), refused);
    assert_eq!(audit(&closed, &[0, 1, 2], 1), round(0));
}

#[test]
fn flow_through_the_zone_is_refused() {
    let closed = &middles()[2];
    for (table, share, number) in [
        ([2, 3, 0], 1, 20),
        ([1, 2, 1], 1, 20),
        ([1, 10, 17], 9, 20),
        ([0, 9, 18], 9, 0),
        ([1, 9, 17], 9, 16),
        ([28, 9, 18], 9, 15),
        ([2, 3, 0], 0, 14),
    ] {
        assert_eq!(audit(closed, &table, share).refusal, number);
        let mut after = table;
        let answer = pass(closed, &mut after, share);
        assert_eq!(answer.refusal, number);
        if number != 0 {
            assert_eq!((answer.gap, answer.cost, answer.share), (0, 0, 0));
            assert_eq!(answer.over, 0);
            assert_eq!(after, table);
        }
        for (length, number) in [(90, number), (89, if number == 0 { 18 } else { number })] {
            let mut bytes = vec![0xAB; length];
            assert_eq!(page(closed, &table, share, &mut bytes), number);
            assert!(number == 0 || bytes == vec![0xAB; length]);
        }
    }
    assert_eq!(start(closed, &mut [2, 3, 0]), 0);
    assert_eq!(run(closed, &mut [2, 3, 0], 5, 0).refusal, 0);
}

#[test]
fn a_run_round_the_zone() {
    // At four times capacity the way round takes 15 + 256·9, and still nobody
    // goes through the zone.
    let mut draft = middle();
    draft.links[2] = [0, 2, 15, 9, 1];
    draft.trips[0] = vec![4, 1, 0];
    let mut table = [7; 3];
    let answer = run(&draft.clone().closing(&[1]).file(), &mut table, 1_024, 0);
    assert_eq!((answer.ending, answer.judged), (REACHED, 1));
    assert_eq!((answer.share, answer.gap, table), (1, 0, [0, 1, 4]));
    assert_eq!(answer.over, 1);
    let answer = run(&draft.closing(&[]).file(), &mut table, 1_024, 0);
    assert_eq!((answer.ending, table), (REACHED, [4, 5, 0]));
    assert_eq!(answer.over, 2);
}

#[test]
fn the_zone_as_a_destination() {
    let mut draft = middle();
    draft.destinations = vec![1, 2];
    draft.trips = vec![vec![3, 0, 0], vec![2, 1, 0]];
    let mut table = [0; 6];
    assert_eq!(start(&draft.closing(&[1]).file(), &mut table), 0);
    assert_eq!(table, [3, 0, 0, 0, 1, 2]);
}

#[test]
fn packing_version_2() {
    let study = middle().closing(&[1]);
    let file = study.file_with_gaps(&[&[1], &[2; 9], &[3; 4], &[4; 2], &[5; 3]]);
    assert_eq!(file.len(), 81 + 19);
    let mut output = [0xAB; 83];
    assert_eq!(pack(&file, &mut output), 0);
    assert_eq!(output[..81], study.file());
    assert_eq!(output[81..], [0xAB; 2]);
    let mut again = [0; 81];
    assert_eq!(pack(&output[..81], &mut again), 0);
    assert_eq!(again[..], study.file());
    // Version 1 needs no more than it did.
    for (file, length, number) in [
        (&file, 80, 17),
        (&file, 81, 0),
        (&middle().file(), 69, 17),
        (&middle().file(), 70, 0),
    ] {
        assert_eq!(pack(file, &mut vec![0; length]), number);
    }
}

#[test]
fn listings_of_version_2() {
    let [first, open, closed] = middles();
    let expected = "reached\njudged 1\nshare 1\ngap 0\ncost 2240\nover 0\n\
        link 0 0 5\nlink 1 1 5\nlink 2 2 15\n";
    assert_eq!(listed(&input(10, 0, &closed)), expected);
    assert_eq!(listed(&input(10, 0, &open)), listed(&input(10, 0, &first)));
    let expected = concat!(
        "  0   0   1     0.00     0.05\n",
        "  1   1   2     1.00     0.05\n",
        "  2   0   2     2.00     0.15\n",
    );
    assert_eq!(page_listed(&input(10, 0, &closed)), expected);
    assert_eq!(listed(&input(10, 0, &closed[..39])), "refused 4\n");
    let odd = middle().with_closed(vec![0, 2, 0]).file();
    assert_eq!(listed(&input(10, 0, &odd)), "refused 19\n");
    // The longest file.
    for (length, first) in [(65_536, "reached"), (65_537, "refused 1")] {
        let mut file = closed.clone();
        file.resize(length, 2);
        let text = listed(&input(10, 0, &file));
        assert_eq!(text.lines().next(), Some(first));
    }
}

/// The town in version 3, with this power on link 0.
fn town_of_power(power: u16) -> Versioned {
    Draft::town().with_powers(vec![power, 4])
}

#[test]
fn the_file_of_version_3() {
    let file = town_of_power(3).file();
    assert_eq!(file.len(), 72);
    #[rustfmt::skip]
    let header = [
        3, 0, 2, 0, 2, 0, 1, 0,
        40, 0, 0, 0, 24, 0, 0, 0,
        64, 0, 0, 0, 2, 0, 0, 0,
        66, 0, 0, 0, 4, 0, 0, 0,
        70, 0, 0, 0, 2, 0, 0, 0,
    ];
    assert_eq!(file[..40], header);
    #[rustfmt::skip]
    let rest = [
        0, 0, 1, 0, 10, 0, 10, 0, 2, 0, 3, 0,
        0, 0, 1, 0, 15, 0, 0, 0, 1, 0, 4, 0,
        1, 0,
        2, 0, 0, 0,
        0, 0,
    ];
    assert_eq!(file[40..], rest);
    assert_eq!(check(&file), 0);
    // In any order.
    let open = Draft::town().closing(&[]).with_powers(vec![3, 4]);
    assert_eq!(open.file(), file);
    assert_eq!(open.packed_length(), 72);
    let closed = Draft::town().with_powers(vec![3, 4]).closing(&[0]);
    assert_eq!(closed, Draft::town().closing(&[0]).with_powers(vec![3, 4]));
    assert_eq!(closed.file()[70..], [1, 0]);
}

/// Times of link 0 with each power, by the road, by the page and by the gap.
#[test]
fn times_of_each_power() {
    for (power, times) in [
        (1, [10, 10, 19, 20, 20, 49, 50]),
        (2, [10, 10, 19, 20, 20, 168, 170]),
        (3, [10, 10, 19, 20, 20, 642, 650]),
        (4, [10, 10, 19, 20, 20, 2_530, 2_570]),
    ] {
        let road = Road { power, ..LINK_0 };
        let mut study = town_of_power(power);
        study.draft.trips[0][0] = 9;
        let file = study.file();
        // At share 32 a step is one of the table's numbers.
        for (step, time) in [0, 1, 63, 64, 65, 255, 256].into_iter().zip(times) {
            assert_eq!(road.time_on(step), time);
            assert_eq!(road.time(u64::from(step), 32), time);
            let table = [step, 288 - step];
            let mut bytes = [0; 60];
            assert_eq!(page(&file, &table, 32, &mut bytes), 0);
            let hundredths = format!("{}.{:02}", time / 100, time % 100);
            assert_eq!(bytes[21..29], *format!("{hundredths:>8}").as_bytes());
            let answer = audit(&file, &table, 32);
            let least = time.min(15) * 288;
            assert_eq!(
                answer.gap,
                u64::from(time * step + 15 * (288 - step) - least)
            );
            assert_eq!(
                answer.over,
                u32::from(step == 256) + u32::from(288 - step >= 128)
            );
        }
    }
}

/// P1 to P4 with each power: past the curve the time is a + b·4^q.
#[test]
fn flows_of_8_and_9_with_each_power() {
    for (power, level, below) in [(1, 50, 49), (2, 170, 168), (3, 650, 642), (4, 2_570, 2_530)] {
        let road = Road { power, ..LINK_0 };
        assert_eq!(road.time(2, 1), 20);
        assert_eq!(road.time(8, 1), level);
        assert_eq!(road.time(9, 1), level);
        assert_eq!(road.time(511, 64), below);
        let mut study = town_of_power(power);
        study.draft.trips[0][0] = 9;
        let file = study.file();
        assert_eq!(audit(&file, &[8, 1], 1).over, 1);
        assert_eq!(audit(&file, &[7, 2], 1).over, 0);
        assert_eq!(audit(&file, &[511, 65], 64).over, 0);
    }
}

/// P5 and P6 with each power. The cost is two wide treads up to capacity.
#[test]
fn the_start_with_each_power() {
    for (power, cost) in [(1, 1_848), (2, 1_640), (3, 1_546), (4, 1_488)] {
        let file = town_of_power(power).file();
        let mut table = [7, 9, 11];
        assert_eq!(start(&file, &mut table), 0);
        assert_eq!(table, [2, 0, 11]);
        let answer = audit(&file, &table, 1);
        let rises = (0..64_u64).map(|step| 10 * step.pow(power.into()) / 64_u64.pow(power.into()));
        assert_eq!(answer.cost, 2 * (640 + rises.sum::<u64>()));
        assert_eq!((answer.gap, answer.cost), (10, cost));
    }
}

/// P7 and P8 with each power: the gentler the rise, the more trips go the other
/// way before both take 15.
#[test]
fn the_pass_of_each_power() {
    for (power, taken) in [(1, 8), (2, 3), (3, 2), (4, 1)] {
        let file = town_of_power(power).file();
        let mut table = [16, 0];
        let answer = pass(&file, &mut table, 8);
        assert_eq!((answer.outcome, answer.gap), (MOVED, 80));
        assert_eq!((answer.share, table), (8 + taken, [16, 2 * taken]));
        let mut bytes = [0; 60];
        assert_eq!(page(&file, &table, answer.share, &mut bytes), 0);
        assert_eq!(bytes[21..29], *b"    0.15");
        assert_eq!(audit(&file, &table, answer.share).gap, 0);
    }
}

#[test]
fn a_run_with_power_1() {
    let file = town_of_power(1).file();
    let mut table = [3, 4, 5];
    let answer = run(&file, &mut table, 10, 0);
    let expected = RunAnswer {
        refusal: 0,
        ending: REACHED,
        judged: 2,
        share: 2,
        gap: 0,
        cost: 3_448,
        over: 0,
    };
    assert_eq!((answer, table), (expected, [2, 2, 5]));
    let expected = "reached\njudged 2\nshare 2\ngap 0\ncost 3448\nover 0\n\
        link 0 2 15\nlink 1 2 15\n";
    assert_eq!(listed(&input(10, 0, &file)), expected);
    let expected = "  0   0   1     1.00     0.15\n  1   0   1     1.00     0.15\n";
    assert_eq!(page_listed(&input(10, 0, &file)), expected);
}

/// With power 4 all is as in version 1, and the power of a road without a rise
/// does not matter.
#[test]
fn the_listing_of_version_3() {
    for other in 1..=4 {
        let file = Draft::town().with_powers(vec![4, other]).file();
        assert_eq!(listed(&input(10, 0, &file)), listed(&input(10, 0, &town())));
        assert_eq!(page_listed(&input(10, 0, &file)), PAGE);
    }
    for power in [0, 5, 65_535] {
        let file = town_of_power(power).file();
        assert_eq!(listed(&input(10, 0, &file)), "refused 7\n");
    }
    let file = town_of_power(2).file();
    assert_eq!(listed(&input(10, 0, &file[..39])), "refused 4\n");
}

#[test]
fn packing_version_3() {
    let study = middle().closing(&[1]).with_powers(vec![1, 2, 3]);
    let file = study.file_with_gaps(&[&[1], &[2; 9], &[3; 4], &[4; 2], &[5; 3]]);
    assert_eq!(file.len(), 87 + 19);
    let mut output = [0xAB; 89];
    assert_eq!(pack(&file, &mut output), 0);
    assert_eq!(output[..87], study.file());
    assert_eq!(output[87..], [0xAB; 2]);
    let mut again = [0; 87];
    assert_eq!(pack(&output[..87], &mut again), 0);
    assert_eq!(again[..], study.file());
    for (length, number) in [(81, 17), (86, 17), (87, 0)] {
        assert_eq!(pack(&file, &mut vec![0; length]), number);
    }
}

/// A taking back that is made and leaves this share.
fn left(share: u32) -> TakeBackAnswer {
    TakeBackAnswer { refusal: 0, share }
}

/// Taking back is refused with this number and leaves the table as it was.
#[track_caller]
fn not_taken_back(file: &[u8], table: &[u32], share: u32, note: &[u16], number: u8) {
    let mut after = table.to_vec();
    let expected = TakeBackAnswer {
        refusal: number,
        share: 0,
    };
    assert_eq!(take_back(file, &mut after, share, note), expected);
    assert_eq!(after, table);
}

/// P7 with its note, and back. Numbers after the first p·m and 1 + p·n are
/// untouched.
#[test]
fn a_move_and_back() {
    let mut table = [16, 0, 77];
    let mut note = [5, 6, 7, 8];
    let answer = second::pass(&town(), &mut table, 8, &mut note);
    assert_eq!((answer.outcome, answer.share), (MOVED, 9));
    assert_eq!((table, note), ([16, 2, 77], [1, 1, 65_535, 8]));
    assert_eq!(take_back(&town(), &mut table, 9, &note), left(8));
    assert_eq!((table, note), ([16, 0, 77], [1, 1, 65_535, 8]));
}

#[test]
fn a_doubling_and_back() {
    let mut table = [2, 0, 77];
    let mut note = [5, 6, 7, 8];
    let answer = second::pass(&town(), &mut table, 1, &mut note);
    assert_eq!((answer.outcome, answer.share), (MOVED, 2));
    assert_eq!((table, note), ([4, 0, 77], [0, 65_535, 65_535, 8]));
    assert_eq!(take_back(&town(), &mut table, 2, &note), left(1));
    assert_eq!((table, note), ([2, 0, 77], [0, 65_535, 65_535, 8]));
}

/// 'Finest' and refusals leave the note as it was.
#[test]
fn no_move_and_no_note() {
    for (table, share, refusal) in [
        ([0, 2_048].as_slice(), 1_024, 0),
        (&[2, 0], 0, 14),
        (&[3, 0], 1, 15),
        (&[1, 0], 1, 16),
        (&[2], 1, 12),
    ] {
        let mut after = table.to_vec();
        let mut note = [5, 6, 7, 8];
        let answer = second::pass(&town(), &mut after, share, &mut note);
        assert_eq!((answer.refusal, answer.outcome == MOVED), (refusal, false));
        assert_eq!((after.as_slice(), note), (table, [5, 6, 7, 8]));
    }
}

/// From the start to the fifth table and all the way back, with the notes kept.
#[test]
fn all_moves_of_a_run_and_back() {
    let mut table = [0; 2];
    assert_eq!(start(&town(), &mut table), 0);
    let mut share = 1;
    let mut moves = Vec::new();
    for _ in 0..4 {
        let mut note = [9; 3];
        let before = (table, share);
        share = second::pass(&town(), &mut table, share, &mut note).share;
        moves.push((before, note));
    }
    assert_eq!((table, share), ([16, 2], 9));
    let steps: Vec<u16> = moves.iter().map(|(_, note)| note[0]).collect();
    assert_eq!(steps, [0, 0, 0, 1]);
    for (before, note) in moves.into_iter().rev() {
        assert_eq!(take_back(&town(), &mut table, share, &note), left(before.1));
        share = before.1;
        assert_eq!((table, share), before);
    }
}

/// Notes that do not lead from node 0 to the destination.
#[test]
fn notes_that_do_not_lead() {
    for link in [2, 3, 511, 512, 513, 1_024, 65_534, 65_535] {
        not_taken_back(&town(), &[16, 2], 9, &[1, link, 65_535], 21);
    }
    // A link of another node, and links that go round.
    let file = town_with(|draft| {
        draft.nodes = 3;
        draft.links.extend([[2, 0, 5, 0, 1], [0, 2, 5, 0, 1]]);
        draft.trips[0] = vec![2, 0, 0];
    });
    let table = [16, 2, 0, 0];
    not_taken_back(&file, &table, 9, &[1, 2, 65_535, 0], 21);
    not_taken_back(&file, &table, 9, &[1, 3, 65_535, 2], 21);
    not_taken_back(&file, &table, 9, &[1, 3, 65_535, 65_535], 21);
    not_taken_back(&file, &table, 9, &[1, 3, 65_535, 3], 21);
    for node_2 in [0, 2, 3, 4, 65_535] {
        for destination in [0, 1, 3, 9, 65_535] {
            let mut after = table;
            let note = [1, 1, destination, node_2];
            assert_eq!(take_back(&file, &mut after, 9, &note), left(8));
            assert_eq!(after, [16, 0, 0, 0]);
        }
    }
}

/// j at and above the share, and entries smaller than their part.
#[test]
fn too_much_to_take_back() {
    for (table, share, note, number) in [
        ([16, 2], 9, [1, 1, 0], 0),
        ([16, 2], 9, [1, 0, 0], 0),
        ([16, 2], 9, [2, 1, 0], 22),
        ([16, 2], 9, [8, 0, 0], 0),
        ([16, 2], 9, [8, 1, 0], 22),
        ([18, 0], 9, [8, 0, 0], 0),
        ([18, 0], 9, [9, 0, 0], 22),
        ([18, 0], 9, [10, 0, 0], 22),
        ([18, 0], 9, [1_024, 0, 0], 22),
        ([18, 0], 9, [1_025, 0, 0], 22),
        ([18, 0], 9, [65_535, 0, 0], 22),
        ([18, 0], 9, [65_535, 2, 0], 21),
        ([18, 0], 9, [9, 65_535, 0], 21),
        ([18, 0], 9, [1, 1, 0], 22),
        ([2, 0], 1, [1, 0, 0], 22),
        ([2_048, 0], 1_024, [1_023, 0, 0], 0),
        ([2_047, 1], 1_024, [1_023, 0, 0], 0),
        ([2_045, 3], 1_024, [1_023, 0, 0], 22),
        ([2_048, 0], 1_024, [1_024, 0, 0], 22),
    ] {
        if number != 0 {
            not_taken_back(&town(), &table, share, &note, number);
            continue;
        }
        let step = u32::from(note[0]);
        let mut after = table;
        assert_eq!(
            take_back(&town(), &mut after, share, &note),
            left(share - step)
        );
        let mut expected = table;
        expected[usize::from(note[1])] -= 2 * step;
        assert_eq!(after, expected);
    }
}

/// Odd entries and shares cannot be halved; the links of the note are not
/// looked at, nor are numbers after the first p·m.
#[test]
fn halving() {
    for (table, share, number) in [
        ([16, 4, 7], 10, 0),
        ([20, 0, 7], 10, 0),
        ([17, 3, 7], 10, 22),
        ([16, 2, 6], 9, 22),
        ([2, 0, 6], 1, 22),
        ([1_024, 1_024, 1], 1_024, 0),
        ([1_023, 1_025, 1], 1_024, 22),
        ([1_024, 1_022, 1], 1_023, 22),
    ] {
        for links in [[65_535, 65_535], [0, 0], [2, 9], [1, 0]] {
            let note = [0, links[0], links[1]];
            if number != 0 {
                not_taken_back(&town(), &table, share, &note, number);
                continue;
            }
            let mut after = table;
            assert_eq!(
                take_back(&town(), &mut after, share, &note),
                left(share / 2)
            );
            assert_eq!(after, [table[0] / 2, table[1] / 2, table[2]]);
        }
    }
}

/// The questions in their order: 12, 14, 15, 16, 21, 22.
#[test]
fn refused_takings_back() {
    for (table, share, note, number) in [
        ([16].as_slice(), 0, [9, 9].as_slice(), 12),
        (&[16], 9, &[1, 1, 0], 12),
        (&[16, 2], 0, &[9, 9], 12),
        (&[16, 2], 0, &[1], 12),
        (&[16, 2], 0, &[], 12),
        (&[19, 0], 0, &[9, 9, 9], 14),
        (&[19, 0], 1_025, &[9, 9, 9], 14),
        (&[19, 0], 9, &[9, 9, 9], 15),
        (&[16, 1], 9, &[9, 9, 9], 16),
        (&[16, 2], 9, &[9, 9, 9], 21),
        (&[16, 2], 9, &[9, 1, 9], 22),
        (&[16, 2], 9, &[2, 1, 9], 22),
    ] {
        not_taken_back(&town(), table, share, note, number);
    }
}

/// Through a closed zone nothing is taken back: the links into it are not
/// permitted, and a table with flow there is refused before.
#[test]
fn a_note_through_the_zone() {
    let [first, open, closed] = middles();
    for file in [&first, &open] {
        let mut table = [16, 24, 0];
        assert_eq!(take_back(file, &mut table, 8, &[1, 0, 1, 9]), left(7));
        assert_eq!(table, [14, 21, 0]);
    }
    not_taken_back(&closed, &[16, 24, 0], 8, &[1, 0, 1, 9], 20);
    not_taken_back(&closed, &[0, 8, 16], 8, &[1, 0, 1, 9], 21);
    // The zone's own trips leave it, and the others go round it.
    let mut table = [0, 8, 16];
    assert_eq!(take_back(&closed, &mut table, 8, &[1, 2, 1, 9]), left(7));
    assert_eq!(table, [0, 7, 14]);
    let mut note = [9; 4];
    let answer = second::pass(&closed, &mut table, 7, &mut note);
    assert_eq!((answer.share, note), (71, [64, 2, 1, 65_535]));
    assert_eq!(table, [0, 71, 142]);
}

/// With other powers the moves are others, and all are taken back.
#[test]
fn back_with_each_power() {
    for (power, step) in [(1, 8), (2, 3), (3, 2), (4, 1)] {
        let file = town_of_power(power).file();
        let mut table = [16, 0];
        let mut note = [0; 3];
        let answer = second::pass(&file, &mut table, 8, &mut note);
        assert_eq!(note, [step, 1, 65_535]);
        assert_eq!(take_back(&file, &mut table, answer.share, &note), left(8));
        assert_eq!(table, [16, 0]);
    }
}

/// The town in version 4 with two cars and so many lorries.
fn town_with_lorries(lorries: u16, barred: &[usize]) -> Versioned {
    let town = Draft::town().with_lorries(vec![vec![lorries, 0]]);
    town.barring(barred)
}

#[test]
fn the_file_of_version_4() {
    let study = town_with_lorries(1, &[0]).with_powers(vec![3, 4]);
    let file = study.file();
    assert_eq!(file.len(), 94);
    #[rustfmt::skip]
    let header = [
        4, 0, 2, 0, 2, 0, 1, 0,
        56, 0, 0, 0, 24, 0, 0, 0,
        80, 0, 0, 0, 2, 0, 0, 0,
        82, 0, 0, 0, 4, 0, 0, 0,
        86, 0, 0, 0, 2, 0, 0, 0,
        88, 0, 0, 0, 4, 0, 0, 0,
        92, 0, 0, 0, 2, 0, 0, 0,
    ];
    assert_eq!(file[..56], header);
    #[rustfmt::skip]
    let rest = [
        0, 0, 1, 0, 10, 0, 10, 0, 2, 0, 3, 0,
        0, 0, 1, 0, 15, 0, 0, 0, 1, 0, 4, 0,
        1, 0,
        2, 0, 0, 0,
        0, 0,
        1, 0, 0, 0,
        1, 0,
    ];
    assert_eq!(file[56..], rest);
    assert_eq!(check(&file), 0);
    assert_eq!(study.packed_length(), 94);
    assert_eq!((study.table_length(), study.note_length()), (4, 5));
    assert_eq!((study.version(), study.total()), (4, 3));
}

/// Cars take link 0; lorries too, unless it is barred to them.
#[test]
fn where_cars_and_lorries_part() {
    for (barred, expected) in [
        ([].as_slice(), [2, 0, 1, 0]),
        (&[0], [2, 0, 0, 1]),
        (&[1], [2, 0, 1, 0]),
    ] {
        let mut table = [9; 5];
        let file = town_with_lorries(1, barred).file();
        assert_eq!(start(&file, &mut table), 0);
        assert_eq!((table[..4].to_vec(), table[4]), (expected.to_vec(), 9));
    }
    // Both barred: lorries have no path, and without lorries nothing is refused.
    assert_eq!(check(&town_with_lorries(1, &[0, 1]).file()), 11);
    assert_eq!(check(&town_with_lorries(0, &[0, 1]).file()), 0);
}

/// Three units on link 0 take 10 + floor(10·96⁴ / 64⁴) = 60; the cars would be
/// better off by link 1, at 15, and the lorry by its own distance.
#[test]
fn gap_and_cost_with_lorries() {
    // With link 1 barred the lorry's distance is 60, with none barred 15.
    for (barred, distance) in [([1].as_slice(), 60), (&[], 15)] {
        let file = town_with_lorries(1, barred).file();
        let answer = audit(&file, &[2, 0, 1, 0], 1);
        assert_eq!(answer.refusal, 0);
        assert_eq!(answer.gap, 3 * 60 - 2 * 15 - distance);
        assert_eq!(answer.cost, LINK_0.area(3, 1).0);
    }
    // The lorry on link 1, to which it has to keep: the cars' link takes 20.
    let file = town_with_lorries(1, &[0]).file();
    let answer = audit(&file, &[2, 0, 0, 1], 1);
    assert_eq!((answer.refusal, answer.gap), (0, 2 * 20 - 2 * 15));
    assert_eq!(audit(&file, &[2, 0, 1, 0], 1).refusal, 20);
    assert_eq!(audit(&file, &[0, 2, 1, 0], 1).refusal, 20);
    // One car on each road.
    assert_eq!(audit(&file, &[1, 1, 0, 1], 1).gap, 15 - 10);
}

/// P7 with lorries that keep to link 1: they change neither what the cars' pass
/// is nor what comes of it.
#[test]
fn the_pass_of_the_town_with_lorries() {
    let file = town_with_lorries(5, &[0]).file();
    let mut table = [16, 0, 0, 40, 7];
    let mut note = [9; 6];
    let answer = second::pass(&file, &mut table, 8, &mut note);
    assert_eq!(
        (answer.refusal, answer.outcome, answer.share),
        (0, MOVED, 9)
    );
    assert_eq!(table, [16, 2, 0, 45, 7]);
    assert_eq!(note, [1, 1, 65_535, 1, 65_535, 9]);
    assert_eq!(take_back(&file, &mut table, 9, &note), left(8));
    assert_eq!(table, [16, 0, 0, 40, 7]);
    // A note that leads the lorries by the barred link.
    let wrong = [1, 1, 65_535, 0, 65_535];
    not_taken_back(&file, &[16, 2, 0, 45], 9, &wrong, 21);
    not_taken_back(&file, &[16, 2, 0, 45], 9, &note[..4], 12);
    // A doubling.
    let mut table = [2, 0, 0, 5, 7];
    let answer = second::pass(&file, &mut table, 1, &mut note);
    assert_eq!((answer.outcome, answer.share), (MOVED, 2));
    assert_eq!(
        (table, note),
        ([4, 0, 0, 10, 7], [0, 65_535, 65_535, 65_535, 65_535, 9])
    );
    assert_eq!(take_back(&file, &mut table, 2, &note), left(1));
    assert_eq!(table, [2, 0, 0, 5, 7]);
}

/// Without lorry trips all numbers are those of version 3, whether links are
/// barred or not.
#[test]
fn the_town_without_lorries() {
    let expected = listed(&input(10, 0, &town()));
    for barred in [[].as_slice(), &[0], &[0, 1]] {
        let file = town_with_lorries(0, barred).file();
        assert_eq!(listed(&input(10, 0, &file)), expected);
        assert_eq!(page_listed(&input(10, 0, &file)), PAGE);
        let mut table = [3; 5];
        let answer = run(&file, &mut table, 10, 0);
        let mut other = [3; 2];
        assert_eq!(run(&town(), &mut other, 10, 0), answer);
        assert_eq!(table, [16, 2, 0, 0, 3]);
        let audited = audit(&file, &table, 9);
        assert_eq!(audited, audit(&town(), &other, 9));
    }
}

/// The listing and the page show both classes together.
#[test]
fn the_listing_of_version_4() {
    let file = town_with_lorries(3, &[0]).file();
    let expected = "reached\njudged 5\nshare 9\ngap 0\ncost 39024\nover 0\n\
        link 0 16 15\nlink 1 29 15\n";
    assert_eq!(listed(&input(10, 0, &file)), expected);
    let expected = "  0   0   1     1.77     0.15\n  1   0   1     3.22     0.15\n";
    assert_eq!(page_listed(&input(10, 0, &file)), expected);
    let both = town_with_lorries(3, &[0, 1]).file();
    assert_eq!(listed(&input(10, 0, &both)), "refused 11\n");
    let wrong = town_with_lorries(3, &[]).with_barred(vec![0, 2]).file();
    assert_eq!(listed(&input(10, 0, &wrong)), "refused 23\n");
    assert_eq!(page_listed(&input(10, 0, &wrong)), "refused 23\n");
    assert_eq!(listed(&input(10, 0, &file[..55])), "refused 4\n");
}

/// Trips of both classes: to where they are, and at most 65,535 together.
#[test]
fn trips_of_both_classes() {
    let with = |cars: u16, lorries: [u16; 2]| {
        let mut town = Draft::town();
        town.trips[0][0] = cars;
        check(&town.with_lorries(vec![lorries.to_vec()]).file())
    };
    assert_eq!(with(2, [1, 1]), 9);
    assert_eq!(with(2, [65_533, 0]), 0);
    assert_eq!(with(2, [65_534, 0]), 10);
    assert_eq!(with(65_535, [0, 0]), 0);
    assert_eq!(with(65_535, [1, 0]), 10);
    assert_eq!(with(0, [65_535, 0]), 0);
}

#[test]
fn packing_version_4() {
    let study = middle().closing(&[1]).with_powers(vec![1, 2, 3]);
    let study = study.with_lorries(vec![vec![4, 0, 0]]).barring(&[0]);
    let file = study.file_with_gaps(&[&[1], &[2; 9], &[3; 4], &[4; 2], &[5; 3], &[6], &[7; 2]]);
    assert_eq!(file.len(), 112 + 22);
    let mut output = [0xAB; 114];
    assert_eq!(pack(&file, &mut output), 0);
    assert_eq!(output[..112], study.file());
    assert_eq!(output[112..], [0xAB; 2]);
    let mut again = [0; 112];
    assert_eq!(pack(&output[..112], &mut again), 0);
    assert_eq!(again[..], study.file());
    for (length, number) in [(103, 17), (111, 17), (112, 0)] {
        assert_eq!(pack(&file, &mut vec![0; length]), number);
    }
}
