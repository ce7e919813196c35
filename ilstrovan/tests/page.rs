//! The page, its lines as text and its refusals.

use ilstrovan::{LINE_BYTES, page, run};
use second::draft::{Dice, Draft, DraftLink, Plan, grid};

/// What no line holds.
const BLANK: u8 = 0xEE;

/// The page of the town of two roads at share 9, with flows 16 and 2.
const TOWN: &str = concat!(
    "  0   0   1     1.77     0.15\n",
    "  1   0   1     0.22     0.15\n",
);

/// A study whose links all lead from node 0 to node 1, each with free time, rise
/// and capacity.
fn side_by_side(roads: &[[u16; 3]], trips: u16) -> Draft {
    Draft {
        nodes: 2,
        links: roads.iter().map(|&[a, b, c]| [0, 1, a, b, c]).collect(),
        destinations: vec![1],
        trips: vec![vec![trips, 0]],
    }
}

/// The page of an accepted table.
fn text_of(draft: &Draft, table: &[u32], share: u32) -> String {
    let mut bytes = vec![BLANK; LINE_BYTES * draft.links.len()];
    page(&draft.file(), table, share, &mut bytes).expect("accepted");
    String::from_utf8(bytes).expect("a page is text")
}

/// The number of a refusal, once the page slice is seen to be as it was.
fn refusal(file: &[u8], table: &[u32], share: u32, length: usize) -> u8 {
    let mut bytes = vec![BLANK; length];
    let result = page(file, table, share, &mut bytes);
    assert_eq!(bytes, vec![BLANK; length]);
    result.expect_err("a refusal").number()
}

/// The page of a table by its definition, from each link's total S, the share W
/// and the time t.
fn defined(draft: &Draft, table: &[u32], share: u32) -> String {
    let count = draft.links.len();
    let flows = table[..draft.table_length()].chunks(count);
    let w = u64::from(share);
    let mut text = String::new();
    for (l, link) in draft.links.iter().enumerate() {
        let s: u64 = flows.clone().map(|row| u64::from(row[l])).sum();
        let (volume, time) = (with_point(100 * s / w), with_point(time(link, s, w)));
        let [tail, head, ..] = link;
        text += &format!("{l:>3} {tail:>3} {head:>3} {volume:>8} {time:>8}\n");
    }
    text
}

/// A link's time in hundredths of a minute.
fn time(link: &DraftLink, s: u64, w: u64) -> u64 {
    let [_, _, a, b, c] = link.map(u64::from);
    let r = (64 * s / (c * w)).min(256);
    a + b * r.pow(4) / 64_u64.pow(4)
}

/// Hundredths with a point before the last two digits.
fn with_point(hundredths: u64) -> String {
    format!("{}.{:02}", hundredths / 100, hundredths % 100)
}

#[test]
fn the_town_at_share_9() {
    let draft = Draft::town();
    assert_eq!(text_of(&draft, &[16, 2], 9), TOWN);
    assert_eq!(defined(&draft, &[16, 2], 9), TOWN);
}

#[test]
fn numbers_after_the_table_and_gaps_play_no_part() {
    assert_eq!(text_of(&Draft::town(), &[16, 2, u32::MAX, 7], 9), TOWN);
    let file = Draft::town().file_with_gaps([&[9], &[9; 5], &[9; 2], &[9; 40]]);
    let mut bytes = [BLANK; 60];
    page(&file, &[16, 2], 9, &mut bytes).expect("accepted");
    assert_eq!(bytes, TOWN.as_bytes());
}

#[test]
fn volumes_from_nothing_to_all_trips() {
    let draft = side_by_side(&[[10, 0, 1], [15, 0, 1]], 65_535);
    for (table, share, lines) in [
        (
            [0, 65_535],
            1,
            concat!(
                "  0   0   1     0.00     0.10\n",
                "  1   0   1 65535.00     0.15\n",
            ),
        ),
        (
            [65_535 * 1_024, 0],
            1_024,
            concat!(
                "  0   0   1 65535.00     0.10\n",
                "  1   0   1     0.00     0.15\n",
            ),
        ),
        (
            [1, 65_535 * 100 - 1],
            100,
            concat!(
                "  0   0   1     0.01     0.10\n",
                "  1   0   1 65534.99     0.15\n",
            ),
        ),
        (
            [999, 65_535 * 100 - 999],
            100,
            concat!(
                "  0   0   1     9.99     0.10\n",
                "  1   0   1 65525.01     0.15\n",
            ),
        ),
    ] {
        assert_eq!(text_of(&draft, &table, share), lines);
    }
}

/// 10 and 11 parts of 1,024 are 0.97 and 1.07 hundredths; 10,229 are 998.9.
#[test]
fn volumes_are_rounded_down() {
    let draft = side_by_side(&[[7, 0, 1]; 5], 100);
    let table = [10, 11, 10_229, 10_230, 1_024 * 100 - 20_480];
    let lines = concat!(
        "  0   0   1     0.00     0.07\n",
        "  1   0   1     0.01     0.07\n",
        "  2   0   1     9.98     0.07\n",
        "  3   0   1     9.99     0.07\n",
        "  4   0   1    80.00     0.07\n",
    );
    assert_eq!(text_of(&draft, &table, 1_024), lines);
}

/// To each destination a third of a trip goes round, beside the trips: 0.33, 1.33
/// and 1.33 on each link.
#[test]
fn volumes_are_of_all_destinations_together() {
    let draft = Draft {
        nodes: 3,
        links: vec![[0, 1, 5, 0, 1], [1, 2, 6, 0, 1], [2, 0, 7, 0, 1]],
        destinations: vec![0, 1, 2],
        trips: vec![vec![0, 1, 0], vec![0, 0, 1], vec![1, 0, 0]],
    };
    let lines = concat!(
        "  0   0   1     3.00     0.05\n",
        "  1   1   2     3.00     0.06\n",
        "  2   2   0     3.00     0.07\n",
    );
    assert_eq!(text_of(&draft, &[1, 4, 4, 4, 1, 4, 4, 4, 1], 3), lines);
}

/// Free times, and at four times capacity a + 256·b, on either side of every
/// length.
#[test]
fn times_of_one_to_seven_digits() {
    let roads = [
        [1, 0, 1],
        [9, 0, 1],
        [10, 0, 1],
        [99, 0, 1],
        [100, 0, 1],
        [999, 0, 1],
        [1_000, 0, 1],
        [9_999, 0, 1],
        [10_000, 0, 1],
        [159, 390, 1],
        [160, 390, 1],
        [63, 3_906, 1],
        [64, 3_906, 1],
        [16_383, 16_383, 1],
    ];
    let draft = side_by_side(&roads, 4 * 14);
    let lines = concat!(
        "  0   0   1     4.00     0.01\n",
        "  1   0   1     4.00     0.09\n",
        "  2   0   1     4.00     0.10\n",
        "  3   0   1     4.00     0.99\n",
        "  4   0   1     4.00     1.00\n",
        "  5   0   1     4.00     9.99\n",
        "  6   0   1     4.00    10.00\n",
        "  7   0   1     4.00    99.99\n",
        "  8   0   1     4.00   100.00\n",
        "  9   0   1     4.00   999.99\n",
        " 10   0   1     4.00  1000.00\n",
        " 11   0   1     4.00  9999.99\n",
        " 12   0   1     4.00 10000.00\n",
        " 13   0   1     4.00 42104.31\n",
    );
    for share in [1, 9, 1_024] {
        assert_eq!(text_of(&draft, &[4 * share; 14], share), lines);
    }
}

/// One part of 1,024 less than two trips, and two trips: on the step below
/// capacity, and at capacity.
#[test]
fn a_page_at_share_1024() {
    let draft = Draft::town();
    let lines = concat!(
        "  0   0   1     1.99     0.19\n",
        "  1   0   1     0.00     0.15\n",
    );
    assert_eq!(text_of(&draft, &[2_047, 1], 1_024), lines);
    let lines = concat!(
        "  0   0   1     2.00     0.20\n",
        "  1   0   1     0.00     0.15\n",
    );
    assert_eq!(text_of(&draft, &[2_048, 0], 1_024), lines);
}

#[test]
fn the_page_of_a_run_that_reaches_share_1024() {
    let draft = side_by_side(&[[10, 100, 2], [12, 5, 3]], 5);
    let mut table = [0; 2];
    let ended = run(&draft.file(), &mut table, 1_024, 0).expect("accepted");
    assert_eq!((ended.share, table), (1_024, [1_280, 3_840]));
    let lines = concat!(
        "  0   0   1     1.25     0.25\n",
        "  1   0   1     3.75     0.24\n",
    );
    assert_eq!(text_of(&draft, &table, 1_024), lines);
}

/// Whatever the page slice held, and whatever lies before and after the lines.
#[test]
fn a_page_fills_its_lines_and_nothing_else() {
    let file = Draft::town().file();
    for fill in [0, b' ', b'9', BLANK] {
        for after in [0, 1, 2, 29, 30, 31, 300] {
            for (before, lent) in [(0, after), (5, 0), (5, after)] {
                let mut bytes = vec![fill; before + 60 + after];
                let slice = &mut bytes[before..][..60 + lent];
                assert_eq!(page(&file, &[16, 2], 9, slice), Ok(()));
                let guard = |length| vec![fill; length];
                let expected = [guard(before), TOWN.into(), guard(after)].concat();
                assert_eq!(bytes, expected);
            }
        }
    }
}

#[test]
fn a_page_slice_that_is_too_short() {
    let file = Draft::town().file();
    for length in [0, 1, 29, 30, 31, 59] {
        assert_eq!(refusal(&file, &[16, 2], 9, length), 18);
    }
    let refused = page(&file, &[16, 2], 9, &mut [0; 59]).expect_err("a refusal");
    assert_eq!(
        refused.to_string(),
        "refused 18: the page slice is shorter than 30 bytes a link"
    );
}

/// Too short or not, the page slice is asked about last; and what fails 15 here
/// fails 16 too.
#[test]
fn question_18_comes_last() {
    let file = Draft::town().file();
    for length in [0, 59, 60, 61] {
        assert_eq!(refusal(&[], &[], 0, length), 1);
        assert_eq!(refusal(&file[..57], &[], 0, length), 4);
        assert_eq!(refusal(&file, &[16], 0, length), 12);
        assert_eq!(refusal(&file, &[16, 2], 0, length), 14);
        assert_eq!(refusal(&file, &[16, 2], 1_025, length), 14);
        assert_eq!(refusal(&file, &[19, 0], 9, length), 15);
        assert_eq!(refusal(&file, &[u32::MAX, 3], 9, length), 15);
        assert_eq!(refusal(&file, &[16, 1], 9, length), 16);
        assert_eq!(refusal(&file, &[18, 1], 9, length), 16);
    }
}

/// Node 1 is closed, and the flow of 2 on links 0 and 1 leads through it.
#[test]
fn question_18_comes_after_20() {
    let draft = Draft {
        nodes: 3,
        links: vec![[0, 1, 5, 0, 1], [1, 2, 5, 0, 1], [0, 2, 20, 0, 1]],
        destinations: vec![2],
        trips: vec![vec![2, 1, 0]],
    };
    let file = draft.clone().closing(&[1]).file();
    for length in [0, 89, 90, 91] {
        assert_eq!(refusal(&file, &[2, 2, 0], 1, length), 16);
        assert_eq!(refusal(&file, &[2, 3, 0], 1, length), 20);
        assert_eq!(refusal(&file, &[1, 2, 1], 1, length), 20);
    }
    assert_eq!(refusal(&file, &[0, 1, 2], 1, 89), 18);
    let mut bytes = [BLANK; 90];
    page(&file, &[0, 1, 2], 1, &mut bytes).expect("accepted");
    let text = defined(&draft, &[0, 1, 2], 1);
    assert_eq!(bytes, text.as_bytes());
    let open = draft.closing(&[]).file();
    page(&open, &[2, 3, 0], 1, &mut bytes).expect("accepted");
}

/// 128 nodes, 512 links and 32 destinations.
fn largest(dice: &mut Dice) -> Draft {
    let plan = Plan {
        nodes: (128, 128),
        links: (512, 512),
        destinations: 32,
        time: 500,
        capacity: 700,
        trips: 30,
        tenths: 9,
    };
    let mut links = grid(dice, 16, 8, 512, plan.time, plan.capacity);
    while links.len() < 512 {
        links.push(dice.pick(&links));
    }
    loop {
        let draft = plan.with_links(dice, 128, links.clone());
        if draft.destinations.len() == 32 {
            return draft;
        }
    }
}

#[test]
fn pages_of_the_largest_study() {
    let draft = largest(&mut Dice::new(512));
    let file = draft.file();
    let mut table = vec![0; 32 * 512];
    for budget in [1, 2, 25] {
        let ended = run(&file, &mut table, budget, 0).expect("accepted");
        let text = text_of(&draft, &table, ended.share);
        assert_eq!(text, defined(&draft, &table, ended.share));
        assert_eq!(text.lines().count(), 512);
        assert!(text.split_inclusive('\n').all(|line| line.len() == 30));
        assert_eq!(refusal(&file, &table, ended.share, 30 * 512 - 1), 18);
    }
}

/// Every link as full as question 15 allows, at the longest time.
#[test]
fn a_page_of_full_columns() {
    let mut links = vec![[100, 127, 16_383, 16_383, 1]; 256];
    links.extend([[127, 100, 16_383, 16_383, 1]; 255]);
    let mut trips = vec![0; 128];
    trips[100] = 65_535;
    let draft = Draft {
        nodes: 128,
        links,
        destinations: vec![127],
        trips: vec![trips],
    };
    let text = text_of(&draft, &[1_024 * 65_535; 511], 1_024);
    let lines: Vec<&str> = text.lines().collect();
    assert_eq!(lines[0], "  0 100 127 65535.00 42104.31");
    assert_eq!(lines[255], "255 100 127 65535.00 42104.31");
    assert_eq!(lines[510], "510 127 100 65535.00 42104.31");
    assert_eq!(text, defined(&draft, &[1_024 * 65_535; 511], 1_024));
}
