//! Every question at its boundary, by every call that puts it.

use second::draft::{Draft, DraftLink, Versioned};
use second::{
    AuditAnswer, MOVED, PassAnswer, RunAnswer, TakeBackAnswer, audit, check, pack, page, run,
    start, take_back,
};

/// A pass whose note is long enough and the same afterwards where the pass is
/// refused.
#[track_caller]
fn pass(file: &[u8], table: &mut [u32], share: u32) -> PassAnswer {
    let mut note = vec![0x5A5A; 8_193];
    let answer = second::pass(file, table, share, &mut note);
    assert!(answer.refusal == 0 || note == vec![0x5A5A; 8_193]);
    answer
}

/// Taking back is refused with this number and leaves the table as it was.
#[track_caller]
fn take_back_refused(file: &[u8], table: &[u32], share: u32, note: &[u16], number: u8) {
    let mut after = table.to_vec();
    let expected = TakeBackAnswer {
        refusal: number,
        share: 0,
    };
    assert_eq!(take_back(file, &mut after, share, note), expected);
    assert_eq!(after, table);
}

/// Taking back is made and leaves this table and share.
#[track_caller]
fn taken_back(file: &[u8], table: &[u32], share: u32, note: &[u16], left: (&[u32], u32)) {
    let mut after = table.to_vec();
    let expected = TakeBackAnswer {
        refusal: 0,
        share: left.1,
    };
    assert_eq!(take_back(file, &mut after, share, note), expected);
    assert_eq!(after, left.0);
}

/// A small acceptable study.
fn sample() -> Draft {
    Draft {
        nodes: 3,
        links: vec![[0, 1, 10, 10, 2], [1, 2, 5, 300, 3], [2, 0, 8, 0, 1]],
        destinations: vec![1, 2],
        trips: vec![vec![3, 0, 2], vec![4, 5, 0]],
    }
}

fn sample_with(change: impl FnOnce(&mut Draft)) -> Vec<u8> {
    let mut draft = sample();
    change(&mut draft);
    draft.file()
}

/// The same in version 2. The links form a ring, and node 2 is closed: from
/// there everybody still gets everywhere, and nobody needs to pass it.
fn closed_sample() -> Versioned {
    sample().closing(&[2])
}

fn closed_sample_with(change: impl FnOnce(&mut Versioned)) -> Vec<u8> {
    let mut study = closed_sample();
    change(&mut study);
    study.file()
}

/// All calls refuse with this number and change nothing, whatever comes after
/// the file.
#[track_caller]
fn refused(file: &[u8], number: u8) {
    assert_eq!(check(file), number);
    for length in [0, 32_768] {
        let mut output = vec![0x5A; length];
        assert_eq!(pack(file, &mut output), number);
        assert_eq!(output, vec![0x5A; length]);

        let mut table = vec![u32::MAX; length];
        assert_eq!(start(file, &mut table), number);
        for argument in [0, 1, 1_025, u32::MAX] {
            let expected = PassAnswer {
                refusal: number,
                ..PassAnswer::default()
            };
            assert_eq!(pass(file, &mut table, argument), expected);
            let expected = RunAnswer {
                refusal: number,
                ..RunAnswer::default()
            };
            assert_eq!(run(file, &mut table, argument, argument as u16), expected);
            let expected = AuditAnswer {
                refusal: number,
                ..AuditAnswer::default()
            };
            assert_eq!(audit(file, &table, argument), expected);
            page_refused(file, &table, argument, number);
            for length in [0, 8_193] {
                take_back_refused(file, &table, argument, &vec![1; length], number);
            }
        }
        assert_eq!(table, vec![u32::MAX; length]);
    }
}

/// A page of this table is refused with this number and changes nothing,
/// however long the page slice is.
#[track_caller]
fn page_refused(file: &[u8], table: &[u32], share: u32, number: u8) {
    for length in [0, 89, 90, 30 * 512] {
        let mut bytes = vec![0x5A; length];
        assert_eq!(page(file, table, share, &mut bytes), number);
        assert_eq!(bytes, vec![0x5A; length]);
    }
}

/// All calls accept the file.
#[track_caller]
fn accepted(file: &[u8]) {
    assert_eq!(check(file), 0);
    let mut output = vec![0; 65_536];
    assert_eq!(pack(file, &mut output), 0);
    let mut table = vec![9; 32_768];
    assert_eq!(start(file, &mut table), 0);
    assert_eq!(audit(file, &table, 1).refusal, 0);
    assert_eq!(page(file, &table, 1, &mut [0; 30 * 512]), 0);
    let before = table.clone();
    let mut note = vec![9; 8_193];
    let answer = second::pass(file, &mut table, 1, &mut note);
    assert_eq!((answer.refusal, answer.outcome), (0, MOVED));
    taken_back(file, &table, answer.share, &note, (&before, 1));
    assert_eq!(run(file, &mut table, 2, 0).refusal, 0);
}

fn with_u16(file: &[u8], place: usize, number: u16) -> Vec<u8> {
    let mut file = file.to_vec();
    file[place..place + 2].copy_from_slice(&number.to_le_bytes());
    file
}

fn with_u32(file: &[u8], place: usize, number: u32) -> Vec<u8> {
    let mut file = file.to_vec();
    file[place..place + 4].copy_from_slice(&number.to_le_bytes());
    file
}

/// The file with these pairs of offset and length.
fn with_pairs<const N: usize>(file: &[u8], pairs: [(u32, u32); N]) -> Vec<u8> {
    let mut file = file.to_vec();
    for (section, (offset, length)) in pairs.into_iter().enumerate() {
        file = with_u32(&file, 8 + 8 * section, offset);
        file = with_u32(&file, 12 + 8 * section, length);
    }
    file
}

const OFFSETS: [usize; 3] = [8, 16, 24];

#[test]
fn question_1_length_of_the_file() {
    let file = sample().file();
    refused(&[], 1);
    refused(&file[..31], 1);
    refused(&[0; 31], 1);
    refused(&[0; 32], 2);
    refused(&[0; 65_536], 2);
    refused(&[0; 65_537], 1);
    refused(&vec![1; 1 << 20], 1);
    let mut longest = file;
    longest.resize(65_536, 0xFF);
    accepted(&longest);
    longest.push(0xFF);
    refused(&longest, 1);
}

#[test]
fn question_2_version() {
    let file = sample().file();
    let closed = closed_sample().file();
    for version in [0, 5, 6, 255, 256, 257, 258, 259, 260, 512, 1_024, 65_535] {
        refused(&with_u16(&file, 0, version), 2);
        refused(&with_u16(&closed, 0, version), 2);
    }
    // Even where nothing else is right.
    for version in [0, 5, 65_535] {
        refused(&with_u16(&[0xFF; 32], 0, version), 2);
    }
    for version in 1..=4 {
        refused(&with_u16(&[0xFF; 32], 0, version), 3);
    }
    // The sections of version 1 begin too early for version 2; those of
    // version 2 are right for version 1, which does not read the fourth.
    refused(&with_u16(&file, 0, 2), 4);
    accepted(&with_u16(&closed, 0, 1));
    let odd = closed_sample_with(|study| study.closed = Some(vec![9; 3]));
    refused(&odd, 19);
    accepted(&with_u16(&odd, 0, 1));
}

#[test]
fn question_3_counts() {
    let file = sample().file();
    for (place, inside, outside) in [
        (2, [2, 128], [0, 1, 129, 258, 65_535]),
        (4, [1, 512], [0, 513, 514, 1_025, 65_535]),
        (6, [1, 2], [0, 4, 33, 257, 65_535]),
    ] {
        for number in outside {
            refused(&with_u16(&file, place, number), 3);
        }
        for number in inside {
            // Within the limits the lengths are at fault, or nothing.
            let other = with_u16(&file, place, number);
            assert!(matches!(check(&other), 0 | 5));
        }
    }
    // No more destinations than nodes.
    let crowd = with_u16(&file, 2, 40);
    assert_eq!(check(&with_u16(&crowd, 6, 32)), 5);
    refused(&with_u16(&crowd, 6, 33), 3);
    let few = with_u16(&file, 2, 31);
    refused(&with_u16(&few, 6, 32), 3);
    assert_eq!(check(&with_u16(&few, 6, 31)), 5);
    // Two nodes and two destinations.
    accepted(
        &Draft {
            nodes: 2,
            links: vec![[0, 1, 1, 0, 1]],
            destinations: vec![0, 1],
            trips: vec![vec![0, 0], vec![1, 0]],
        }
        .file(),
    );
    // One destination more than that, and otherwise in order.
    refused(
        &Draft {
            nodes: 2,
            links: vec![[0, 1, 1, 0, 1]],
            destinations: vec![0, 1, 2],
            trips: vec![vec![0; 2]; 3],
        }
        .file(),
        3,
    );
}

#[test]
fn question_4_order_of_the_sections() {
    let draft = sample();
    let file = draft.file();
    let (links, destinations, trips) = (30, 4, 12);
    let close = [(32, links), (62, destinations), (66, trips)];
    assert_eq!(file, with_pairs(&file, close));
    assert_eq!(file.len(), 78);
    accepted(&file);

    // The first offset.
    for offset in [31, 30, 1, 0] {
        refused(&with_u32(&file, 8, offset), 4);
    }
    // Every offset and length one too large.
    for place in [8, 12, 16, 20, 24, 28] {
        let here = u32::from_le_bytes(file[place..place + 4].try_into().unwrap());
        refused(&with_u32(&file, place, here + 1), 4);
        for number in [0x7FFF_FFFF, 0x8000_0000, u32::MAX - 31, u32::MAX] {
            refused(&with_u32(&file, place, number), 4);
        }
    }
    // One too small: sections overlap; lengths leave a gap and do not fit.
    refused(&with_u32(&file, 16, 61), 4);
    refused(&with_u32(&file, 24, 65), 4);
    refused(&with_u32(&file, 12, 29), 5);
    refused(&with_u32(&file, 20, 3), 5);
    refused(&with_u32(&file, 28, 11), 5);
    // Offset and length that pass 2³² together.
    refused(
        &with_pairs(
            &file,
            [(32, links), (62, destinations), (u32::MAX - 11, 12)],
        ),
        4,
    );
    refused(
        &with_pairs(
            &file,
            [(32, u32::MAX - 31), (62, destinations), (66, trips)],
        ),
        4,
    );
    refused(
        &with_pairs(
            &file,
            [(u32::MAX - 29, 30), (62, destinations), (66, trips)],
        ),
        4,
    );
    refused(
        &with_pairs(&file, [(32, links), (u32::MAX - 3, 4), (66, trips)]),
        4,
    );
    // Another order.
    refused(
        &with_pairs(&file, [(62, links), (32, destinations), (66, trips)]),
        4,
    );
    refused(
        &with_pairs(&file, [(66, links), (62, destinations), (32, trips)]),
        4,
    );

    // Gaps, which are not read.
    for gap in 0..4 {
        for length in [1, 2, 7, 1_000] {
            let bytes = vec![0xFF; length];
            let mut gaps: [&[u8]; 4] = [&[]; 4];
            gaps[gap] = &bytes;
            let file = draft.file_with_gaps(gaps);
            assert_eq!(file.len(), 78 + length);
            accepted(&file);
            // The end of the last section within the file.
            refused(&file[..77], 4);
        }
    }
    // The last section ends with the file, or one byte behind it.
    let gap = vec![0; 65_536 - 78];
    let full = draft.file_with_gaps([&[], &[], &gap, &[]]);
    assert_eq!(full.len(), 65_536);
    accepted(&full);
    refused(&full[..65_535], 4);
}

#[test]
fn question_5_lengths_of_the_sections() {
    let draft = sample();
    // With room behind each section, other lengths go through question 4.
    let file = draft.file_with_gaps([&[0; 8]; 4]);
    accepted(&file);
    for (section, place) in OFFSETS.into_iter().enumerate() {
        let here = [30, 4, 12][section];
        for length in [here - 1, here + 1, 0, 1, here + 8] {
            refused(&with_u32(&file, place + 4, length), 5);
        }
        refused(&with_u32(&file, place + 4, here + 9), 4);
    }
    // Nothing but a header, with empty sections at its end.
    let header = with_pairs(&file[..32], [(32, 0); 3]);
    refused(&header, 5);
    refused(&with_pairs(&header, [(31, 0), (32, 0), (32, 0)]), 4);
    refused(&with_pairs(&header, [(32, 0), (32, 0), (33, 0)]), 4);
    // Other counts.
    for (place, number) in [(2, 2), (2, 4), (4, 2), (4, 4), (6, 1), (6, 3)] {
        refused(&with_u16(&file, place, number), 5);
    }
}

#[test]
fn question_6_ends_of_links() {
    for link in 0..3 {
        for end in 0..2 {
            for node in [3, 127, 128, 256, 259, 65_535] {
                refused(&sample_with(|draft| draft.links[link][end] = node), 6);
            }
        }
        refused(
            &sample_with(|draft| draft.links[link][1] = draft.links[link][0]),
            6,
        );
    }
}

#[test]
fn question_7_times_and_capacities() {
    for link in 0..3 {
        for (field, inside, outside) in [
            (2, [1, 2, 16_383].as_slice(), [0, 16_384, 65_535].as_slice()),
            (3, &[0, 1, 16_383], &[16_384, 32_768, 65_535]),
            (4, &[1, 2, 65_535], &[0]),
        ] {
            for &number in inside {
                accepted(&sample_with(|draft| draft.links[link][field] = number));
            }
            for &number in outside {
                refused(&sample_with(|draft| draft.links[link][field] = number), 7);
            }
        }
    }
}

#[test]
fn question_8_destinations() {
    for destinations in [
        [1, 1],
        [2, 1],
        [2, 0],
        [1, 3],
        [3, 2],
        [1, 257],
        [0, 65_535],
    ] {
        refused(
            &sample_with(|draft| draft.destinations = destinations.to_vec()),
            8,
        );
    }
}

#[test]
fn question_9_trips_to_oneself() {
    for trips in [1, 255, 256, 65_535] {
        refused(&sample_with(|draft| draft.trips[0][1] = trips), 9);
        refused(&sample_with(|draft| draft.trips[1][2] = trips), 9);
    }
}

#[test]
fn question_10_total() {
    let total = |first, second| {
        sample_with(|draft| {
            draft.trips = vec![vec![first, 0, 0], vec![0, second, 0]];
        })
    };
    accepted(&total(65_535, 0));
    accepted(&total(0, 65_535));
    accepted(&total(65_534, 1));
    refused(&total(65_535, 1), 10);
    refused(&total(32_768, 32_768), 10);
    refused(&total(65_535, 65_535), 10);
    // So many that 16 bits would come round to little again, all over.
    let full = Draft {
        nodes: 128,
        links: vec![[0, 1, 1, 0, 1]],
        destinations: (0..32).collect(),
        trips: (0..32)
            .map(|s| (0..128).map(|j| if j == s { 0 } else { 65_535 }).collect())
            .collect(),
    };
    refused(&full.file(), 10);
}

#[test]
fn question_11_paths() {
    // Without the link into 1 nobody gets there.
    refused(&sample_with(|draft| draft.links[0] = [1, 0, 10, 10, 2]), 11);
    accepted(&sample_with(|draft| {
        draft.links[0] = [1, 0, 10, 10, 2];
        draft.trips[0] = vec![0; 3];
        draft.trips[1] = vec![0, 5, 0];
    }));
    // A node without a way out, with trips to one destination or the other.
    let stuck = |first: u16, second: u16| {
        sample_with(|draft| {
            draft.nodes = 4;
            draft.links.push([0, 3, 1, 1, 1]);
            draft.trips[0].push(first);
            draft.trips[1].push(second);
        })
    };
    accepted(&stuck(0, 0));
    refused(&stuck(1, 0), 11);
    refused(&stuck(0, 1), 11);
    // A destination that nobody reaches, after one that all reach.
    let lone = |trips: Vec<u16>| {
        sample_with(|draft| {
            draft.nodes = 4;
            draft.links.push([3, 0, 1, 1, 1]);
            draft.destinations = vec![1, 3];
            draft.trips[0].push(2);
            draft.trips[1] = trips;
        })
    };
    accepted(&lone(vec![0; 4]));
    refused(&lone(vec![0, 0, 1, 0]), 11);
}

#[test]
fn question_12_table() {
    let file = sample().file();
    for length in [0, 1, 5, 6, 7] {
        let number = if length < 6 { 12 } else { 0 };
        let mut table = vec![4; length];
        assert_eq!(start(&file, &mut table), number);
        assert_eq!(audit(&file, &table, 1).refusal, number);
        if number != 0 {
            assert_eq!(run(&file, &mut table, 0, 0).refusal, 12);
            assert_eq!(pass(&file, &mut table, 0).refusal, 12);
            assert_eq!(audit(&file, &table, 0).refusal, 12);
            page_refused(&file, &table, 0, 12);
            page_refused(&file, &table, 1, 12);
            take_back_refused(&file, &table, 0, &[9; 7], 12);
            take_back_refused(&file, &table, 0, &[9; 6], 12);
            assert_eq!(table, vec![4; length]);
        }
    }
}

/// The note needs 1 + p·n numbers, and this is asked before the share.
#[test]
fn question_12_note() {
    let file = sample().file();
    let mut started = vec![0; 6];
    assert_eq!(start(&file, &mut started), 0);
    for length in [0, 1, 6, 7, 8, 4_097] {
        let short = length < 7;
        let note = vec![0x5A5A; length];
        for (share, number) in [(0, 14), (1, 0), (2, 16), (1_025, 14)] {
            let number = if short { 12 } else { number };
            let (mut table, mut after) = (started.clone(), note.clone());
            let answer = second::pass(&file, &mut table, share, &mut after);
            assert_eq!(answer.refusal, number);
            if number == 0 {
                assert!(after[..7] != note[..7] && after[7..] == note[7..]);
            } else {
                assert_eq!((answer.outcome, answer.share), (0, 0));
                assert!(table == started && after == note);
            }
            // In the note stands no link.
            let number = if number == 0 { 21 } else { number };
            take_back_refused(&file, &started, share, &note, number);
        }
    }
}

#[test]
fn question_13_budget() {
    let file = sample().file();
    for budget in [0, 1_025, 1_026, 2_048, 65_536, 65_537, 1 << 31, u32::MAX] {
        let mut table = vec![3; 8];
        let answer = run(&file, &mut table, budget, 9);
        let expected = RunAnswer {
            refusal: 13,
            ..RunAnswer::default()
        };
        assert_eq!(answer, expected);
        assert_eq!(table, vec![3; 8]);
    }
    for budget in [1, 2, 1_023, 1_024] {
        assert_eq!(run(&file, &mut [3; 8], budget, 9).refusal, 0);
    }
}

#[test]
fn question_14_share() {
    let file = sample().file();
    // A table that fails 15 and 16 as well.
    for share in [0, 1_025, 2_048, 65_537, 1 << 31, u32::MAX] {
        let mut table = vec![u32::MAX; 6];
        let answer = pass(&file, &mut table, share);
        let expected = PassAnswer {
            refusal: 14,
            ..PassAnswer::default()
        };
        assert_eq!(answer, expected);
        assert_eq!(table, vec![u32::MAX; 6]);
        assert_eq!(audit(&file, &table, share).refusal, 14);
        page_refused(&file, &table, share, 14);
    }
    let mut started = vec![0; 6];
    assert_eq!(start(&file, &mut started), 0);
    for share in [1, 2, 1_023, 1_024] {
        let table: Vec<u32> = started.iter().map(|flow| flow * share).collect();
        assert_eq!(audit(&file, &table, share).refusal, 0);
        assert_eq!(page(&file, &table, share, &mut [0; 90]), 0);
        assert_eq!(pass(&file, &mut table.clone(), share).refusal, 0);
    }
}

#[test]
fn question_15_total_flow() {
    let draft = sample(); // T is 14
    let file = draft.file();
    let mut started = vec![0; 6];
    assert_eq!(start(&file, &mut started), 0);
    for share in [1_u32, 5, 1_024] {
        let table: Vec<u32> = started.iter().map(|flow| flow * share).collect();
        // All links form one ring; let flow go round it for one destination,
        // until the fullest link is as full as it may be.
        let fullest = (0..3)
            .map(|link| table[link] + table[3 + link])
            .max()
            .unwrap();
        for row in [0, 3] {
            for (more, number) in [(0, 0), (1, 15)] {
                let mut round = table.clone();
                for link in 0..3 {
                    round[row + link] += share * 14 - fullest + more;
                }
                assert_eq!(audit(&file, &round, share).refusal, number);
                assert_eq!(page(&file, &round, share, &mut [0; 90]), number);
                let before = round.clone();
                assert_eq!(pass(&file, &mut round, share).refusal, number);
                assert!(number == 0 || round == before);
            }
        }
        // Numbers whose sum would come round to little in 32 bits.
        for (first, second) in [(u32::MAX, 1), (u32::MAX, u32::MAX), (1 << 31, 1 << 31)] {
            let mut wild = table.clone();
            (wild[1], wild[4]) = (first, second);
            assert_eq!(audit(&file, &wild, share).refusal, 15);
            page_refused(&file, &wild, share, 15);
            assert_eq!(pass(&file, &mut wild, share).refusal, 15);
        }
    }
}

#[test]
fn question_16_conservation() {
    let file = sample().file();
    let mut started = vec![0; 6];
    assert_eq!(start(&file, &mut started), 0);
    for share in [1, 64, 1_024] {
        let table: Vec<u32> = started.iter().map(|flow| flow * share).collect();
        for place in 0..6 {
            for more in [1, u32::MAX] {
                let mut other = table.clone();
                other[place] = other[place].wrapping_add(more);
                if table[place] == 0 && more == u32::MAX {
                    assert_eq!(audit(&file, &other, share).refusal, 15);
                    continue;
                }
                let before = other.clone();
                assert_eq!(audit(&file, &other, share).refusal, 16);
                page_refused(&file, &other, share, 16);
                assert_eq!(pass(&file, &mut other, share).refusal, 16);
                assert_eq!(other, before);
            }
        }
        // Right for all destinations together, but for neither alone.
        let mut crossed = table.clone();
        crossed[0] += 1;
        crossed[3] -= 1;
        assert_eq!(audit(&file, &crossed, share).refusal, 16);
        page_refused(&file, &crossed, share, 16);
        // Another share's table.
        assert_eq!(
            audit(&file, &table, share - 1).refusal,
            if share == 1 { 14 } else { 16 }
        );
    }
    // All flow taken away: nothing in, nothing out, but trips.
    assert_eq!(audit(&file, &[0; 6], 1).refusal, 16);
}

#[test]
fn question_17_output() {
    let draft = sample();
    for gaps in [[0; 4], [1, 2, 3, 4], [0, 0, 0, 500]] {
        let bytes = gaps.map(|length| vec![6; length]);
        let file = draft.file_with_gaps(bytes.each_ref().map(Vec::as_slice));
        for length in [0, 1, 77] {
            let mut output = vec![0xCC; length];
            assert_eq!(pack(&file, &mut output), 17);
            assert_eq!(output, vec![0xCC; length]);
        }
        for length in [78, 79, 5_000] {
            let mut output = vec![0xCC; length];
            assert_eq!(pack(&file, &mut output), 0);
            assert_eq!(output[..78], draft.file());
            assert!(output[78..].iter().all(|&byte| byte == 0xCC));
        }
    }
}

#[test]
fn question_18_page() {
    let file = sample().file();
    let mut started = vec![0; 6];
    assert_eq!(start(&file, &mut started), 0);
    for share in [1, 64, 1_024] {
        let table: Vec<u32> = started.iter().map(|flow| flow * share).collect();
        for length in [0, 1, 30, 60, 89] {
            let mut bytes = vec![0xCC; length];
            assert_eq!(page(&file, &table, share, &mut bytes), 18);
            assert_eq!(bytes, vec![0xCC; length]);
        }
        for length in [90, 91, 119, 120, 5_000] {
            let mut bytes = vec![0xCC; length];
            assert_eq!(page(&file, &table, share, &mut bytes), 0);
            // The last of the lines, and nothing after it.
            assert_eq!(bytes[60..72], *b"  2   2   0 ");
            assert_eq!(bytes[89], b'\n');
            assert!(bytes[90..].iter().all(|&byte| byte == 0xCC));
        }
        // The table does not conserve, and the page slice is too short.
        let mut other = table.clone();
        other[0] += 1;
        page_refused(&file, &other, share, 16);
    }
    // With the most links there are.
    let full = sample_with(|draft| draft.links.resize(512, [0, 1, 900, 0, 1]));
    let mut table = vec![0; 1_024];
    assert_eq!(start(&full, &mut table), 0);
    for (length, number) in [(15_359, 18), (15_360, 0), (15_361, 0)] {
        assert_eq!(page(&full, &table, 1, &mut vec![0xCC; length]), number);
    }
}

/// Questions 1 to 5 for files too short for the header of version 2.
#[test]
fn short_files_of_version_2() {
    let file = closed_sample().file();
    for length in 0..32 {
        refused(&file[..length], 1);
    }
    for length in 32..file.len() {
        refused(&file[..length], 4);
    }
    accepted(&file);
    // Question 3 comes before 4, and question 2 before both.
    for length in [32, 36, 39, 40] {
        refused(&with_u16(&file, 2, 1)[..length], 3);
        refused(&with_u16(&file, 4, 0)[..length], 3);
        refused(&with_u16(&file, 6, 4)[..length], 3);
        refused(&with_u16(&file, 0, 5)[..length], 2);
    }
    // A file of 39 bytes whose pairs, as far as there are any, are right.
    let header = with_pairs(&file[..40], [(40, 0); 4]);
    refused(&header, 5);
    refused(&header[..39], 4);
    refused(
        &with_pairs(&header, [(39, 0), (40, 0), (40, 0), (40, 0)]),
        4,
    );
    refused(
        &with_pairs(&header, [(40, 0), (40, 0), (40, 0), (41, 0)]),
        4,
    );
}

#[test]
fn question_4_order_of_four_sections() {
    let study = closed_sample();
    let file = study.file();
    let close = [(40, 30), (70, 4), (74, 12), (86, 3)];
    assert_eq!(file, with_pairs(&file, close));
    assert_eq!(file.len(), 89);
    for offset in [39, 32, 31, 1, 0] {
        refused(&with_u32(&file, 8, offset), 4);
    }
    for place in (8..40).step_by(4) {
        let here = u32::from_le_bytes(file[place..place + 4].try_into().unwrap());
        refused(&with_u32(&file, place, here + 1), 4);
        for number in [0x7FFF_FFFF, 0x8000_0000, u32::MAX - 39, u32::MAX] {
            refused(&with_u32(&file, place, number), 4);
        }
    }
    for (place, number) in [(16, 69), (24, 73), (32, 85), (32, 0), (32, 40)] {
        refused(&with_u32(&file, place, number), 4);
    }
    // Each two sections in each other's place, in header and file.
    for first in 0..4 {
        for second in 0..first {
            let mut pairs = close;
            pairs.swap(first, second);
            refused(&with_pairs(&file, pairs), 4);
        }
    }
    let closed_first = [&file[..40], &file[86..], &file[40..86]].concat();
    let pairs = [(43, 30), (73, 4), (77, 12), (40, 3)];
    refused(&with_pairs(&closed_first, pairs), 4);
    // Gaps, which are not read.
    for place in 0..5 {
        for length in [1, 2, 8, 1_000] {
            let file = study.file_with_gap(place, length);
            assert_eq!(file.len(), 89 + length);
            accepted(&file);
            refused(&file[..88], 4);
        }
    }
    // The closed bytes end with the longest file, or one byte behind it.
    let gap = vec![0; 65_536 - 89];
    let full = study.file_with_gaps(&[&[], &[], &[], &gap]);
    assert_eq!(full.len(), 65_536);
    accepted(&full);
    refused(&full[..65_535], 4);
}

#[test]
fn question_5_fourth_length() {
    let gap: &[u8] = &[0; 8];
    let file = closed_sample().file_with_gaps(&[gap; 5]);
    accepted(&file);
    for (section, here) in [30, 4, 12, 3].into_iter().enumerate() {
        let place = 12 + 8 * section;
        for length in [here - 1, here + 1, 0, here + 8] {
            refused(&with_u32(&file, place, length), 5);
        }
        refused(&with_u32(&file, place, here + 9), 4);
    }
    // Another number of nodes, with the trips of that number.
    let mut study = closed_sample();
    study.closed = Some(vec![0; 4]);
    refused(&study.file(), 5);
    study.closed = Some(vec![0; 2]);
    refused(&study.file(), 5);
    study.closed = Some(vec![]);
    refused(&study.file(), 5);
}

#[test]
fn question_19_closed_bytes() {
    for node in 0..3 {
        for byte in [2, 3, 128, 129, 254, 255] {
            let closed = |study: &mut Versioned| {
                study.closed = Some(vec![0; 3]);
                study.closed.as_mut().unwrap()[node] = byte;
            };
            refused(&closed_sample_with(closed), 19);
        }
    }
    for bytes in [vec![0; 3], vec![0, 0, 1]] {
        accepted(&closed_sample_with(|study| study.closed = Some(bytes)));
    }
    // The last of all nodes.
    let mut full = Draft {
        nodes: 128,
        links: vec![[0, 127, 1, 0, 1]],
        destinations: vec![127],
        trips: vec![vec![0; 128]],
    }
    .closing(&[63, 64, 127]);
    accepted(&full.file());
    for node in [0, 62, 63, 64, 65, 126, 127] {
        let mut other = full.clone();
        other.closed.as_mut().unwrap()[node] += 2;
        refused(&other.file(), 19);
    }
    full.draft.trips[0][0] = 5;
    accepted(&full.file());
}

#[test]
fn question_11_paths_and_closed_nodes() {
    // From 2 to 1 they pass 0, from 0 to 2 they pass 1.
    let closing = |nodes: &[u16]| sample().closing(nodes).file();
    accepted(&closing(&[]));
    accepted(&closing(&[2]));
    for nodes in [[0].as_slice(), &[1], &[0, 1], &[0, 2], &[1, 2], &[0, 1, 2]] {
        refused(&closing(nodes), 11);
    }
    // Without these trips there is nothing to refuse.
    let fewer = |trips: [[u16; 3]; 2], nodes: &[u16]| {
        let mut draft = sample();
        draft.trips = trips.map(Vec::from).to_vec();
        draft.closing(nodes).file()
    };
    accepted(&fewer([[3, 0, 0], [4, 5, 0]], &[0]));
    accepted(&fewer([[3, 0, 2], [0, 5, 0]], &[1]));
    accepted(&fewer([[3, 0, 0], [0, 5, 0]], &[0, 1, 2]));
    refused(&fewer([[3, 0, 1], [0, 5, 0]], &[0, 1, 2]), 11);
    refused(&fewer([[3, 0, 0], [1, 5, 0]], &[0, 1, 2]), 11);
}

/// Flow to `row`'s destination once round the ring, on top of the start.
fn round_the_ring(file: &[u8], row: usize, amount: u32) -> Vec<u32> {
    let mut table = vec![0; 6];
    assert_eq!(start(file, &mut table), 0);
    for link in 0..3 {
        table[3 * row + link] += amount;
    }
    table
}

#[test]
fn question_20_flow_that_a_link_may_not_carry() {
    let mut draft = sample();
    draft.links.iter_mut().for_each(|link| link[4] = 9);
    let open = draft.file();
    let file = draft.closing(&[2]).file();
    // To 1 the ring passes the closed node; to 2 it ends there, leaves it and
    // comes back.
    for (row, number) in [(0, 20), (1, 0)] {
        let table = round_the_ring(&file, row, 1);
        assert_eq!(audit(&open, &table, 1).refusal, 0);
        assert_eq!(audit(&file, &table, 1).refusal, number);
        let mut after = table.clone();
        let answer = pass(&file, &mut after, 1);
        assert_eq!(answer.refusal, number);
        if number == 20 {
            let expected = PassAnswer {
                refusal: 20,
                ..PassAnswer::default()
            };
            assert_eq!(answer, expected);
            assert_eq!(after, table);
            page_refused(&file, &table, 1, 20);
        }
    }
    // Before it come 12, 14, 15 and 16.
    let table = round_the_ring(&file, 0, 1);
    for share in [0, 1_025] {
        assert_eq!(audit(&file, &table, share).refusal, 14);
        page_refused(&file, &table, share, 14);
    }
    assert_eq!(audit(&file, &table[..5], 1).refusal, 12);
    assert_eq!(audit(&file, &table, 2).refusal, 16);
    let many = round_the_ring(&file, 0, 15);
    assert_eq!(audit(&file, &many, 1).refusal, 15);
    page_refused(&file, &many, 1, 15);
    // Only the first numbers count.
    let longer = [round_the_ring(&file, 1, 1), vec![u32::MAX; 3]].concat();
    assert_eq!(audit(&file, &longer, 1).refusal, 0);
    // Start and run do not put the question.
    assert_eq!(start(&file, &mut table.clone()), 0);
    assert_eq!(run(&file, &mut table.clone(), 4, 0).refusal, 0);
}

#[test]
fn question_17_output_of_version_2() {
    let study = closed_sample();
    for gaps in [[0; 5], [1, 2, 3, 4, 5], [0, 0, 0, 0, 500]] {
        let bytes = gaps.map(|length| vec![6; length]);
        let file = study.file_with_gaps(&bytes.each_ref().map(Vec::as_slice));
        for length in [0, 1, 78, 86, 88] {
            let mut output = vec![0xCC; length];
            assert_eq!(pack(&file, &mut output), 17);
            assert_eq!(output, vec![0xCC; length]);
        }
        for length in [89, 90, 5_000] {
            let mut output = vec![0xCC; length];
            assert_eq!(pack(&file, &mut output), 0);
            assert_eq!(output[..89], study.file());
            assert!(output[89..].iter().all(|&byte| byte == 0xCC));
        }
    }
}

/// A fault of a study, and the number of the question that refuses it.
type Fault = (u8, fn(&mut Versioned));

/// Faults for the last questions of a check.
const TRIP_FAULTS: [Fault; 3] = [
    (9, |study| {
        study.draft.trips[0][1] = 1;
        study.draft.trips[0][2] = 1;
        study.draft.trips[1][1] = 1;
    }),
    (10, |study| study.draft.trips[0][0] = 65_535),
    (11, |study| {
        let closed = study.closed.as_mut().unwrap();
        closed[0] |= 1;
        closed[1] |= 1;
    }),
];

/// With any two of these faults, which stand in the order of the questions, the
/// first one's number is answered.
fn the_first_counts(study: &Versioned, faults: &[Fault]) {
    for first in 0..faults.len() {
        for second in first..faults.len() {
            let mut study = study.clone();
            faults[first].1(&mut study);
            if first != second {
                faults[second].1(&mut study);
            }
            refused(&study.file(), faults[first].0);
        }
    }
}

/// With faults for several questions at once, the first one counts; 19 comes
/// between 8 and 9.
#[test]
fn the_first_question_counts_in_version_2() {
    let faults: [Fault; 5] = [
        (3, |study| study.draft.nodes = 200),
        (6, |study| study.draft.links.push([0, 0, 1, 1, 1])),
        (7, |study| study.draft.links.insert(0, [0, 1, 0, 1, 1])),
        (8, |study| study.draft.destinations.reverse()),
        (19, |study| study.closed = Some(vec![0, 2, 1])),
    ];
    the_first_counts(&closed_sample(), &[&faults[..], &TRIP_FAULTS].concat());
}

/// With faults for several questions at once, the first one counts.
#[test]
fn the_first_question_counts() {
    type Fault = (u8, fn(&mut Draft));
    let faults: [Fault; 7] = [
        (3, |draft| draft.nodes = 200),
        (6, |draft| draft.links.push([0, 0, 1, 1, 1])),
        (7, |draft| draft.links.insert(0, [0, 1, 0, 1, 1])),
        (8, |draft| draft.destinations.reverse()),
        (9, |draft| {
            draft.trips[0][1] = 1;
            draft.trips[0][2] = 1;
            draft.trips[1][1] = 1;
        }),
        (10, |draft| draft.trips[0][0] = 65_535),
        (11, |draft| {
            for link in &mut draft.links {
                *link = [1, 0, 1, 1, 1] as DraftLink;
            }
        }),
    ];
    for first in 0..faults.len() {
        for second in first..faults.len() {
            let file = sample_with(|draft| {
                faults[second].1(draft);
                if first != second {
                    faults[first].1(draft);
                }
            });
            refused(&file, faults[first].0);
        }
    }
}

/// The sample study in version 3, with several powers.
fn power_sample() -> Versioned {
    closed_sample().with_powers(vec![1, 4, 2])
}

fn power_sample_with(change: impl FnOnce(&mut Versioned)) -> Vec<u8> {
    let mut study = power_sample();
    change(&mut study);
    study.file()
}

#[test]
fn question_7_powers() {
    for link in 0..3 {
        for power in [0, 5, 6, 8, 255, 256, 257, 260, 1_025, 32_768, 65_535] {
            refused(
                &power_sample_with(|study| study.powers.as_mut().unwrap()[link] = power),
                7,
            );
        }
        for power in 1..=4 {
            accepted(&power_sample_with(|study| {
                study.powers.as_mut().unwrap()[link] = power;
            }));
        }
    }
}

/// The other numbers of a link are asked in version 3 too, with every power.
#[test]
fn question_7_in_version_3() {
    for power in 1..=4 {
        for (field, inside, outside) in [
            (2, [1, 16_383], [0, 16_384, 65_535]),
            (3, [0, 16_383], [16_384, 32_768, 65_535]),
            (4, [1, 65_535], [0, 0, 0]),
        ] {
            let with = |number| {
                power_sample_with(|study| {
                    study.powers = Some(vec![power; 3]);
                    study.draft.links[1][field] = number;
                })
            };
            for number in inside {
                accepted(&with(number));
            }
            for number in outside {
                refused(&with(number), 7);
            }
        }
    }
}

#[test]
fn question_7_power_of_the_last_link() {
    let mut full = sample();
    full.links.resize(512, [0, 1, 900, 0, 1]);
    let full = full.with_powers(vec![4; 512]);
    accepted(&full.file());
    for link in [0, 255, 256, 510, 511] {
        let mut other = full.clone();
        other.powers.as_mut().unwrap()[link] = 5;
        refused(&other.file(), 7);
    }
}

/// Versions 2 and 3 differ in the bytes of a link, and 1 in the header too.
#[test]
fn versions_taken_for_one_another() {
    let file = power_sample().file();
    assert_eq!(file.len(), 95);
    accepted(&file);
    refused(&with_u16(&file, 0, 1), 5);
    refused(&with_u16(&file, 0, 2), 5);
    refused(&with_u16(&closed_sample().file(), 0, 3), 5);
    refused(&with_u16(&sample().file(), 0, 3), 4);
    for version in [0, 5, 256, 259, 768, 65_535] {
        refused(&with_u16(&file, 0, version), 2);
    }
    // 60 bytes are five links of version 3 or six of version 2.
    let mut six = closed_sample();
    six.draft.links = [[1, 2, 1, 2, 1], [2, 1, 2, 1, 2]].repeat(3);
    six.draft.trips = vec![vec![0; 3], vec![0, 4, 0]];
    let file = six.file();
    accepted(&file);
    let five = with_u16(&with_u16(&file, 0, 3), 4, 5);
    accepted(&five);
    assert_eq!(check(&with_u16(&five, 4, 6)), 5);
    assert_eq!(check(&with_u16(&file, 4, 5)), 5);
}

#[test]
fn short_files_of_version_3() {
    let file = power_sample().file();
    for length in 0..32 {
        refused(&file[..length], 1);
    }
    for length in 32..file.len() {
        refused(&file[..length], 4);
    }
    // Question 3 comes before 4, and question 2 before both.
    for length in 32..=40 {
        refused(&with_u16(&file, 2, 1)[..length], 3);
        refused(&with_u16(&file, 4, 0)[..length], 3);
        refused(&with_u16(&file, 6, 4)[..length], 3);
        refused(&with_u16(&file, 0, 5)[..length], 2);
    }
    let header = with_pairs(&file[..40], [(40, 0); 4]);
    refused(&header, 5);
    refused(&header[..39], 4);
    refused(&with_u32(&header, 8, 39), 4);
}

#[test]
fn questions_4_and_5_in_version_3() {
    let study = power_sample();
    let file = study.file();
    let close = [(40, 36), (76, 4), (80, 12), (92, 3)];
    assert_eq!(file, with_pairs(&file, close));
    for offset in [39, 32, 0] {
        refused(&with_u32(&file, 8, offset), 4);
    }
    for first in 0..4 {
        for second in 0..first {
            let mut pairs = close;
            pairs.swap(first, second);
            refused(&with_pairs(&file, pairs), 4);
        }
    }
    let gap: &[u8] = &[0; 8];
    let roomy = study.file_with_gaps(&[gap; 5]);
    accepted(&roomy);
    for (section, here) in [36, 4, 12, 3].into_iter().enumerate() {
        let place = 12 + 8 * section;
        for length in [here - 1, here + 1, here - 2, here + 2, 0, here + 8] {
            refused(&with_u32(&roomy, place, length), 5);
        }
        refused(&with_u32(&roomy, place, here + 9), 4);
    }
    // Ten bytes a link.
    refused(&with_u32(&roomy, 12, 30), 5);
    for links in [2, 4] {
        refused(&with_u16(&roomy, 4, links), 5);
    }
    let closed = |bytes: usize| power_sample_with(|study| study.closed = Some(vec![0; bytes]));
    accepted(&closed(3));
    for bytes in [0, 2, 4] {
        refused(&closed(bytes), 5);
    }
    // With the longest file the sections end where it ends.
    let gap = vec![0; 65_536 - 95];
    let full = study.file_with_gaps(&[&[], &gap]);
    assert_eq!(full.len(), 65_536);
    accepted(&full);
    refused(&full[..65_535], 4);
}

/// With faults for several questions at once, the first one counts, and a wrong
/// power is a fault for question 7.
#[test]
fn the_first_question_counts_in_version_3() {
    let faults: [Fault; 6] = [
        (3, |study| study.draft.nodes = 200),
        (5, |study| study.closed.as_mut().unwrap().push(2)),
        (6, |study| study.draft.links.push([0, 0, 1, 1, 1])),
        (7, |study| study.powers = Some(vec![5, 4, 2])),
        (8, |study| study.draft.destinations.reverse()),
        (19, |study| study.closed.as_mut().unwrap()[1] = 2),
    ];
    the_first_counts(&power_sample(), &[&faults[..], &TRIP_FAULTS].concat());
    // A wrong end on the last link and a wrong power on the first.
    let file = power_sample_with(|study| {
        study.draft.links[2][1] = 3;
        study.powers = Some(vec![0, 1, 1]);
    });
    refused(&file, 6);
}

#[test]
fn question_17_output_of_version_3() {
    let study = power_sample();
    for gaps in [[0; 5], [1, 2, 3, 4, 5], [0, 0, 0, 0, 500]] {
        let bytes = gaps.map(|length| vec![6; length]);
        let file = study.file_with_gaps(&bytes.each_ref().map(Vec::as_slice));
        for length in [0, 79, 89, 94] {
            let mut output = vec![0xCC; length];
            assert_eq!(pack(&file, &mut output), 17);
            assert_eq!(output, vec![0xCC; length]);
        }
        for length in [95, 96, 5_000] {
            let mut output = vec![0xCC; length];
            assert_eq!(pack(&file, &mut output), 0);
            assert_eq!(output[..95], study.file());
            assert!(output[95..].iter().all(|&byte| byte == 0xCC));
        }
    }
}

/// Tables are asked the same with powers: 12, 14, 15, 16, 20 and 18.
#[test]
fn tables_in_version_3() {
    let mut draft = sample();
    draft.links.iter_mut().for_each(|link| link[4] = 9);
    let file = draft.closing(&[2]).with_powers(vec![3, 1, 2]).file();
    let ring = round_the_ring(&file, 0, 1);
    for (table, share, number) in [
        (&ring[..5], 1, 12),
        (&ring, 0, 14),
        (&round_the_ring(&file, 0, 15), 1, 15),
        (&ring, 2, 16),
        (&ring, 1, 20),
    ] {
        assert_eq!(audit(&file, table, share).refusal, number);
        assert_eq!(pass(&file, &mut table.to_vec(), share).refusal, number);
        page_refused(&file, table, share, number);
    }
    let table = round_the_ring(&file, 1, 1);
    assert_eq!(audit(&file, &table, 1).refusal, 0);
    assert_eq!(page(&file, &table, 1, &mut [0; 89]), 18);
    assert_eq!(run(&file, &mut [0; 6], 0, 0).refusal, 13);
}

/// A note of one loading along the ring of the sample study, to 1 and to 2.
const RING: [u16; 7] = [1, 0, 65_535, 2, 0, 1, 65_535];

/// The sample study's table at a share: all trips along the ring.
fn along_the_ring(share: u32) -> [u32; 6] {
    [5, 0, 2, 4, 9, 0].map(|flow| flow * share)
}

#[test]
fn question_21_links_of_the_note() {
    let file = sample().file();
    for step in [1, 2, 8] {
        let mut note = RING;
        note[0] = step;
        let left = 9 - u32::from(step);
        taken_back(
            &file,
            &along_the_ring(9),
            9,
            &note,
            (&along_the_ring(left), left),
        );
        // Every number that is looked at: no link, another node's link, a number
        // that would be the right link in a list of 512.
        for place in [1, 3, 4, 5] {
            for number in [3, 4, 511, 512, 513, 514, 1_024, 65_534, 65_535] {
                let mut other = note;
                other[place] = number;
                take_back_refused(&file, &along_the_ring(9), 9, &other, 21);
            }
            for more in 1..3 {
                let mut other = note;
                other[place] = (note[place] + more) % 3;
                take_back_refused(&file, &along_the_ring(9), 9, &other, 21);
            }
        }
        // The destinations' own numbers are not read.
        for place in [2, 6] {
            for number in [0, 1, 2, 3, 512, 65_534] {
                let mut other = note;
                other[place] = number;
                taken_back(
                    &file,
                    &along_the_ring(9),
                    9,
                    &other,
                    (&along_the_ring(left), left),
                );
            }
        }
    }
}

/// The sample study with links both ways: nodes without trips may be passed.
fn both_ways() -> Draft {
    let mut draft = sample();
    draft
        .links
        .extend([[1, 0, 10, 10, 2], [2, 1, 5, 9, 3], [0, 2, 8, 0, 1]]);
    draft.trips = vec![vec![3, 0, 0], vec![0, 5, 0]];
    draft
}

#[test]
fn question_21_walks() {
    let file = both_ways().file();
    // To 1 from 0: straight, or by 2. To 2 from 1: straight, or by 0.
    let table = [20, 0, 0, 0, 10, 10, 0, 40, 0, 10, 0, 10];
    assert_eq!(audit(&file, &table, 10).refusal, 0);
    for (links, number) in [
        ([0, 9, 9, 9, 1, 9], 0),
        ([5, 9, 4, 9, 1, 9], 0),
        ([0, 9, 9, 5, 3, 9], 0),
        // Round by 2, which has no trips of its own.
        ([5, 9, 2, 9, 1, 9], 21),
        ([0, 9, 9, 0, 3, 9], 21),
        ([5, 9, 65_535, 9, 1, 9], 21),
        ([5, 9, 5, 9, 1, 9], 21),
        ([0, 9, 9, 65_535, 3, 9], 21),
        // Nobody comes to where these go round.
        ([0, 3, 2, 0, 1, 2], 0),
        ([0, 1, 2, 2, 1, 4], 0),
    ] {
        let note = [[1].as_slice(), &links].concat();
        let answer = take_back(&file, &mut table.clone(), 10, &note);
        assert_eq!(
            (answer.refusal, answer.share),
            (number, if number == 0 { 9 } else { 0 })
        );
        take_back_refused(&file, &table, 9, &note, 16);
    }
}

/// A line that goes on for as many links as a walk can have.
#[test]
fn question_21_longest_walk() {
    let links: Vec<DraftLink> = (0..127)
        .flat_map(|node| [[node, node + 1, 3, 1, 9], [node + 1, node, 3, 1, 9]])
        .collect();
    let mut trips = vec![0; 128];
    trips[0] = 2;
    let draft = Draft {
        nodes: 128,
        links,
        destinations: vec![127],
        trips: vec![trips],
    };
    let file = draft.file();
    let mut table = vec![0; 254];
    assert_eq!(start(&file, &mut table), 0);
    let doubled: Vec<u32> = table.iter().map(|flow| 2 * flow).collect();
    let mut note: Vec<u16> = vec![1];
    note.extend((0..127).map(|node| 2 * node));
    note.push(65_535);
    taken_back(&file, &doubled, 2, &note, (&table, 1));
    // Back by one, from anywhere.
    for node in 1..127 {
        let mut other = note.clone();
        other[1 + node] = 2 * node as u16 - 1;
        take_back_refused(&file, &doubled, 2, &other, 21);
    }
}

#[test]
fn question_21_forbidden_links() {
    // To 1 from 0 by 2 or straight, to 2 from 1 by 0 or straight.
    let by_2 = [1, 5, 9, 4, 9, 1, 9];
    let by_0 = [1, 0, 9, 9, 5, 3, 9];
    let straight = [1, 0, 9, 9, 9, 1, 9];
    // Flow on all these ways, and on the straight ones only.
    let spread = [20, 0, 0, 0, 10, 10, 0, 40, 0, 10, 0, 10];
    let plain = [30, 0, 0, 0, 0, 0, 0, 50, 0, 0, 0, 0];
    for (closed, table, note, number) in [
        ([].as_slice(), spread, by_2, 0),
        (&[], spread, by_0, 0),
        (&[1], spread, by_2, 0),
        (&[1], spread, by_0, 0),
        (&[0], spread, by_2, 20),
        (&[2], spread, by_0, 20),
        (&[2], plain, by_2, 21),
        (&[2], plain, by_0, 22),
        (&[2], plain, straight, 0),
        (&[0], plain, by_2, 22),
        (&[0], plain, by_0, 21),
        (&[0], plain, straight, 0),
        (&[1, 2], plain, by_2, 21),
        (&[0, 1, 2], plain, by_2, 21),
        (&[0, 1, 2], plain, by_0, 21),
        (&[0, 1, 2], plain, straight, 0),
        (&[], plain, by_2, 22),
        (&[1], plain, by_2, 22),
        (&[], plain, straight, 0),
    ] {
        let file = both_ways().closing(closed).file();
        if number != 0 {
            take_back_refused(&file, &table, 10, &note, number);
            continue;
        }
        let mut left = table;
        for (place, trips) in [
            (usize::from(note[1]), 3),
            (6 + usize::from(note[5]), 5),
            (4, 3 * u32::from(note == by_2)),
            (11, 5 * u32::from(note == by_0)),
        ] {
            left[place] -= trips;
        }
        taken_back(&file, &table, 10, &note, (&left, 9));
    }
}

#[test]
fn question_22_loadings() {
    let file = sample().file();
    let with_step = |step: u16| {
        let mut note = RING;
        note[0] = step;
        note
    };
    for share in [1, 2, 9, 64, 65, 1_023, 1_024] {
        let table = along_the_ring(share);
        for step in [
            1, 2, 8, 9, 10, 63, 64, 65, 1_022, 1_023, 1_024, 1_025, 65_535,
        ] {
            let left = share.saturating_sub(u32::from(step));
            if left > 0 {
                let less = along_the_ring(left);
                taken_back(&file, &table, share, &with_step(step), (&less, left));
            } else {
                take_back_refused(&file, &table, share, &with_step(step), 22);
            }
            // 21 comes first.
            for place in [1, 3, 4, 5] {
                let mut other = with_step(step);
                other[place] = 65_535;
                take_back_refused(&file, &table, share, &other, 21);
            }
        }
    }
}

/// An entry that is exactly its part of the loading, and one that is smaller by
/// one, at every place.
#[test]
fn question_22_entries() {
    // Two links side by side for each one of the ring.
    let mut draft = sample();
    draft.links.extend(draft.links.clone());
    let file = draft.file();
    let loading = [5, 0, 2, 0, 0, 0, 4, 9, 0, 0, 0, 0];
    for (share, step) in [(2, 1), (9, 4), (1_024, 1_023)] {
        let mut note = [step, 0, 9, 2, 0, 1, 9];
        note[0] = step;
        let part = loading.map(|flow| flow * u32::from(step));
        for place in [0, 2, 6, 7] {
            for (kept, number) in [(0, 0), (1, 0), (-1, 22)] {
                // What is not taken back goes by the other link.
                let mut table = loading.map(|flow| flow * share);
                let moved = table[place] - part[place].wrapping_add_signed(kept);
                table[place] -= moved;
                table[place + 3] += moved;
                assert_eq!(audit(&file, &table, share).refusal, 0);
                if number == 0 {
                    let mut left = table;
                    left.iter_mut()
                        .zip(part)
                        .for_each(|(flow, part)| *flow -= part);
                    taken_back(
                        &file,
                        &table,
                        share,
                        &note,
                        (&left, share - u32::from(step)),
                    );
                } else {
                    take_back_refused(&file, &table, share, &note, number);
                }
            }
        }
    }
}

#[test]
fn question_22_halves() {
    let file = sample().file();
    for share in [2, 8, 512, 1_024] {
        let table = along_the_ring(share);
        let half = along_the_ring(share / 2);
        for note in [[0; 7], [0, 65_535, 65_535, 65_535, 65_535, 65_535, 65_535]] {
            taken_back(&file, &table, share, &note, (&half, share / 2));
            // Round the ring, so that all entries of a row are odd.
            for row in [0, 3] {
                let mut odd = table;
                odd[row..row + 3].iter_mut().for_each(|flow| *flow += 1);
                assert_eq!(audit(&file, &odd, share).refusal, 0);
                take_back_refused(&file, &odd, share, &note, 22);
            }
            // Later numbers do not matter.
            let longer = [table.as_slice(), &[1, u32::MAX]].concat();
            let left = [half.as_slice(), &[1, u32::MAX]].concat();
            taken_back(&file, &longer, share, &note, (&left, share / 2));
            taken_back(
                &file,
                &longer,
                share,
                &[note.as_slice(), &[7; 3]].concat(),
                (&left, share / 2),
            );
        }
        for share in [share - 1, (share + 1).min(1_023)] {
            take_back_refused(&file, &along_the_ring(share), share, &[0; 7], 22);
        }
    }
    // One odd entry among many even ones: a link side by side with each.
    let mut draft = sample();
    draft.links.extend(draft.links.clone());
    let file = draft.file();
    let table = [10, 0, 4, 0, 0, 0, 8, 18, 0, 0, 0, 0];
    taken_back(&file, &table, 2, &[0; 7], (&table.map(|flow| flow / 2), 1));
    for place in [0, 2, 6, 7] {
        let mut odd = table;
        odd[place] -= 1;
        odd[place + 3] += 1;
        take_back_refused(&file, &odd, 2, &[0; 7], 22);
    }
}

/// With faults for several questions at once, the first one counts: 12, 14, 15,
/// 16, 20, 21, 22.
#[test]
fn the_first_question_counts_in_taking_back() {
    let mut draft = sample();
    draft.links.iter_mut().for_each(|link| link[4] = 9);
    for study in [
        draft.clone().closing(&[2]),
        draft.closing(&[2]).with_powers(vec![2; 3]),
    ] {
        let file = study.file();
        let through = round_the_ring(&file, 0, 1);
        let started = round_the_ring(&file, 0, 0);
        let (right, wrong, large) = (RING, [1, 1, 0, 0, 0, 0, 0], [1, 0, 9, 2, 0, 1, 9]);
        for (table, share, note, number) in [
            (&through[..5], 0, wrong.as_slice(), 12),
            (&through, 0, &wrong[..6], 12),
            (&through, 0, &wrong, 14),
            (&through, 1_025, &wrong, 14),
            (&round_the_ring(&file, 0, 15), 1, &wrong, 15),
            (&through, 2, &wrong, 16),
            (&through, 1, &wrong, 20),
            (&through, 1, &right, 20),
            (&started, 1, &wrong, 21),
            (&started, 1, &right, 22),
            (&started, 1, &large, 22),
            (&started, 1, &[0; 7], 22),
        ] {
            take_back_refused(&file, table, share, note, number);
        }
    }
}

/// The sample study in version 4. Cars and lorries go along the ring; the lorries
/// from 0 to 2 have a link of their own beside it, and the ring's link from 1 to
/// 2 is barred to them.
fn lorry_sample() -> Versioned {
    let mut draft = sample();
    draft.links.push([1, 2, 50, 9, 4]);
    let study = draft.closing(&[2]).with_powers(vec![1, 4, 2, 3]);
    let study = study.with_lorries(vec![vec![1, 0, 1], vec![2, 1, 0]]);
    study.barring(&[1])
}

fn lorry_sample_with(change: impl FnOnce(&mut Versioned)) -> Vec<u8> {
    let mut study = lorry_sample();
    change(&mut study);
    study.file()
}

/// The lorry trips of a study.
fn lorries(study: &mut Versioned) -> &mut Vec<Vec<u16>> {
    study.lorries.as_mut().unwrap()
}

#[test]
fn version_4_and_the_others() {
    let file = lorry_sample().file();
    assert_eq!(file.len(), 139);
    accepted(&file);
    for version in [0, 5, 260, 1_024, 65_535] {
        refused(&with_u16(&file, 0, version), 2);
    }
    // Its sections are right for version 3, which does not read the last two.
    accepted(&with_u16(&file, 0, 3));
    refused(&with_u16(&file, 0, 2), 5);
    refused(&with_u16(&file, 0, 1), 5);
    for older in [
        sample().file(),
        closed_sample().file(),
        power_sample().file(),
    ] {
        refused(&with_u16(&older, 0, 4), 4);
    }
}

#[test]
fn short_files_of_version_4() {
    let file = lorry_sample().file();
    for length in [0, 31] {
        refused(&file[..length], 1);
    }
    for length in [32, 39, 40, 41, 54, 55, 56, 57, 134, 135, 138] {
        refused(&file[..length], 4);
    }
    // Question 3 comes before 4, and question 2 before both.
    for length in [32, 48, 55, 56] {
        refused(&with_u16(&file, 2, 1)[..length], 3);
        refused(&with_u16(&file, 4, 0)[..length], 3);
        refused(&with_u16(&file, 6, 4)[..length], 3);
        refused(&with_u16(&file, 0, 5)[..length], 2);
    }
    let header = with_pairs(&file[..56], [(56, 0); 6]);
    refused(&header, 5);
    refused(&header[..55], 4);
    refused(&with_u32(&header, 8, 55), 4);
    refused(&with_u32(&header, 48, 57), 4);
}

#[test]
fn questions_4_and_5_in_version_4() {
    let study = lorry_sample();
    let file = study.file();
    let close = [(56, 48), (104, 4), (108, 12), (120, 3), (123, 12), (135, 4)];
    assert_eq!(file, with_pairs(&file, close));
    for offset in [55, 40, 32, 0] {
        refused(&with_u32(&file, 8, offset), 4);
    }
    for first in 0..6 {
        for second in 0..first {
            let mut pairs = close;
            pairs.swap(first, second);
            refused(&with_pairs(&file, pairs), 4);
        }
    }
    let gap: &[u8] = &[2; 8];
    let roomy = study.file_with_gaps(&[gap; 7]);
    accepted(&roomy);
    for (section, (_, here)) in close.into_iter().enumerate() {
        let place = 12 + 8 * section;
        for length in [here - 1, here + 1, 0, here + 8] {
            refused(&with_u32(&roomy, place, length), 5);
        }
        refused(&with_u32(&roomy, place, here + 9), 4);
        accepted(&study.file_with_gap(section, 5));
    }
    for bytes in [0, 3, 5] {
        refused(
            &lorry_sample_with(|study| study.barred = Some(vec![0; bytes])),
            5,
        );
    }
    refused(&lorry_sample_with(|study| lorries(study)[1].push(0)), 5);
    // With the longest file the barred bytes end where it ends.
    let full = study.file_with_gap(5, 65_536 - 139);
    assert_eq!(full.len(), 65_536);
    accepted(&full);
    refused(&full[..65_535], 4);
}

#[test]
fn question_23_barred_bytes() {
    for link in 0..4 {
        for byte in [2, 3, 128, 129, 255] {
            let barred = |study: &mut Versioned| {
                study.barred.as_mut().unwrap()[link] = byte;
            };
            refused(&lorry_sample_with(barred), 23);
        }
    }
    for barred in [[0; 4], [0, 0, 0, 1], [0, 1, 0, 0]] {
        accepted(&lorry_sample_with(|study| {
            study.barred = Some(barred.to_vec());
        }));
    }
    // The last of all links.
    let mut full = lorry_sample();
    full.draft.links.resize(512, [0, 1, 900, 0, 1]);
    full.barred = Some(vec![0; 512]);
    accepted(&full.file());
    for link in [0, 255, 256, 511] {
        let mut other = full.clone();
        other.barred.as_mut().unwrap()[link] = 2;
        refused(&other.file(), 23);
    }
}

#[test]
fn questions_9_and_10_of_lorries() {
    for (position, node) in [(0, 1), (1, 2)] {
        for count in [1, 256, 65_535] {
            refused(
                &lorry_sample_with(|study| lorries(study)[position][node] = count),
                9,
            );
            refused(
                &lorry_sample_with(|study| study.draft.trips[position][node] = count),
                9,
            );
        }
    }
    // 14 cars and 5 lorries, one of them from 1.
    let with = |cars: u16, count: u16| {
        lorry_sample_with(|study| {
            study.draft.trips[0][0] += cars;
            lorries(study)[1][1] = count;
        })
    };
    accepted(&with(0, 65_517));
    refused(&with(0, 65_518), 10);
    refused(&with(1, 65_517), 10);
    accepted(&with(65_516, 1));
    refused(&with(65_517, 1), 10);
    refused(&with(65_517, 65_535), 10);
    accepted(&with(65_517, 0));
    // The largest trips everywhere.
    refused(
        &lorry_sample_with(|study| {
            study.draft.trips = vec![vec![65_535, 0, 65_535], vec![65_535, 65_535, 0]];
            study.lorries = Some(study.draft.trips.clone());
        }),
        10,
    );
}

#[test]
fn question_11_of_lorries() {
    // From 1 to 2 by 1 or by 3, from 2 to 1 by 2 and 0.
    let barring = |links: &[usize]| lorry_sample().barring(links).file();
    for links in [[].as_slice(), &[1], &[3]] {
        accepted(&barring(links));
    }
    for links in [[0].as_slice(), &[2], &[1, 3], &[0, 1, 2, 3]] {
        refused(&barring(links), 11);
        // Cars may still use them.
        let without = |study: Versioned| study.with_lorries(vec![vec![0; 3]; 2]);
        accepted(&without(lorry_sample()).barring(links).file());
    }
    // Lorries obey closed nodes as cars do, and cars have no trips here.
    let alone = |closed: &[u16]| {
        let mut study = lorry_sample().closing(closed);
        study.draft.trips = vec![vec![0; 3]; 2];
        study.file()
    };
    accepted(&alone(&[2]));
    refused(&alone(&[0]), 11);
    refused(&alone(&[1]), 11);
}

/// With faults for several questions at once, the first one counts; 23 comes
/// after 19 and before 9.
#[test]
fn the_first_question_counts_in_version_4() {
    let faults: [Fault; 7] = [
        (3, |study| study.draft.nodes = 200),
        (5, |study| study.barred.as_mut().unwrap().push(2)),
        (6, |study| study.draft.links[0] = [0, 0, 1, 1, 1]),
        (7, |study| study.powers = Some(vec![1, 5, 2, 3])),
        (8, |study| study.draft.destinations.reverse()),
        (19, |study| study.closed.as_mut().unwrap()[1] = 2),
        (23, |study| study.barred.as_mut().unwrap()[3] = 2),
    ];
    let of_lorries: [Fault; 3] = [
        (9, |study| {
            lorries(study)[0][1] = 1;
            lorries(study)[0][2] = 1;
            lorries(study)[1][1] = 1;
        }),
        (10, |study| lorries(study)[0][0] = 65_535),
        (11, |study| {
            let barred = study.barred.as_mut().unwrap();
            barred[0] |= 1;
            barred[3] |= 1;
        }),
    ];
    the_first_counts(&lorry_sample(), &[&faults[..], &TRIP_FAULTS].concat());
    the_first_counts(&lorry_sample(), &[&faults[..], &of_lorries].concat());
}

#[test]
fn question_17_output_of_version_4() {
    let study = lorry_sample();
    for gaps in [[0; 7], [1, 2, 3, 4, 5, 6, 7], [0, 0, 0, 0, 0, 0, 500]] {
        let bytes = gaps.map(|length| vec![6; length]);
        let file = study.file_with_gaps(&bytes.each_ref().map(Vec::as_slice));
        for length in [0, 123, 135, 138] {
            let mut output = vec![0xCC; length];
            assert_eq!(pack(&file, &mut output), 17);
            assert_eq!(output, vec![0xCC; length]);
        }
        for length in [139, 140, 5_000] {
            let mut output = vec![0xCC; length];
            assert_eq!(pack(&file, &mut output), 0);
            assert_eq!(output[..139], study.file());
            assert!(output[139..].iter().all(|&byte| byte == 0xCC));
        }
    }
}

/// All trips of the sample study with lorries: cars to 1 and to 2, then lorries.
fn flows_with_lorries(share: u32) -> [u32; 16] {
    [5, 0, 2, 0, 4, 9, 0, 0, 2, 0, 1, 0, 2, 0, 0, 3].map(|flow| flow * share)
}

/// A note of one loading that these flows are of. Nobody comes to where it has
/// 9.
const LORRY_NOTE: [u16; 13] = [1, 0, 9, 2, 0, 1, 9, 0, 9, 2, 0, 3, 9];

/// Tables of 2·p·m numbers and notes of 1 + 2·p·n, cars first.
#[test]
fn question_12_in_version_4() {
    let file = lorry_sample().file();
    let table = flows_with_lorries(2);
    for length in [0, 8, 9, 15] {
        let short = &table[..length];
        assert_eq!(start(&file, &mut short.to_vec()), 12);
        assert_eq!(run(&file, &mut short.to_vec(), 0, 0).refusal, 12);
        assert_eq!(pass(&file, &mut short.to_vec(), 2).refusal, 12);
        assert_eq!(audit(&file, short, 0).refusal, 12);
        page_refused(&file, short, 2, 12);
        take_back_refused(&file, short, 2, &LORRY_NOTE, 12);
    }
    for length in [0, 1, 7, 12] {
        let (mut after, mut note) = (table, vec![3; length]);
        let answer = second::pass(&file, &mut after, 0, &mut note);
        assert_eq!((answer.refusal, after, note), (12, table, vec![3; length]));
        take_back_refused(&file, &table, 0, &LORRY_NOTE[..length], 12);
    }
    // Later numbers of both are untouched.
    let longer = [&table[..], &[1, 2, 3]].concat();
    let note = [&LORRY_NOTE[..], &[4, 5]].concat();
    let left = [&flows_with_lorries(1)[..], &[1, 2, 3]].concat();
    taken_back(&file, &longer, 2, &note, (&left, 1));
    let (mut after, mut noted) = (longer.clone(), note.clone());
    assert_eq!(
        second::pass(&file, &mut after, 2, &mut noted).outcome,
        MOVED
    );
    assert_eq!((&after[16..], &noted[13..]), (&[1, 2, 3][..], &[4, 5][..]));
}

/// Totals and conservation are asked of both classes.
#[test]
fn questions_15_and_16_of_lorries() {
    let file = lorry_sample().file();
    let straight = flows_with_lorries(1);
    assert_eq!(audit(&file, &straight, 1).refusal, 0);
    let with = |place: usize, amount: u32| {
        let mut table = straight;
        table[place] += amount;
        table
    };
    // T is 19, and 13 are on link 0 already.
    for place in [0, 4, 8, 12] {
        for (amount, number) in [(1, 16), (6, 16), (7, 15), (u32::MAX - 9, 15)] {
            let table = with(place, amount);
            assert_eq!(audit(&file, &table, 1).refusal, number);
            assert_eq!(pass(&file, &mut table.clone(), 1).refusal, number);
            page_refused(&file, &table, 1, number);
            take_back_refused(&file, &table, 1, &LORRY_NOTE, number);
        }
    }
    for share in [0, 1_025] {
        assert_eq!(audit(&file, &straight, share).refusal, 14);
    }
    assert_eq!(audit(&file, &straight, 2).refusal, 16);
    assert_eq!(audit(&file, &[0; 16], 1).refusal, 16);
}

/// Flow of lorries on a barred link, and round through a closed node.
#[test]
fn question_20_of_lorries() {
    let study = lorry_sample();
    let file = study.file();
    let open = study.clone().barring(&[]).file();
    let mut table = flows_with_lorries(1);
    // One of the three lorries from 1 to 2 by the barred link.
    table[13] += 1;
    table[15] -= 1;
    assert_eq!(audit(&open, &table, 1).refusal, 0);
    assert_eq!(audit(&file, &table, 1).refusal, 20);
    assert_eq!(pass(&file, &mut table.clone(), 1).refusal, 20);
    page_refused(&file, &table, 1, 20);
    take_back_refused(&file, &table, 1, &LORRY_NOTE, 20);
    // A car there is permitted, and lorries round by all other links to 2; to 1
    // nobody may pass the closed node.
    for (row, links, number) in [
        (1, [0, 1, 2], 0),
        (3, [0, 3, 2], 0),
        (3, [0, 1, 2], 20),
        (2, [0, 3, 2], 20),
        (0, [0, 1, 2], 20),
    ] {
        let mut table = flows_with_lorries(1);
        for link in links {
            table[4 * row + link] += 1;
        }
        assert_eq!(audit(&file, &table, 1).refusal, number);
        // Question 16 comes first.
        table[4 * row + links[1]] += 1;
        assert_eq!(audit(&file, &table, 1).refusal, 16);
    }
    // Start and run do not put the question.
    assert_eq!(start(&file, &mut table.clone()), 0);
    assert_eq!(run(&file, &mut table.clone(), 4, 0).refusal, 0);
}

/// Notes that mislead lorries.
#[test]
fn question_21_of_lorries() {
    let file = lorry_sample().file();
    let table = flows_with_lorries(3);
    taken_back(&file, &table, 3, &LORRY_NOTE, (&flows_with_lorries(2), 2));
    for (place, links) in [
        (7, [1, 2, 3, 4, 65_535].as_slice()),
        (9, &[0, 1, 3, 512, 65_535]),
        (10, &[1, 2, 3, 65_535]),
        (11, &[0, 1, 2, 4, 65_535]),
    ] {
        for &link in links {
            let mut note = LORRY_NOTE;
            note[place] = link;
            take_back_refused(&file, &table, 3, &note, 21);
            note[0] = 3;
            take_back_refused(&file, &table, 3, &note, 21);
        }
    }
    // The same by the barred link: cars may go there, and lorries where it is
    // not barred, but there is no flow of theirs to be taken back.
    let mut note = LORRY_NOTE;
    note[11] = 1;
    take_back_refused(&file, &table, 3, &note, 21);
    take_back_refused(&lorry_sample().barring(&[]).file(), &table, 3, &note, 22);
    // Nobody comes to where these are.
    for (place, link) in [(8, 1), (12, 0), (2, 1), (6, 7)] {
        let mut note = LORRY_NOTE;
        note[place] = link;
        taken_back(&file, &table, 3, &note, (&flows_with_lorries(2), 2));
    }
}

/// Too much to be taken back, and odd entries of lorries.
#[test]
fn question_22_of_lorries() {
    let file = lorry_sample().file();
    for step in [3, 4, 65_535] {
        let mut note = LORRY_NOTE;
        note[0] = step;
        take_back_refused(&file, &flows_with_lorries(3), 3, &note, 22);
    }
    let halving = [0; 13];
    let even = flows_with_lorries(2);
    taken_back(&file, &even, 2, &halving, (&flows_with_lorries(1), 1));
    let open = lorry_sample().barring(&[]).file();
    let mut odd = even;
    odd[13] += 1;
    odd[15] -= 1;
    take_back_refused(&open, &odd, 2, &halving, 22);
    take_back_refused(&file, &odd, 2, &halving, 20);
}
