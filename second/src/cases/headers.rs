//! Files of version 2, from their headers to their closed bytes.

use super::{List, paper, sample};
use crate::draft::{Draft, Versioned};
use crate::format::u32_at;

/// The sample study in version 2, with node 0 closed: all its trips still have
/// a path.
pub(super) fn closed_sample() -> Versioned {
    let mut draft = sample();
    draft.trips = vec![vec![3, 0, 0, 0], vec![4, 5, 0, 0]];
    draft.closing(&[0])
}

impl List {
    /// One of the seven calls besides taking back, another at each turn, with
    /// what it needs for the sample study.
    pub(super) fn one_of_seven(&mut self, turn: usize, file: &[u8]) {
        let table = vec![0; 10];
        match turn % 7 {
            0 => self.check(file),
            1 => self.pack(file, vec![0xA5; 118]),
            2 => self.start(file, table),
            3 => drop(self.pass(file, table, 1)),
            4 => self.run(file, table, 3, 0),
            5 => self.audit(file, table, 1),
            _ => self.page(file, &table, 1, paper(20)),
        }
    }

    /// Files by check, and every fifth one by another call as well.
    pub(super) fn by_check_and_others(&mut self, files: &[Vec<u8>]) {
        for (turn, file) in files.iter().enumerate() {
            self.check(file);
            if turn % 5 == 1 {
                self.one_of_seven(1 + turn / 5 % 6, file);
            }
        }
    }
}

pub(super) fn with_u16(file: &[u8], place: usize, number: u16) -> Vec<u8> {
    let mut other = file.to_vec();
    other[place..place + 2].copy_from_slice(&number.to_le_bytes());
    other
}

pub(super) fn with_u32(file: &[u8], place: usize, number: u32) -> Vec<u8> {
    let mut other = file.to_vec();
    other[place..place + 4].copy_from_slice(&number.to_le_bytes());
    other
}

/// Files too short for their header, or just long enough.
pub(super) fn short_files(list: &mut List) {
    let file = closed_sample().file();
    for length in 31..=41 {
        list.check(&file[..length]);
        if length % 2 == 1 {
            list.one_of_seven(length / 2, &file[..length]);
        }
    }
    // Question 3 comes before 4, and 2 before 3.
    for (place, number) in [(2, 1), (2, 129), (4, 0), (6, 5), (0, 3), (0, 4)] {
        for length in [36, 40] {
            list.check(&with_u16(&file, place, number)[..length]);
        }
    }
    // A header of 40 bytes and sections without any.
    let mut header = file[..40].to_vec();
    for section in 0..4 {
        header = with_u32(&header, 8 + 8 * section, 40);
        header = with_u32(&header, 12 + 8 * section, 0);
    }
    list.check(&header);
    list.check(&with_u32(&header, 8, 39));
    list.check(&with_u32(&header, 32, 41));
    list.check(&header[..39]);
}

/// Version numbers, in files of both layouts.
pub(super) fn versions(list: &mut List) {
    let study = closed_sample();
    let twin = study.draft.file();
    // A file of version 1 with a gap as long as a fourth pair.
    let wide = study.draft.file_with_gaps([&[0x77; 8], &[], &[], &[]]);
    let mut files = Vec::new();
    for version in [0, 1, 2, 3, 4, 255, 256, 257, 258, 512, 65_535] {
        files.push(with_u16(&study.file(), 0, version));
        files.push(with_u16(&twin, 0, version));
    }
    for version in [1, 2, 3] {
        files.push(with_u16(&wide, 0, version));
    }
    list.by_check_and_others(&files);
}

/// Offsets and lengths of the four sections.
pub(super) fn offsets_and_lengths(list: &mut List) {
    let file = closed_sample().file();
    let mut files = Vec::new();
    for place in (8..40).step_by(4) {
        let here = u32_at(&file, place);
        for number in [here - 1, here + 1, 0, u32::MAX] {
            files.push(with_u32(&file, place, number));
        }
    }
    // The fourth pair: n bytes, no more and no less, within the file.
    let gap: &[u8] = &[9; 6];
    let roomy = closed_sample().file_with_gaps(&[gap; 5]);
    let (offset, length) = (u32_at(&roomy, 32), u32_at(&roomy, 36));
    for number in [0, 1, length - 1, length, length + 1, length + 6, length + 7] {
        files.push(with_u32(&roomy, 36, number));
    }
    for number in [offset - 7, offset - 6, offset - 1, offset + 6, offset + 7] {
        files.push(with_u32(&roomy, 32, number));
    }
    files.push(with_u32(
        &with_u32(&file, 32, u32::MAX - 3),
        36,
        u32::MAX - 3,
    ));
    // Counts that the lengths do not fit.
    for (place, number) in [(2, 3), (2, 5), (4, 4), (4, 6), (6, 1), (6, 3)] {
        files.push(with_u16(&roomy, place, number));
    }
    list.by_check_and_others(&files);
}

/// The sections in other orders, in the header and in the file.
pub(super) fn orders_of_sections(list: &mut List) {
    list.by_check_and_others(&orders(&closed_sample().file()));
}

/// A file of four sections with these in other orders.
pub(super) fn orders(file: &[u8]) -> Vec<Vec<u8>> {
    let pair = |section: usize| file[8 + 8 * section..16 + 8 * section].to_vec();
    let mut files = Vec::new();
    for order in [
        [0, 1, 2, 3],
        [1, 0, 2, 3],
        [0, 2, 1, 3],
        [0, 1, 3, 2],
        [3, 0, 1, 2],
        [1, 2, 3, 0],
        [3, 2, 1, 0],
    ] {
        // The header's pairs in this order, the sections where they are.
        let pairs = order.map(pair).concat();
        files.push([&file[..8], &pairs, &file[40..]].concat());
        // The sections in this order, the pairs pointing at them.
        let mut header = file[..40].to_vec();
        let mut rest = Vec::new();
        for section in order {
            let (offset, length) = (
                u32_at(file, 8 + 8 * section) as usize,
                u32_at(file, 12 + 8 * section) as usize,
            );
            header = with_u32(&header, 8 + 8 * section, 40 + rest.len() as u32);
            rest.extend(&file[offset..offset + length]);
        }
        files.push([header, rest].concat());
    }
    files
}

/// Gaps before each section and behind the last, which are not read.
pub(super) fn gaps(list: &mut List) {
    let study = closed_sample();
    for place in 0..5 {
        let file = study.file_with_gap(place, [1, 8, 300, 2, 7][place]);
        list.check(&file);
        list.one_of_seven(1 + place, &file);
        // One byte short of the end of the closed bytes.
        let end = u32_at(&file, 32) + u32_at(&file, 36);
        list.check(&file[..end as usize - 1]);
    }
}

/// Closed bytes above 1, by every call, and with other faults.
pub(super) fn closed_bytes(list: &mut List) {
    let study = closed_sample();
    for node in 0..4 {
        for byte in [2, 255] {
            let mut closed = vec![0, 0, 0, 1];
            closed[node] = byte;
            list.check(&study.draft.clone().with_closed(closed).file());
        }
    }
    let file = study.draft.clone().with_closed(vec![128; 4]).file();
    for turn in 0..7 {
        list.one_of_seven(turn, &file);
    }
    // What stands in a gap behind the closed bytes does not count.
    list.check(&study.file_with_gaps(&[&[], &[], &[], &[], &[2]]));
}

/// Files with two faults: the first question wins, and 19 comes after 8.
pub(super) fn order_of_questions(list: &mut List) {
    type Fault = fn(&mut Versioned);
    let faults: [Fault; 9] = [
        |study| study.draft.nodes = 129,                  // 3
        |study| study.draft.links[4][0] = 9,              // 6
        |study| study.draft.links[0][2] = 0,              // 7
        |study| study.draft.destinations = vec![2, 1],    // 8
        |study| study.closed = Some(vec![1, 0, 2, 0]),    // 19
        |study| study.draft.trips[0][1] = 5,              // 9
        |study| study.draft.trips[0][0] = 65_535,         // 10
        |study| study.draft.links[0] = [1, 0, 10, 10, 2], // 11
        |_| {},
    ];
    for first in 0..faults.len() {
        for second in first + 1..faults.len() {
            let mut study = closed_sample();
            faults[second](&mut study);
            faults[first](&mut study);
            let file = study.file();
            list.check(&file);
            // Behind them, tables too short, shares, budgets and outputs.
            match (first + 2 * second) % 12 {
                0 => list.pack(&file, vec![1; 20]),
                2 => list.start(&file, vec![1; 9]),
                4 => list.run(&file, vec![1; 9], 0, 1),
                6 => drop(list.pass(&file, vec![1; 9], 0)),
                8 => list.audit(&file, vec![1; 10], 1_025),
                10 => list.page(&file, &[1; 9], 0, paper(3)),
                _ => {}
            }
        }
    }
}

/// Packing in both versions, to the byte.
pub(super) fn packing(list: &mut List) {
    let study = closed_sample();
    let mut gapped = study.file_with_gaps(&[&[1; 3], &[2], &[3; 9], &[4; 2], &[5; 7]]);
    let length = study.packed_length();
    for file in [study.file(), gapped.clone()] {
        for room in [0, length - 1, length, length + 1] {
            list.pack(&file, (0..room).map(|byte| byte as u8 ^ 0x5A).collect());
        }
    }
    // Packed once and packed again.
    for turn in 0..3 {
        list.pack(&gapped, vec![turn; length + 2]);
        gapped = list.player.output[..length].to_vec();
    }
    // In version 1 the room is eight bytes and n bytes less.
    let twin: &Draft = &study.draft;
    for room in [
        twin.packed_length() - 1,
        twin.packed_length(),
        length - 1,
        length,
    ] {
        list.pack(&twin.file(), vec![0xEE; room]);
    }
    // Refused, with room enough.
    let mut stuck = study.clone();
    stuck.closed = Some(vec![1, 1, 2, 1]);
    list.pack(&stuck.file(), vec![7; 200]);
    list.pack(&sample().closing(&[0]).file(), vec![7; 200]);
}
