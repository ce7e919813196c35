//! Files of version 4, from their headers to their barred bytes.

use super::headers::{closed_sample, with_u16, with_u32};
use super::{List, paper};
use crate::draft::Versioned;
use crate::format::u32_at;

/// The sample study in version 4, with node 0 closed, every power, lorries, and
/// link 3 barred.
pub(super) fn lorry_sample() -> Versioned {
    let study = closed_sample().with_powers(vec![1, 2, 3, 4, 2]);
    let study = study.with_lorries(vec![vec![2, 0, 0, 0], vec![1, 3, 0, 0]]);
    study.barring(&[3])
}

/// Bytes of the sample study's header.
const HEADER: usize = 56;

impl List {
    /// One of the eight calls with one study, another at each turn, with what it
    /// needs for the sample study.
    fn one_of_eight(&mut self, turn: usize, file: &[u8]) {
        let table = vec![0; 20];
        match turn % 8 {
            0 => self.check(file),
            1 => self.pack(file, vec![0xA5; 161]),
            2 => self.start(file, table),
            3 => drop(self.pass_with(file, &table, 1, &[5; 17])),
            4 => self.run(file, table, 3, 0),
            5 => self.audit(file, table, 1),
            6 => self.page(file, &table, 1, paper(20)),
            _ => self.take_back(file, &table, 1, &[5; 17]),
        }
    }

    /// Files by check, and every fourth one by another call as well.
    fn by_check_and_seven(&mut self, files: &[Vec<u8>]) {
        for (turn, file) in files.iter().enumerate() {
            self.check(file);
            if turn % 4 == 1 {
                self.one_of_eight(1 + turn / 4 % 7, file);
            }
        }
    }
}

/// Files too short for their header, or just long enough.
pub(super) fn short_files(list: &mut List) {
    let file = lorry_sample().file();
    for length in [31, 32, 39, 40, 48, 54, 55, 56, 57, 160] {
        list.check(&file[..length]);
        list.one_of_eight(1 + length % 7, &file[..length]);
    }
    // Question 3 comes before 4, and 2 before 3.
    for (place, number) in [(2, 1), (2, 129), (4, 0), (6, 5), (0, 5), (0, 3)] {
        for length in [36, 55] {
            list.check(&with_u16(&file, place, number)[..length]);
        }
    }
    // A header of 56 bytes and sections without any.
    let mut header = file[..HEADER].to_vec();
    for section in 0..6 {
        header = with_u32(&header, 8 + 8 * section, HEADER as u32);
        header = with_u32(&header, 12 + 8 * section, 0);
    }
    list.check(&header);
    list.check(&with_u32(&header, 8, 55));
    list.check(&with_u32(&header, 48, 57));
    list.check(&header[..55]);
}

/// Version numbers, in files of this layout and of the others.
pub(super) fn versions(list: &mut List) {
    let study = lorry_sample();
    let file = study.file();
    let mut files = Vec::new();
    for version in [0, 1, 2, 3, 4, 5, 6, 260, 1_024, 65_535] {
        files.push(with_u16(&file, 0, version));
    }
    let closed = closed_sample();
    let powers = closed.clone().with_powers(vec![1, 2, 3, 4, 2]);
    for older in [closed.draft.file(), closed.file(), powers.file()] {
        files.push(with_u16(&older, 0, 4));
    }
    // A file of version 3 with a gap as long as two more pairs.
    files.push(with_u16(&powers.file_with_gap(0, 16), 0, 4));
    files.push(powers.file_with_gap(0, 16));
    list.by_check_and_seven(&files);
}

/// Offsets and lengths of the six sections.
pub(super) fn offsets_and_lengths(list: &mut List) {
    let file = lorry_sample().file();
    let mut files = Vec::new();
    for place in (8..HEADER).step_by(4) {
        let here = u32_at(&file, place);
        for number in [here - 1, here + 1] {
            files.push(with_u32(&file, place, number));
        }
    }
    let gap: &[u8] = &[9; 6];
    let roomy = lorry_sample().file_with_gaps(&[gap; 7]);
    for section in 0..6 {
        let (offset, length) = (8 + 8 * section, 12 + 8 * section);
        let (from, bytes) = (u32_at(&roomy, offset), u32_at(&roomy, length));
        for number in [bytes - 1, bytes + 6, bytes + 7, u32::MAX] {
            files.push(with_u32(&roomy, length, number));
        }
        for number in [from - 7, from - 6, from + 7] {
            files.push(with_u32(&roomy, offset, number));
        }
    }
    // The first offset, 55 and 56.
    for offset in [55, 56, 57, 62] {
        files.push(with_u32(&roomy, 8, offset));
    }
    // Counts that the lengths do not fit.
    for (place, number) in [(2, 3), (2, 5), (4, 4), (4, 6), (6, 1), (6, 3)] {
        files.push(with_u16(&roomy, place, number));
    }
    list.by_check_and_seven(&files);
}

/// The pairs in other orders, the sections where they are, and the sections in
/// other orders, the pairs pointing at them.
pub(super) fn orders_of_sections(list: &mut List) {
    let file = lorry_sample().file();
    let pair = |section: usize| file[8 + 8 * section..16 + 8 * section].to_vec();
    let mut files = Vec::new();
    for order in [
        [0, 1, 2, 3, 4, 5],
        [1, 0, 2, 3, 4, 5],
        [0, 1, 3, 2, 4, 5],
        [0, 1, 4, 3, 2, 5],
        [0, 1, 2, 4, 3, 5],
        [0, 1, 2, 4, 5, 3],
        [0, 1, 2, 3, 5, 4],
        [5, 4, 3, 2, 1, 0],
    ] {
        let pairs = order.map(pair).concat();
        files.push([&file[..8], &pairs, &file[HEADER..]].concat());
        let mut header = file[..HEADER].to_vec();
        let mut rest = Vec::new();
        for section in order {
            let offset = u32_at(&file, 8 + 8 * section) as usize;
            let length = u32_at(&file, 12 + 8 * section) as usize;
            header = with_u32(&header, 8 + 8 * section, (HEADER + rest.len()) as u32);
            rest.extend(&file[offset..offset + length]);
        }
        files.push([header, rest].concat());
    }
    list.by_check_and_seven(&files);
}

/// Gaps before each section and behind the last, which are not read.
pub(super) fn gaps(list: &mut List) {
    let study = lorry_sample();
    for place in 0..7 {
        let file = study.file_with_gap(place, [1, 8, 300, 2, 7, 16, 5][place]);
        list.check(&file);
        list.one_of_eight(1 + place, &file);
        // One byte short of the end of the barred bytes.
        let end = u32_at(&file, 48) + u32_at(&file, 52);
        list.check(&file[..end as usize - 1]);
    }
    // The longest file.
    list.check(&study.file_with_gap(4, 65_536 - 161));
}

/// Barred bytes above 1, by every call, and closed bytes with them.
pub(super) fn barred_bytes(list: &mut List) {
    let study = lorry_sample();
    for link in 0..5 {
        for byte in [1, 2, 255] {
            let mut barred = vec![0; 5];
            barred[link] = byte;
            list.check(&study.clone().with_barred(barred).file());
        }
    }
    let file = study.clone().with_barred(vec![128; 5]).file();
    for turn in 0..8 {
        list.one_of_eight(turn, &file);
    }
    // What stands in a gap behind the barred bytes does not count.
    list.check(&study.file_with_gap(6, 3));
    // As many barred bytes as there are not links.
    for bytes in [0, 4, 6] {
        list.check(&study.clone().with_barred(vec![0; bytes]).file());
    }
}

/// Files with two faults: the first question wins, and 23 comes after 19 and
/// before 9.
pub(super) fn order_of_questions(list: &mut List) {
    type Fault = fn(&mut Versioned);
    let faults: [Fault; 13] = [
        |study| study.draft.nodes = 129,                        // 3
        |study| study.barred = Some(vec![2; 6]),                // 5
        |study| study.draft.links[4][0] = 9,                    // 6
        |study| study.powers = Some(vec![1, 2, 5, 4, 2]),       // 7
        |study| study.draft.destinations = vec![2, 1],          // 8
        |study| study.closed = Some(vec![1, 0, 2, 0]),          // 19
        |study| study.barred = Some(vec![0, 0, 0, 1, 2]),       // 23
        |study| study.draft.trips[0][1] = 5,                    // 9
        |study| study.lorries.as_mut().unwrap()[1][2] = 5,      // 9
        |study| study.draft.trips[0][0] = 65_530,               // 10
        |study| study.lorries.as_mut().unwrap()[1][0] = 65_530, // 10
        |study| study.lorries.as_mut().unwrap()[0][3] = 1,      // 11
        |_| {},
    ];
    for first in 0..faults.len() {
        for second in first + 1..faults.len() {
            let mut study = lorry_sample();
            faults[second](&mut study);
            faults[first](&mut study);
            let file = study.file();
            list.check(&file);
            // Behind them, tables too short, shares, budgets and outputs.
            match (first + 2 * second) % 14 {
                0 => list.pack(&file, vec![1; 20]),
                2 => list.start(&file, vec![1; 19]),
                4 => list.run(&file, vec![1; 19], 0, 1),
                6 => drop(list.pass_with(&file, &[1; 19], 0, &[1; 16])),
                8 => list.audit(&file, vec![1; 20], 1_025),
                10 => list.page(&file, &[1; 19], 0, paper(3)),
                12 => list.take_back(&file, &[1; 19], 0, &[1; 16]),
                _ => {}
            }
        }
    }
}

/// Packing in version 4, to the byte.
pub(super) fn packing(list: &mut List) {
    let study = lorry_sample();
    let gaps: [&[u8]; 7] = [&[1; 3], &[2], &[3; 9], &[4; 2], &[5; 7], &[6; 5], &[7; 4]];
    let mut gapped = study.file_with_gaps(&gaps);
    let length = study.packed_length();
    for file in [study.file(), gapped.clone()] {
        for room in [0, length - 37, length - 5, length - 1, length, length + 1] {
            list.pack(&file, (0..room).map(|byte| byte as u8 ^ 0x5A).collect());
        }
    }
    // Packed once and packed again.
    for turn in 0..3 {
        list.pack(&gapped, vec![turn; length + 2]);
        gapped = list.player.output[..length].to_vec();
    }
    // All nodes open and no link barred, and refused with room enough.
    let open = study.draft.clone().with_lorries(vec![vec![0; 4]; 2]);
    list.pack(&open.file(), vec![6; length]);
    list.pack(&study.with_barred(vec![0, 1, 0, 1, 2]).file(), vec![7; 200]);
}
