//! Files of version 3, from their headers to their powers.

use super::headers::{closed_sample, orders, with_u16, with_u32};
use super::{List, paper};
use crate::draft::Versioned;
use crate::format::u32_at;

/// The sample study in version 3, with node 0 closed and every power.
fn power_sample() -> Versioned {
    closed_sample().with_powers(vec![1, 2, 3, 4, 2])
}

/// Powers at and beyond their limits, on the first link, a middle one and the
/// last.
pub(super) fn powers_at_boundaries(list: &mut List) {
    let mut files = Vec::new();
    for link in [0, 2, 4] {
        for power in [0, 1, 4, 5, 256, 65_535] {
            let mut powers = vec![1, 2, 3, 4, 2];
            powers[link] = power;
            files.push(closed_sample().with_powers(powers).file());
        }
    }
    list.by_check_and_others(&files);
    let file = closed_sample().with_powers(vec![4, 4, 4, 4, 0]).file();
    for turn in 0..7 {
        list.one_of_seven(turn, &file);
    }
}

/// Version numbers, in files of all three layouts.
pub(super) fn versions(list: &mut List) {
    let study = power_sample();
    let file = study.file();
    let closed = closed_sample();
    let mut files = Vec::new();
    for version in [0, 1, 2, 3, 4, 5, 259, 768, 65_535] {
        files.push(with_u16(&file, 0, version));
    }
    files.push(with_u16(&closed.file(), 0, 3));
    files.push(with_u16(&closed.draft.file(), 0, 3));
    // 60 bytes are five links of version 3 and six of version 2, also where
    // the numbers of five are right as those of six.
    files.push(with_u16(&with_u16(&file, 0, 2), 4, 6));
    let mut six = closed.clone();
    six.draft.links.push([1, 2, 4, 3, 2]);
    files.push(six.file());
    files.push(with_u16(&with_u16(&six.file(), 0, 3), 4, 5));
    let mut both = six.clone();
    both.draft.links = vec![[2, 3, 2, 3, 2]; 6];
    both.draft.trips = vec![vec![0; 4]; 2];
    files.push(both.file());
    files.push(with_u16(&with_u16(&both.file(), 0, 3), 4, 5));
    list.by_check_and_others(&files);
}

/// Files too short for their header, or just long enough.
pub(super) fn short_files(list: &mut List) {
    let file = power_sample().file();
    for length in 31..=41 {
        list.check(&file[..length]);
        if length % 3 == 0 {
            list.one_of_seven(length / 3, &file[..length]);
        }
    }
    list.check(&file[..file.len() - 1]);
    // Question 3 comes before 4, and 2 before 3.
    for (place, number) in [(2, 1), (4, 0), (6, 5), (0, 4)] {
        list.check(&with_u16(&file, place, number)[..36]);
    }
    // A header of 40 bytes and sections without any.
    let mut header = file[..40].to_vec();
    for section in 0..4 {
        header = with_u32(&header, 8 + 8 * section, 40);
        header = with_u32(&header, 12 + 8 * section, 0);
    }
    list.check(&header);
    list.check(&with_u32(&header, 8, 39));
    list.check(&header[..39]);
}

/// Offsets and lengths of the sections, those of the links above all.
pub(super) fn offsets_and_lengths(list: &mut List) {
    let file = power_sample().file();
    let mut files = Vec::new();
    for place in (8..40).step_by(4) {
        let here = u32_at(&file, place);
        let there = if place % 8 == 0 { here - 1 } else { here + 1 };
        files.push(with_u32(&file, place, there));
    }
    let gap: &[u8] = &[9; 12];
    let roomy = power_sample().file_with_gaps(&[gap; 5]);
    for length in [0, 50, 58, 59, 60, 61, 62, 72, 73] {
        files.push(with_u32(&roomy, 12, length));
    }
    // Counts that the lengths do not fit.
    for (place, number) in [(2, 5), (4, 4), (4, 6), (6, 1)] {
        files.push(with_u16(&roomy, place, number));
    }
    list.by_check_and_others(&files);
    list.by_check_and_others(&orders(&file));
}

/// Gaps before each section and behind the last, which are not read.
pub(super) fn gaps(list: &mut List) {
    let study = power_sample();
    for place in 0..5 {
        let file = study.file_with_gap(place, [2, 12, 100, 1, 7][place]);
        list.check(&file);
        list.one_of_seven(2 + place, &file);
    }
}

/// Files with a wrong power and another fault: the first question wins. Behind
/// them come tables too short, shares, budgets and outputs.
pub(super) fn order_of_questions(list: &mut List) {
    type Fault = fn(&mut Versioned);
    let faults: [Fault; 10] = [
        |study| study.draft.nodes = 129,                  // 3
        |study| study.closed = Some(vec![0; 5]),          // 5
        |study| study.draft.links[4][0] = 9,              // 6
        |study| study.draft.links[3][2] = 0,              // 7
        |study| study.draft.destinations = vec![2, 1],    // 8
        |study| study.closed = Some(vec![1, 0, 2, 0]),    // 19
        |study| study.draft.trips[0][1] = 5,              // 9
        |study| study.draft.trips[0][0] = 65_535,         // 10
        |study| study.draft.links[0] = [1, 0, 10, 10, 2], // 11
        |_| {},
    ];
    for (turn, fault) in faults.iter().enumerate() {
        let mut study = power_sample();
        fault(&mut study);
        if turn > 3 {
            list.check(&study.file());
        }
        study.powers = Some(vec![1, 2, 5, 4, 2]);
        let file = study.file();
        list.check(&file);
        match turn % 6 {
            0 => list.pack(&file, vec![1; 20]),
            1 => list.start(&file, vec![1; 9]),
            2 => list.run(&file, vec![1; 9], 0, 1),
            3 => drop(list.pass(&file, vec![1; 9], 0)),
            4 => list.audit(&file, vec![1; 10], 1_025),
            _ => list.page(&file, &[1; 9], 0, paper(3)),
        }
    }
}

/// Packing in version 3, to the byte.
pub(super) fn packing(list: &mut List) {
    let study = power_sample();
    let mut gapped = study.file_with_gaps(&[&[1; 3], &[2], &[3; 9], &[4; 2], &[5; 7]]);
    let length = study.packed_length();
    for file in [study.file(), gapped.clone()] {
        for room in [0, length - 10, length - 1, length, length + 1] {
            list.pack(&file, (0..room).map(|byte| byte as u8 ^ 0x5A).collect());
        }
    }
    // Packed once and packed again.
    for turn in 0..3 {
        list.pack(&gapped, vec![turn; length + 2]);
        gapped = list.player.output[..length].to_vec();
    }
    // In version 2 the room is two bytes a link less.
    for room in [length - 11, length - 10] {
        list.pack(&closed_sample().file(), vec![0xEE; room]);
    }
    // All nodes open, and refused with room enough.
    let open = closed_sample().draft.with_powers(vec![3; 5]);
    list.pack(&open.file(), vec![6; length]);
    let wrong = study.with_powers(vec![1, 1, 1, 1, 5]);
    list.pack(&wrong.file(), vec![7; 200]);
}
