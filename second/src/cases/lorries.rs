//! Lorries: where they and the cars go, which tables and notes are accepted, and
//! the questions in their order.

use super::past_the_curve::line;
use super::{List, paper, patterned_note};
use crate::draft::{Draft, DraftLink, Versioned};

/// Numbers of a note that is longer than any study needs.
const LONGEST_NOTE: usize = 8_200;

impl List {
    /// A table with lorries by audit, by page and by pass, with a note of so
    /// many numbers; a move is taken back.
    fn table_and_back(&mut self, file: &[u8], table: &[u32], mut share: u32, note: usize) {
        self.audit(file, table.to_vec(), share);
        self.page_on(file, share, paper(180));
        self.note_on(file, &mut share, note);
        self.take_back_on(file, &mut share, None);
    }

    /// A start, moves with notes of their own and all of them back.
    fn moves_from_the_start(&mut self, study: &Versioned, moves: usize) {
        let file = study.file();
        self.start(&file, vec![9; study.table_length() + 1]);
        let mut share = 1;
        let mut notes = Vec::new();
        for _ in 0..moves {
            notes.push(self.note_on(&file, &mut share, study.note_length() + moves % 2));
        }
        self.page_on(&file, share, paper(30 * study.draft.links.len()));
        for note in notes.iter().rev() {
            self.take_back_on(&file, &mut share, Some(note));
        }
        self.audit_on(&file, share);
    }
}

/// The town of two roads with so many cars and lorries.
fn town_with(cars: u16, lorries: u16, barred: &[usize]) -> Versioned {
    let mut town = Draft::town();
    town.trips[0][0] = cars;
    town.with_lorries(vec![vec![lorries, 0]]).barring(barred)
}

/// The town with neither road barred, either or both.
pub(super) fn town(list: &mut List) {
    let file = town_with(2, 1, &[0]).file();
    let note = patterned_note(LONGEST_NOTE);
    list.pass_with(&file, &[2, 0, 0, 1], 1, &note);
    for barred in [[].as_slice(), &[0], &[1], &[0, 1]] {
        for (cars, lorries) in [(2, 2), (0, 3)] {
            list.all_calls(&town_with(cars, lorries, barred));
        }
    }
    // The same numbers as without lorries.
    for study in [
        Draft::town().with_powers(vec![4, 4]),
        town_with(2, 0, &[]),
        town_with(2, 0, &[0]),
    ] {
        list.moves_from_the_start(&study, 4);
        list.run(&study.file(), vec![3; 5], 1_024, 0);
    }
}

/// Tables of the town: whose flow is where, and what question comes first.
pub(super) fn tables_of_the_town(list: &mut List) {
    for barred in [[].as_slice(), &[0]] {
        let file = town_with(2, 2, barred).file();
        for (table, share) in [
            ([2, 0, 0, 2], 1),
            ([0, 2, 2, 0], 1),
            ([1, 1, 1, 1], 1),
            ([16, 2, 0, 18], 9),
            ([0, 18, 17, 1], 9),
            ([2_048, 0, 0, 2_048], 1_024),
            ([2, 0, 3, 0], 1),
        ] {
            list.table_and_back(&file, &table, share, 5);
        }
        for (table, share) in [
            // Above the total of each class, and above that of both.
            ([4, 0, 0, 0], 1),
            ([4, 0, 1, 0], 1),
            ([2, 0, 0, 3], 1),
            ([2, 0, 1, 0], 1),
            ([1, 0, 2, 1], 1),
            ([2, 0, 0, 2], 2),
            ([2, 0, 0, 2], 0),
            ([2, 0, 0, 2], 1_025),
            ([u32::MAX, 1, 0, 2], 1),
        ] {
            list.audit(&file, table.to_vec(), share);
        }
        for length in [2, 3, 6] {
            let table: Vec<u32> = [0, 2, 0, 2, 7, 7][..length].to_vec();
            list.start(&file, table.clone());
            list.run(&file, table.clone(), 2, 0);
            list.table_and_back(&file, &table, 1, 5);
        }
        for length in [0, 3, 4, 6] {
            list.pass_with(&file, &[0, 2, 0, 2], 1, &patterned_note(length));
            list.take_back(&file, &[0, 4, 0, 4], 2, &vec![0; length]);
        }
        for (budget, excess) in [(0, 0), (1, 0), (3, 2), (1_024, 0), (1_025, 0)] {
            list.run(&file, vec![7; 5], budget, excess);
        }
    }
}

/// Three roads with so many cars and lorries.
fn three_roads(barred: &[usize]) -> Versioned {
    let mut study = town_with(8, 8, barred);
    study.draft.links = vec![[0, 1, 10, 40, 4], [0, 1, 12, 30, 3], [0, 1, 9, 50, 2]];
    study.barring(barred)
}

/// Tables with other lorry flows, but equal totals and share.
pub(super) fn equal_totals(list: &mut List) {
    for barred in [[].as_slice(), &[2]] {
        let file = three_roads(barred).file();
        for table in [
            [32, 0, 8, 0, 40, 0],
            [0, 32, 8, 32, 8, 0],
            [16, 16, 8, 16, 24, 0],
        ] {
            list.table_and_back(&file, &table, 5, 5);
        }
    }
}

/// From 0 to 3 by 1, by 2 or straight, all at equal times; node 1 is a
/// destination too.
fn ways() -> Draft {
    Draft {
        nodes: 4,
        links: vec![
            [0, 1, 5, 3, 4],
            [0, 2, 5, 3, 4],
            [1, 3, 5, 3, 4],
            [2, 3, 5, 3, 4],
            [0, 3, 10, 3, 4],
            [3, 1, 5, 3, 4],
        ],
        destinations: vec![1, 3],
        trips: vec![vec![2, 0, 1, 1], vec![6, 2, 1, 0]],
    }
}

/// Next links of both classes where a barred link would fit by its time, or is
/// on the way to where all others are.
pub(super) fn next_links(list: &mut List) {
    for barred in [
        [].as_slice(),
        &[0],
        &[0, 1],
        &[1, 4],
        &[2],
        &[2, 4],
        &[0, 5],
        &[0, 1, 4],
    ] {
        for closed in [[].as_slice(), &[1], &[1, 2]] {
            let study = ways().closing(closed);
            let study = study.with_lorries(vec![vec![1, 0, 0, 3], vec![5, 1, 0, 0]]);
            let mut study = study.barring(barred);
            let file = study.file();
            list.check(&file);
            study.drop_pathless_trips();
            if closed.len() == barred.len() % 2 {
                let file = study.file();
                list.start(&file, vec![4; 24]);
                list.note_on(&file, &mut 1, 17);
                list.run_on(&file, 12, 0);
            }
        }
    }
}

/// Paths that only a barred link takes away from the lorries, by every call.
pub(super) fn paths(list: &mut List) {
    let study = line(&[&[[10, 10, 4]], &[[9, 5, 4], [12, 0, 9]]], 3);
    let study = study.with_lorries(vec![vec![1, 2, 0]]);
    for barred in [[].as_slice(), &[0], &[1], &[2], &[1, 2]] {
        let file = study.clone().barring(barred).file();
        list.check(&file);
        list.pack(&file, vec![1; 150]);
        list.start(&file, vec![5; 6]);
        list.pass_with(&file, &[3, 3, 0, 1, 0, 3], 1, &patterned_note(7));
        list.run(&file, vec![5; 6], 9, 0);
        list.audit(&file, vec![3, 3, 0, 1, 0, 3], 1);
        list.page(&file, &[3, 3, 0, 1, 3, 0], 1, paper(90));
        list.take_back(&file, &[6, 0, 6, 2, 0, 6], 2, &[1, 0, 2, 9, 0, 2, 9]);
        // Without these lorries there is nothing to refuse.
        for trips in [[0, 2, 0], [0, 0, 0]] {
            let fewer = study.clone().with_lorries(vec![trips.to_vec()]);
            list.start(&fewer.barring(barred).file(), vec![5; 6]);
        }
    }
    // Cars have a path by the barred link, lorries by the other one only.
    let mut ring: Vec<DraftLink> = (0..6).map(|node| [node, (node + 1) % 6, 3, 2, 4]).collect();
    ring.extend((0..6).map(|node| [(node + 1) % 6, node, 3, 2, 4]));
    let draft = Draft {
        nodes: 6,
        links: ring,
        destinations: vec![0, 2, 5],
        trips: vec![
            vec![0, 1, 1, 1, 1, 1],
            vec![1, 1, 0, 1, 1, 1],
            vec![1, 1, 1, 1, 1, 0],
        ],
    };
    let lorries = draft.trips.clone();
    let study = draft.with_lorries(lorries);
    for barred in [[0].as_slice(), &[0, 9], &[0, 6], &[1, 2, 3], &[5, 7, 8]] {
        for closed in [[].as_slice(), &[4], &[0, 2]] {
            let study = study.clone().closing(closed).barring(barred);
            list.start(&study.file(), vec![5; 72]);
        }
    }
}

/// Trips of lorries to where they are, and totals of both classes at and beyond
/// the limit.
pub(super) fn trips(list: &mut List) {
    for (cars, lorries) in [(65_535, 1), (0, 65_535), (32_768, 32_767), (32_768, 32_768)] {
        let file = town_with(cars, lorries, &[0]).file();
        list.check(&file);
        list.pack(&file, vec![2; 94]);
        list.start(&file, vec![5; 4]);
        list.note_on(&file, &mut 1, 5);
        list.run_on(&file, 40, 3);
        list.page_on(&file, 1, paper(60));
    }
    for (cars, lorries) in [([0, 1], [0, 0]), ([0, 0], [0, 1]), ([2, 0], [65_535, 7])] {
        let mut town = Draft::town();
        town.trips[0] = cars.to_vec();
        let file = town.with_lorries(vec![lorries.to_vec()]).file();
        list.check(&file);
        list.pack(&file, vec![2; 94]);
        list.start(&file, vec![5; 4]);
        list.run(&file, vec![5; 4], 1, 0);
        list.pass_with(&file, &[2, 0, 0, 0], 1, &[6; 5]);
        list.audit(&file, vec![2, 0, 0, 0], 1);
        list.page(&file, &[2, 0, 0, 0], 1, paper(60));
        list.take_back(&file, &[2, 0, 0, 0], 1, &[6; 5]);
    }
}

/// The ways with lorries, of which those to 3 keep off the link by 1 and off the
/// straight one.
fn barred_ways() -> Versioned {
    let study = ways().with_powers(vec![4, 1, 2, 3, 4, 1]);
    let lorries = vec![vec![1, 0, 0, 3], vec![5, 1, 0, 0]];
    study.with_lorries(lorries).barring(&[0, 4])
}

/// All trips of the barred ways: cars to 1 and to 3, then lorries, of whom the
/// one from 0 to 1 goes by 2 and 3.
fn flows(share: u32) -> Vec<u32> {
    let cars = [2, 0, 0, 1, 0, 2, 0, 0, 2, 1, 6, 0];
    let lorries = [0, 1, 0, 1, 0, 4, 0, 5, 1, 5, 0, 0];
    let flows = [cars, lorries].concat();
    flows.iter().map(|flow| flow * share).collect()
}

/// The note of the loading that these flows are of. Nobody comes to where it has
/// 9.
const NOTE: [u16; 17] = [1, 0, 9, 3, 5, 4, 2, 3, 9, 1, 9, 3, 5, 1, 2, 3, 9];

/// Numbers of a note changed, those of cars and those of lorries, in studies with
/// links barred and not.
pub(super) fn numbers_of_a_note(list: &mut List) {
    for study in [barred_ways(), barred_ways().barring(&[])] {
        let file = study.file();
        list.take_back(&file, &flows(7), 7, &NOTE);
        for (place, number) in [
            (1, 1),
            (1, 4),
            (5, 0),
            (5, 65_535),
            (8, 0),
            (9, 0),
            (9, 4),
            (9, 2),
            (11, 1),
            (12, 65_535),
            (13, 0),
            (13, 4),
            (13, 6),
            (14, 0),
            (15, 5),
            (16, 3),
        ] {
            let mut other = NOTE;
            other[place] = number;
            list.take_back(&file, &flows(7), 7, &other);
        }
        steps_of_a_note(list, &file);
    }
}

/// Other steps than that of the note, shorter notes, and more of a lorry's flow
/// than is there, and less.
fn steps_of_a_note(list: &mut List, file: &[u8]) {
    for step in [0, 6, 7, 8, 65_535] {
        let mut other = NOTE;
        other[0] = step;
        list.take_back(file, &flows(7), 7, &other);
        other[13] = 0;
        list.take_back(file, &flows(7), 7, &other);
    }
    for length in [0, 1, 8, 9, 16] {
        list.take_back(file, &flows(7), 7, &NOTE[..length]);
    }
    for more in [0, 1] {
        let mut table = flows(3);
        let mut note = NOTE;
        note[0] = 2 + more;
        table[18] += 7;
        table[19] -= 7;
        table[14] += 7;
        table[15] -= 7;
        list.take_back(file, &table, 3, &note);
    }
}

/// Odd and even entries of cars and of lorries, to be halved.
pub(super) fn halves(list: &mut List) {
    let file = town_with(2, 2, &[]).file();
    for table in [
        [4, 0, 0, 4, 7],
        [4, 0, 2, 2, 7],
        [4, 0, 1, 3, 7],
        [3, 1, 4, 0, 7],
        [1, 3, 3, 1, 7],
    ] {
        list.take_back(&file, &table, 2, &[0, 9, 9, 9, 9]);
    }
    list.take_back(&file, &[6, 0, 0, 6], 3, &[0; 5]);
    list.take_back(&file, &[6, 2, 0, 8], 4, &[0; 4]);
}

/// Flow of lorries on barred links and into closed nodes, and of cars there.
pub(super) fn forbidden_flow(list: &mut List) {
    for closed in [[].as_slice(), &[1], &[2], &[1, 3]] {
        let study = barred_ways();
        let lorries = vec![vec![0, 0, 0, 3], vec![0, 1, 0, 0]];
        let study = study.closing(closed).with_lorries(lorries);
        let mut study = study.barring(&[0, 4]);
        study.drop_pathless_trips();
        let file = study.file();
        list.start(&file, vec![1; 24]);
        let straight = list.player.table.clone();
        list.table_and_back(&file, &straight, 1, 17);
        // Round by 1 and 3, to each destination, of cars and of lorries; and
        // one more by a barred link, which does not conserve.
        for row in 0..4 {
            let mut table = straight.clone();
            table[6 * row + 2] += 1;
            table[6 * row + 5] += 1;
            list.audit(&file, table.clone(), 1);
            list.take_back_on(&file, &mut 1, Some(&NOTE));
            table[6 * row] += 1;
            list.audit(&file, table, 1);
        }
    }
    // All lorries from 0 to 3 by 1, straight and by 2.
    let file = barred_ways().file();
    for (by_1, by_2, straight) in [(0, 5, 0), (1, 4, 0), (0, 4, 1), (5, 0, 0), (0, 0, 5)] {
        let mut table = flows(1);
        table[18..24].copy_from_slice(&[by_1, by_2, by_1 + 1, by_2, straight, 0]);
        list.table_and_back(&file, &table, 1, 17);
        table[18] += 1;
        list.page(&file, &table, 1, paper(20));
    }
}

/// Tables, notes and pages at fault together: the first question wins.
pub(super) fn order_of_table_questions(list: &mut List) {
    let file = barred_ways().file();
    let mut barred = flows(1);
    barred[19] -= 1;
    barred[21] -= 1;
    barred[22] += 1;
    let mut many = flows(1);
    many[13] += 30;
    let mut wrong_note = NOTE;
    wrong_note[13] = 0;
    for (table, share) in [
        (&flows(1)[..23], 1),
        (&flows(1), 0),
        (&many, 1),
        (&flows(1), 2),
        (&barred, 2),
        (&barred, 1),
        (&flows(1), 1),
    ] {
        for (note, page) in [(&wrong_note[..16], 179), (&wrong_note, 180)] {
            list.take_back(&file, table, share, note);
            list.pass_with(&file, table, share, note);
            list.page(&file, table, share, paper(page));
        }
    }
    // Start and run make their own tables: what was lent does not matter.
    list.start(&file, barred.clone());
    list.run(&file, barred, 20, 0);
}

/// Powers, links past the curve and lorries: runs with every ending.
pub(super) fn runs(list: &mut List) {
    let hop: &[[u16; 3]] = &[[10, 700, 3], [30, 400, 2], [11, 9, 900]];
    for barred in [[].as_slice(), &[0, 1], &[2, 5]] {
        for powers in [[4; 6], [1, 2, 3, 4, 1, 2]] {
            let study = line(&[hop; 2], 9).with_powers(powers.to_vec());
            let study = study.with_lorries(vec![vec![20, 5, 0]]).barring(barred);
            let file = study.file();
            for (budget, excess) in [(6, 0), (1_024, 0), (1_024, 30)] {
                list.run(&file, vec![9; 13], budget, excess);
            }
            let share = list.run_on(&file, 40, 0);
            list.page_on(&file, share, paper(180));
            list.moves_from_the_start(&study, 2);
        }
    }
}
