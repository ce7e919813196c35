//! Notes and taking back: the town, the questions in their order, walks along a
//! note's links, and what may follow what.

use super::zones::crossing;
use super::{List, files_at_boundaries, paper, patterned_note, side_by_side};
use crate::calls::check;
use crate::draft::{Draft, Versioned};
use crate::stream::{Kind, Lent, Reply};

impl List {
    /// A pass of a table with a note.
    pub(super) fn pass_with(
        &mut self,
        file: &[u8],
        table: &[u32],
        share: u32,
        note: &[u16],
    ) -> Reply {
        let lent = Lent::Noted(Some(table.to_vec()), Some(note.to_vec()));
        self.call(Kind::Pass, file, lent, share, 0, 0)
    }

    /// A pass on the table as the call before left it, with a patterned note of so
    /// many numbers. Moves `share` on to the share reached, and hands back the
    /// note that the pass leaves.
    pub(super) fn note_on(&mut self, file: &[u8], share: &mut u32, length: usize) -> Vec<u16> {
        let lent = Lent::Noted(None, Some(patterned_note(length)));
        if let Reply::Pass(answer) = self.call(Kind::Pass, file, lent, *share, 0, 0)
            && answer.refusal == 0
        {
            *share = answer.share;
        }
        self.player.note.clone()
    }

    /// Takes a note back out of a table.
    pub(super) fn take_back(&mut self, file: &[u8], table: &[u32], share: u32, note: &[u16]) {
        let lent = Lent::Noted(Some(table.to_vec()), Some(note.to_vec()));
        self.call(Kind::TakeBack, file, lent, share, 0, 0);
    }

    /// Takes this note, or the note that was left last, back out of the table
    /// as the call before left it. Moves `share` on to the share that is left.
    pub(super) fn take_back_on(&mut self, file: &[u8], share: &mut u32, note: Option<&[u16]>) {
        let lent = Lent::Noted(None, note.map(<[u16]>::to_vec));
        if let Reply::TakeBack(answer) = self.call(Kind::TakeBack, file, lent, *share, 0, 0)
            && answer.refusal == 0
        {
            *share = answer.share;
        }
    }

    /// A pass of a table with a patterned note of so many numbers, taken back.
    fn move_and_take_back(&mut self, file: &[u8], table: &[u32], share: u32, length: usize) {
        let reply = self.pass_with(file, table, share, &patterned_note(length));
        if let Reply::Pass(mut answer) = reply {
            self.take_back_on(file, &mut answer.share, None);
        }
    }
}

/// Moves of the town, with notes and tables of several lengths, and back.
pub(super) fn town(list: &mut List) {
    let file = Draft::town().file();
    list.pass_with(&file, &[16, 0], 8, &patterned_note(3));
    list.take_back_on(&file, &mut 9, None);
    list.audit_on(&file, 8);
    list.take_back_on(&file, &mut 8, None);
    for length in [3, 5] {
        list.move_and_take_back(&file, &[16, 0], 8, length);
        list.move_and_take_back(&file, &[2, 0], 1, length);
        list.move_and_take_back(&file, &[16, 0, 7, 9], 8, length);
        list.move_and_take_back(&file, &[4, 0, 7, 9], 2, length);
    }
    let powers = Draft::town().with_powers(vec![3, 1]).file();
    list.move_and_take_back(&powers, &[16, 0], 8, 3);
    list.move_and_take_back(&powers, &[2, 0], 1, 3);
    // The largest step, and the last one to the largest share.
    let idle = side_by_side(&[[10, 10, 2], [15, 0, 1]], 0).file();
    for share in [1, 961, 1_023] {
        list.move_and_take_back(&idle, &[0, 0], share, 3);
    }
    // No move, and refusals.
    for (table, share) in [
        ([0, 2_048].as_slice(), 1_024),
        (&[2, 0], 0),
        (&[2, 0], 1_025),
        (&[3, 0], 1),
        (&[1, 0], 1),
        (&[2], 1),
    ] {
        list.pass_with(&file, table, share, &patterned_note(4));
    }
    for length in 0..4 {
        list.pass_with(&file, &[16, 0], 8, &patterned_note(length));
        list.pass_with(&file, &[16, 0], 0, &patterned_note(length));
        list.take_back(&file, &[16, 2], 9, &[1, 1, 65_535, 7][..length]);
        list.take_back(&file, &[16, 2], 0, &[1, 1, 65_535, 7][..length]);
    }
}

/// All moves of the town from a start on, and all of them back, with every note
/// kept.
pub(super) fn all_moves_of_the_town(list: &mut List) {
    for trips in [2, 9] {
        let file = side_by_side(&[[10, 10, 2], [15, 0, 1]], trips).file();
        list.start(&file, vec![3, 4, 5]);
        let mut share = 1;
        let mut notes = Vec::new();
        for _ in 0..7 {
            notes.push(list.note_on(&file, &mut share, 4));
        }
        list.audit_on(&file, share);
        for note in notes.iter().rev() {
            list.take_back_on(&file, &mut share, Some(note));
        }
        list.audit_on(&file, share);
        // There is nothing left to take back.
        list.take_back_on(&file, &mut share, None);
    }
}

/// Notes of the town that somebody else wrote.
pub(super) fn notes_of_the_town(list: &mut List) {
    let file = Draft::town().file();
    for link in [0, 1, 2, 511, 512, 513, 65_535] {
        list.take_back(&file, &[16, 2], 9, &[1, link, 65_535]);
        list.take_back(&file, &[16, 2], 9, &[1, 1, link]);
        list.take_back(&file, &[16, 2], 9, &[9, link, 0]);
    }
    for (table, share) in [
        ([16, 2], 9),
        ([18, 0], 9),
        ([2, 0], 1),
        ([2_047, 1], 1_024),
        ([2_045, 3], 1_024),
    ] {
        for step in [1, share - 1, share, share + 1] {
            list.take_back(&file, &table, share, &[step as u16, 0, 0]);
        }
        list.take_back(&file, &table, share, &[1, 1, 0]);
    }
    for step in [1_023, 1_024, 1_025, 65_535] {
        list.take_back(&file, &[16, 2], 9, &[step, 0, 0]);
        list.take_back(&file, &[16, 2], 9, &[step, 2, 0]);
    }
}

/// Odd and even entries and shares.
pub(super) fn halves(list: &mut List) {
    let file = Draft::town().file();
    for (table, share) in [
        ([20, 0].as_slice(), 10),
        (&[16, 4], 10),
        (&[17, 3], 10),
        (&[16, 2], 9),
        (&[15, 3], 9),
        (&[2, 0], 1),
        (&[1, 3], 2),
        (&[2, 2, 1], 2),
        (&[1_024, 1_024], 1_024),
        (&[1_023, 1_025], 1_024),
        (&[1_024, 1_022], 1_023),
        (&[0, 1_024], 512),
    ] {
        list.take_back(&file, table, share, &[0, 65_535, 65_535]);
    }
    // With j = 0 the links are not looked at.
    for links in [[0, 0], [1, 1], [65_534, 512]] {
        list.take_back(&file, &[16, 4], 10, &[0, links[0], links[1], 5]);
    }
    // One odd entry among many even ones, at the beginning, in the middle and
    // at the end.
    let draft = side_by_side(&[[10, 10, 2]; 21], 100);
    for place in [0, 4, 9, 20] {
        for amount in [1, 2] {
            let mut table = [20; 21];
            table[place] -= amount;
            table[(place + 10) % 21] += amount;
            table[(place + 5) % 21] -= 20;
            list.take_back(&draft.file(), &table, 4, &[0, 65_535, 65_535]);
        }
    }
}

/// Files at the boundaries of questions 1 to 11 and 19, two for each answer.
pub(super) fn files(list: &mut List) {
    let closed = |byte: u8| crossing().with_closed(vec![0, 1, 0, byte]).file();
    let mut files = files_at_boundaries();
    files.extend([closed(0), closed(1), closed(2), closed(255)]);
    let mut answered = [0; 20];
    for file in files {
        let count = &mut answered[usize::from(check(&file))];
        *count += 1;
        match *count {
            1 => list.take_back(&file, &[0; 12], 1, &[0; 9]),
            2 => list.take_back(&file, &[1; 9], 0, &[3; 2]),
            _ => {}
        }
    }
}

/// All trips of the crossing, to 1 by link 0 and to 3 past 1.
fn flows(share: u32) -> [u32; 12] {
    [3, 0, 0, 0, 0, 1, 0, 2, 3, 5, 0, 0].map(|flow| flow * share)
}

/// The note of the loading that these flows are of: to 1, then to 3. Nobody
/// comes to where it has 9.
const NOTE: [u16; 9] = [1, 0, 9, 9, 5, 2, 1, 3, 9];

/// The crossing in every version, with node 1 open and closed.
fn crossings() -> [Versioned; 3] {
    [
        crossing().into(),
        crossing().closing(&[1]),
        crossing().closing(&[1]).with_powers(vec![1, 2, 3, 4, 1, 2]),
    ]
}

/// Every number of the note changed, those that count and those that do not.
pub(super) fn numbers_of_a_note(list: &mut List) {
    for study in crossings() {
        let file = study.file();
        list.take_back(&file, &flows(7), 7, &NOTE);
        for (place, number) in (1..9).zip([3, 65_535, 512, 6, 1, 6, 65_535, 2]) {
            let mut other = NOTE;
            other[place] = number;
            list.take_back(&file, &flows(7), 7, &other);
        }
        for (step, place) in [(6, 2), (7, 2), (8, 4), (65_535, 8)] {
            let mut other = NOTE;
            other[0] = step;
            other[place] = 0;
            list.take_back(&file, &flows(7), 7, &other);
        }
    }
}

/// Walks by other ways, through the closed node and round without end.
pub(super) fn walks(list: &mut List) {
    // Flow on every way to 1 and to 3, and the same without node 1 on the way.
    let spread = [20, 0, 10, 0, 10, 10, 10, 30, 20, 50, 0, 0];
    let round_1 = [20, 0, 10, 0, 10, 10, 0, 20, 30, 50, 0, 0];
    for study in crossings() {
        let file = study.file();
        list.take_back(&file, &spread, 10, &NOTE);
        let table = if study.closed.is_some() {
            round_1
        } else {
            spread
        };
        for note in [
            NOTE,
            // To 1 by 2, to 3 through 1.
            [1, 2, 9, 4, 5, 2, 1, 3, 9],
            [1, 0, 9, 9, 5, 0, 1, 3, 9],
            // Round by 0, 2 and 3, by 1 and 2, and to where no link is.
            [1, 2, 9, 3, 5, 2, 1, 3, 9],
            [1, 0, 9, 9, 5, 2, 1, 4, 9],
            [1, 2, 9, 9, 5, 2, 1, 3, 9],
            // Round where nobody comes.
            [1, 0, 1, 4, 5, 2, 1, 3, 5],
            [1, 0, 1, 3, 5, 2, 1, 3, 3],
            // As much as there is to 1 by 2, and more.
            [3, 2, 9, 4, 5, 2, 1, 3, 9],
            [4, 2, 9, 4, 5, 2, 1, 3, 9],
        ] {
            list.take_back(&file, &table, 10, &note);
        }
    }
}

/// From 0 and 2 to 1 and 3, straight and by 1 and 2. Whichever nodes are closed,
/// the straight links are permitted.
fn alternatives() -> Draft {
    Draft {
        nodes: 4,
        links: vec![
            [0, 1, 9, 3, 4],
            [1, 3, 9, 3, 4],
            [0, 2, 4, 3, 4],
            [2, 3, 9, 3, 4],
            [2, 1, 4, 3, 4],
            [1, 2, 4, 3, 4],
            [0, 3, 20, 3, 4],
        ],
        destinations: vec![1, 3],
        trips: vec![vec![2, 0, 1, 0], vec![4, 0, 1, 0]],
    }
}

/// Notes by links that are permitted or not, as the closed nodes are.
pub(super) fn forbidden_links(list: &mut List) {
    let straight = [20, 0, 0, 0, 10, 0, 0, 0, 0, 0, 10, 0, 0, 40];
    let spread = [10, 0, 10, 0, 20, 0, 0, 20, 15, 10, 25, 5, 10, 10];
    for closed in [[].as_slice(), &[1], &[2], &[1, 2], &[0, 1, 2, 3]] {
        let study = alternatives().closing(closed);
        let file = match closed.len() {
            2 => study.with_powers(vec![1; 7]).file(),
            _ => study.file(),
        };
        let table = if closed.is_empty() { spread } else { straight };
        for note in [
            [1, 0, 9, 4, 9, 6, 9, 3, 9],
            [1, 0, 9, 4, 9, 0, 1, 3, 9],
            [1, 0, 9, 4, 9, 2, 9, 3, 9],
            [1, 2, 9, 4, 9, 6, 9, 3, 9],
            [1, 0, 9, 4, 9, 6, 1, 4, 9],
            [1, 0, 9, 4, 9, 0, 5, 3, 9],
        ] {
            list.take_back(&file, &table, 10, &note);
        }
    }
}

/// Tables and shares at fault together with the note: the first question wins.
pub(super) fn order_of_questions(list: &mut List) {
    let study = crossing().closing(&[1]);
    let through = [3, 0, 0, 0, 0, 1, 3, 5, 0, 5, 0, 0];
    let mut many = flows(1);
    many.iter_mut().for_each(|flow| *flow += 9);
    let mut misleading = NOTE;
    misleading[1] = 65_535;
    let mut large = NOTE;
    large[0] = 9;
    let powers = study.clone().with_powers(vec![2; 6]).file();
    for (file, note) in [
        (study.file(), &misleading[..]),
        (study.file(), &large),
        (study.file(), &[0; 9]),
        (study.file(), &misleading[..8]),
        (powers, &misleading),
    ] {
        for (table, share) in [
            (&flows(1)[..11], 1),
            (&flows(1), 0),
            (&many, 1),
            (&flows(1), 2),
            (&through, 1),
            (&flows(1), 1),
        ] {
            list.take_back(&file, table, share, note);
        }
    }
}

/// Starts, passes, audits, pages and runs between a pass and taking back.
pub(super) fn sequences(list: &mut List) {
    for (turn, study) in crossings().iter().enumerate() {
        let file = study.file();
        list.start(&file, vec![8; 12 + turn]);
        let mut share = 1;
        let first = list.note_on(&file, &mut share, 9 + turn);
        let second = list.note_on(&file, &mut share, 9);
        list.audit_on(&file, share);
        list.page_on(&file, share, paper(180));
        // The second note was left last, and calls without one have not
        // changed it.
        list.take_back_on(&file, &mut share, None);
        list.take_back_on(&file, &mut share, Some(&first));
        list.audit_on(&file, share);
        // In the wrong order, and the same note twice.
        list.note_on(&file, &mut share, 9);
        list.note_on(&file, &mut share, 9);
        list.take_back_on(&file, &mut share, Some(&first));
        list.take_back_on(&file, &mut share, Some(&second));
        list.take_back_on(&file, &mut share, None);
        // After a run, a refused pass and a check.
        let mut share = list.run_on(&file, 20, 0);
        let note = list.note_on(&file, &mut share, 9);
        list.pass_on(&file, &mut (share + 1));
        list.take_back_on(&file, &mut share, None);
        list.pass_on(&file, &mut share);
        list.check(&file);
        list.take_back(&file, &flows(9), 9, &note);
    }
}
