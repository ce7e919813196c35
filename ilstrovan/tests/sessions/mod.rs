//! Sessions: sequences of starts, passes, audits and moves taken back with one
//! study, call by call beside the second implementation. Taking back is held to
//! its definition too, and after every move to what the pass judged.

use crate::noted::{Why, any_step, damaged, defined, doubling, shift, wrong_share};
use crate::pair::{Numbers, Pair};
use crate::studies::{blank_note, open};
use second::MOVED;
use second::draft::{Dice, Plan, Versioned};
use second::stream::{Kind, Lent, Reply};

/// What came of the calls.
#[derive(Default)]
pub struct Tally {
    pub pair: Pair,
    /// Moves that were taken back as soon as they were made: those that added
    /// loadings, and doublings.
    added: u64,
    doubled: u64,
    /// Refusals after questions 1 to 20, by what they are for.
    pub refused: [u64; Why::COUNT],
}

/// A move: its note, and the table and the share that were judged.
struct Move {
    note: Vec<u16>,
    table: Vec<u32>,
    share: u32,
}

/// A table of a study, and the moves that led to it.
pub struct Session<'a> {
    tally: &'a mut Tally,
    study: &'a Versioned,
    file: Vec<u8>,
    table: Vec<u32>,
    share: u32,
    moves: Vec<Move>,
}

impl<'a> Session<'a> {
    pub fn new(tally: &'a mut Tally, study: &'a Versioned, table: Vec<u32>, share: u32) -> Self {
        Session {
            tally,
            study,
            file: study.file(),
            table,
            share,
            moves: vec![],
        }
    }

    /// So many steps at random, then all moves that are left back.
    fn wander(&mut self, dice: &mut Dice, steps: u64) {
        for _ in 0..steps {
            match dice.below(16) {
                0..6 => self.pass(&blank_note(dice, self.study)),
                6 => self.audit(),
                7 => self.go_back(),
                8 => self.add_and_take_back(dice),
                9 if dice.once_in(4) => self.start(dice),
                _ => self.take_back_otherwise(dice),
            }
        }
        while !self.moves.is_empty() {
            self.go_back();
        }
    }

    fn start(&mut self, dice: &mut Dice) {
        self.table.fill_with(|| dice.any_u32());
        let lent = Lent::Table(self.table.clone());
        self.call(Kind::Start, lent, Numbers::default());
        self.table.clone_from(&self.tally.pair.proved.table);
        self.share = 1;
        self.moves.clear();
    }

    fn audit(&mut self) {
        let lent = Lent::Table(self.table.clone());
        self.call(Kind::Audit, lent, Numbers::share(self.share));
    }

    /// A pass. Where it moves, what it judged is restored from a copy.
    fn pass(&mut self, blank: &[u16]) {
        let (table, share) = (self.table.clone(), self.share);
        let lent = Lent::Noted(Some(table.clone()), Some(blank.to_vec()));
        let reply = self.call(Kind::Pass, lent, Numbers::share(share));
        let Reply::Pass(answer) = reply else {
            unreachable!("{reply:?}");
        };
        let (moved, note) = self.left();
        if answer.outcome != MOVED {
            assert!(moved == table && note == blank, "there was no move");
            return;
        }
        let length = self.study.note_length();
        assert_eq!(note[length..], blank[length..], "after the note");
        let restored = self.take_back(&moved, answer.share, &note);
        assert!(restored.as_ref() == Some(&(table.clone(), share)));
        match note[0] {
            0 => self.tally.doubled += 1,
            _ => self.tally.added += 1,
        }
        (self.table, self.share) = (moved, answer.share);
        self.moves.push(Move { note, table, share });
    }

    /// Takes the last move back for good.
    fn go_back(&mut self) {
        if let Some(last) = self.moves.pop() {
            let table = self.table.clone();
            let restored = self.take_back(&table, self.share, &last.note);
            assert!(restored.as_ref() == Some(&(last.table.clone(), last.share)));
            (self.table, self.share) = (last.table, last.share);
        }
    }

    /// Takes some note's loadings back out of the table with these loadings added.
    fn add_and_take_back(&mut self, dice: &mut Dice) {
        if self.share >= 1_024 {
            return;
        }
        let most = u64::from(1_024 - self.share);
        let any = dice.between(1, most);
        let step = dice.pick(&[1, 2, 64, 65, any, most]).min(most);
        let note = self.study.some_note(dice, step as u16);
        let mut table = self.table.clone();
        self.study.add_noted(&note, &mut table);
        if let Some(left) = self.take_back(&table, self.share + step as u32, &note) {
            assert!(left == (self.table.clone(), self.share));
        }
    }

    /// Takes back with a note, a share or a table that is not as a pass left it.
    /// Goes on from there, one time in three that it can.
    fn take_back_otherwise(&mut self, dice: &mut Dice) {
        let (mut table, mut share) = (self.table.clone(), self.share);
        let mut note = self.some_note(dice);
        match dice.below(12) {
            0..5 => note = damaged(dice, self.study, &note, share),
            5 => note[0] = any_step(dice, share, note[0]),
            6 => note.truncate(dice.index(note.len() + 1)),
            7 => share = wrong_share(dice, share),
            8 => self.spoil(dice, &mut table),
            9 | 10 => shift(dice, self.study, &mut table, &note),
            _ => note = doubling(self.study),
        }
        let left = self.take_back(&table, share, &note);
        if let Some(left) = left.filter(|_| dice.once_in(3)) {
            (self.table, self.share) = left;
            self.moves.clear();
        }
    }

    /// The note of the last move, or one at random.
    fn some_note(&self, dice: &mut Dice) -> Vec<u16> {
        match self.moves.last() {
            Some(last) if !dice.once_in(4) => last.note.clone(),
            _ => {
                let step = any_step(dice, self.share, 1);
                self.study.some_note(dice, step)
            }
        }
    }

    /// Cuts a table off, changes a number, or lets a part of a trip go round, be
    /// it through closed nodes or over barred links.
    fn spoil(&self, dice: &mut Dice, table: &mut Vec<u32>) {
        let place = dice.index(self.study.table_length());
        let flow = table[place];
        match dice.below(4) {
            0 => table.truncate(place),
            1 => table[place] = dice.pick(&[flow.wrapping_add(1), flow.wrapping_sub(1), 0]),
            _ => _ = open(self.study).add_cycle(dice, table, 1),
        }
    }

    /// Takes a note back out of a table by both implementations, and holds what
    /// comes of it to the definition. Hands back what is left and its share.
    pub fn take_back(
        &mut self,
        table: &[u32],
        share: u32,
        note: &[u16],
    ) -> Option<(Vec<u32>, u32)> {
        let lent = Lent::Noted(Some(table.to_vec()), Some(note.to_vec()));
        let reply = self.call(Kind::TakeBack, lent, Numbers::share(share));
        let Reply::TakeBack(answer) = reply else {
            unreachable!("{reply:?}");
        };
        let (left, same_note) = self.left();
        assert!(same_note == note, "the note is only read");
        if (1..=20).contains(&answer.refusal) {
            assert!(left == table, "a refusal changes nothing");
            return None;
        }
        match defined(self.study, table, share, note) {
            Ok(expected) => {
                assert!((answer.refusal, &left, answer.share) == (0, &expected.0, expected.1));
                Some(expected)
            }
            Err(why) => {
                assert_eq!((answer.refusal, answer.share), (why.number(), 0), "{why:?}");
                assert!(left == table, "a refusal changes nothing");
                self.tally.refused[why as usize] += 1;
                None
            }
        }
    }

    fn call(&mut self, kind: Kind, lent: Lent, numbers: Numbers) -> Reply {
        self.tally.pair.call(kind, &self.file, lent, numbers)
    }

    /// The table and the note as the last call left them.
    fn left(&self) -> (Vec<u32>, Vec<u16>) {
        let player = &self.tally.pair.proved;
        (player.table.clone(), player.note.clone())
    }
}

/// Sessions with studies of a kind, until there are as many calls.
pub fn sessions(seed: u64, calls: u64, study: fn(&mut Dice) -> Versioned) -> Tally {
    let mut dice = Dice::new(seed);
    let mut tally = Tally::default();
    while tally.pair.calls < calls {
        let study = acceptable(&mut dice, study);
        let share = dice.pick(&[1, 2, 3, 8, 64, 65, 100, 512, 960, 1_023, 1_024]);
        let mut table = match dice.below(3) {
            0 => study.wandering_table(&mut dice, share),
            _ => started(&study, share),
        };
        table.extend((0..dice.below(3)).map(|_| dice.any_u32() | 1));
        let mut session = Session::new(&mut tally, &study, table, share);
        if dice.once_in(2) {
            session.start(&mut dice);
        }
        let steps = dice.between(4, 40);
        session.wander(&mut dice, steps);
    }
    tally
}

/// An acceptable study of a kind, most of them with trips, one in three with
/// destinations to which there are none.
pub fn acceptable(dice: &mut Dice, study: fn(&mut Dice) -> Versioned) -> Versioned {
    loop {
        let mut study = study(dice);
        if dice.once_in(3) {
            take_trips_away(dice, &mut study);
        }
        let useful = study.total() > 0 || dice.once_in(20);
        if useful && second::check(&study.file()) == 0 {
            return study;
        }
    }
}

/// A study of version 2 of up to 40 nodes and 32 destinations.
pub fn many_destinations(dice: &mut Dice) -> Versioned {
    let plan = Plan {
        nodes: (9, 40),
        links: (30, 160),
        destinations: 32,
        time: 200,
        capacity: dice.pick(&[3, 15, 100]),
        trips: dice.pick(&[1, 9, 40]),
        tenths: dice.between(1, 9),
    };
    let tenths = dice.below(4);
    plan.draft(dice).closing_some(dice, tenths)
}

/// Takes the trips to some destinations away, one by one or in groups of eight.
fn take_trips_away(dice: &mut Dice, study: &mut Versioned) {
    let (group, tenths) = dice.pick(&[(1, 5), (1, 9), (8, 4), (8, 7)]);
    let cars = study.draft.trips.chunks_mut(group);
    let lorries = study.lorries.iter_mut();
    for rows in cars.chain(lorries.flat_map(|rows| rows.chunks_mut(group))) {
        if dice.below(10) < tenths {
            rows.iter_mut().for_each(|row| row.fill(0));
        }
    }
}

/// The start's table, at this share.
pub fn started(study: &Versioned, share: u32) -> Vec<u32> {
    let mut table = vec![0; study.table_length()];
    second::start(&study.file(), &mut table);
    table.iter_mut().for_each(|flow| *flow *= share);
    table
}

/// Holds a test to so many moves of either kind, to so many refusals of a note for
/// every reason but those that its studies cannot have, and to the other numbers of
/// taking back.
pub fn expect(tally: &Tally, moves: u64, refusals: u64, absent: &[Why]) {
    let (added, doubled) = (tally.added, tally.doubled);
    assert!(added > moves && doubled > moves, "{added} and {doubled}");
    let refused = tally.refused;
    for why in Why::ALL {
        let count = refused[why as usize];
        let fits = match absent.contains(&why) {
            true => count == 0,
            false => count > refusals,
        };
        assert!(fits, "{count} {why:?}, of {refused:?}");
    }
    // Questions about the file, the budget, the output, the page and desks.
    let mut never: Vec<usize> = (1..=11).chain([13, 17, 18, 19]).collect();
    if absent.contains(&Why::ClosedNode) {
        never.push(20);
    }
    never.extend([23, 24, 25]);
    assert_eq!(tally.pair.never(Kind::TakeBack), never);
}
