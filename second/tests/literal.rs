//! The library compared with the documents' definitions, which the module
//! `definitions` has word for word.

mod definitions;

use second::draft::{Dice, Draft, Plan, Versioned, grid};
use second::stream::{Call, Kind, Lent, LentDesks, LentSeat, Player, Reply, Second};
use second::{MOVED, PassAnswer, TakeBackAnswer, cases, pack};

use definitions::Literal;

/// Makes calls by both and compares all they hand back and leave behind.
#[derive(Default)]
struct Pair {
    fast: Player,
    slow: Player,
    made: usize,
    /// How many calls were answered with each number.
    numbers: [usize; 26],
    /// Pages not refused.
    pages: usize,
    /// Answers that count links on step 256.
    over: usize,
    /// Takings back not refused.
    taken_back: usize,
}

/// A note of numbers without any sense, mostly long enough.
fn garbage_note(dice: &mut Dice, study: &Versioned) -> Vec<u16> {
    let length = study.note_length() + dice.pick(&[0, 0, 1, 7]);
    let length = length - usize::from(dice.once_in(15));
    (0..length).map(|_| dice.any_u32() as u16).collect()
}

/// This share or, once in four times, another one.
fn nearly(dice: &mut Dice, share: u32) -> u32 {
    let others = [0, share - 1, share + 1, 2 * share, share / 2, 1_024, 1_025];
    if dice.once_in(4) {
        dice.pick(&others)
    } else {
        share
    }
}

/// A note with a few numbers changed and perhaps cut short, for a table of this
/// share.
fn damaged_note(dice: &mut Dice, study: &Versioned, note: &[u16], share: u32) -> Vec<u16> {
    let links = &study.draft.links;
    let mut other = note.to_vec();
    for _ in 0..dice.between(1, 3) {
        let place = dice.index(note.len());
        let node = place.wrapping_sub(1) % usize::from(study.draft.nodes);
        let own: Vec<usize> = (0..links.len())
            .filter(|&link| usize::from(links[link][0]) == node)
            .collect();
        other[place] = match dice.below(6) {
            0 => u16::MAX,
            1 => (links.len() + dice.index(3) - 1) as u16,
            2 => dice.any_u32() as u16,
            3 => dice.index(links.len()) as u16,
            _ if own.is_empty() => u16::MAX,
            _ => dice.pick(&own) as u16,
        };
    }
    if dice.once_in(3) {
        let share = share as u16;
        let steps = [0, 1, note[0] / 2, note[0] + 1, share.max(1) - 1, share];
        let more = [share.saturating_add(1), 1_024, 1_025, u16::MAX];
        other[0] = dice.pick(&[&steps[..], &more].concat());
    } else {
        other[0] = note[0];
    }
    other.truncate(note.len() - usize::from(dice.once_in(30)));
    other
}

impl Pair {
    fn play(&mut self, call: &Call) -> Reply {
        let fast = self.fast.play(&Second, call);
        let slow = self.slow.play(&Literal, call);
        assert_eq!(fast, slow, "call {}: {call:?}", self.made);
        assert!(
            self.fast == self.slow,
            "call {}: lent memory differs, {call:?}",
            self.made
        );
        self.made += 1;
        self.numbers[usize::from(fast.refusal())] += 1;
        self.pages += usize::from(fast == Reply::Page(0));
        self.over += usize::from(fast.over() > 0);
        self.taken_back += usize::from(call.kind == Kind::TakeBack && fast.refusal() == 0);
        fast
    }

    fn call(
        &mut self,
        kind: Kind,
        file: &[u8],
        lent: Lent,
        share: u32,
        budget: u32,
        excess: u16,
    ) -> Reply {
        self.play(&Call {
            kind,
            file: Some(file.to_vec()),
            lent,
            share,
            budget,
            excess,
        })
    }

    /// A call for one desk, on the first seat.
    fn desk(&mut self, file: &[u8], table: Vec<u32>, budget: u32, excess: u16) {
        let mut lent = LentDesks {
            desks: 1,
            allowance: 5,
            ..LentDesks::default()
        };
        lent.seats[0] = LentSeat {
            file: Some(file.to_vec()),
            table: Some(table),
            budget,
            excess,
        };
        self.play(&Call::for_desks(lent));
    }

    /// A page of this table, or of the table as the call before left it, with a
    /// page slice that is mostly long enough.
    fn page(
        &mut self,
        dice: &mut Dice,
        study: &Versioned,
        file: &[u8],
        table: Option<&Vec<u32>>,
        share: u32,
    ) {
        let length =
            30 * study.draft.links.len() + dice.pick(&[0, 0, 1, 50]) - dice.pick(&[0, 0, 0, 1]);
        let page = (0..length).map(|_| dice.roll() as u8).collect();
        let lent = Lent::Page(table.cloned(), page);
        self.call(Kind::Page, file, lent, share, 0, 0);
    }

    /// A pass or taking back with this table, or with the table as the call
    /// before left it, and with this note, or with the note as it was left last.
    fn noted(
        &mut self,
        kind: Kind,
        file: &[u8],
        table: Option<&Vec<u32>>,
        share: u32,
        note: Option<Vec<u16>>,
    ) -> Reply {
        let lent = Lent::Noted(table.cloned(), note);
        self.call(kind, file, lent, share, 0, 0)
    }

    /// A pass of this table, or of the table as the call before left it, with a
    /// note of its own. A move is taken back and made again; in between, notes
    /// that are not quite the same are tried.
    fn pass(
        &mut self,
        dice: &mut Dice,
        study: &Versioned,
        file: &[u8],
        table: Option<&Vec<u32>>,
        share: u32,
    ) -> Option<PassAnswer> {
        let before = table.unwrap_or(&self.fast.table).clone();
        let note = garbage_note(dice, study);
        let reply = self.noted(Kind::Pass, file, table, share, Some(note.clone()));
        let Reply::Pass(answer) = reply else {
            unreachable!("a pass answers as a pass");
        };
        if answer.outcome != MOVED {
            assert_eq!(self.fast.note, note);
            return (answer.refusal == 0).then_some(answer);
        }
        let (after, note) = (self.fast.table.clone(), self.fast.note.clone());
        let reply = self.noted(Kind::TakeBack, file, None, answer.share, None);
        assert_eq!(reply, Reply::TakeBack(TakeBackAnswer { refusal: 0, share }));
        assert!(self.fast.table == before && self.fast.note == note);
        for _ in 0..3 {
            let share = nearly(dice, answer.share);
            let note = damaged_note(dice, study, &note, share);
            self.noted(Kind::TakeBack, file, Some(&after), share, Some(note));
        }
        self.noted(Kind::Pass, file, Some(&before), share, Some(note));
        assert!(self.fast.table == after);
        Some(answer)
    }

    /// Taking back with notes that nobody's passes have made, out of a table
    /// that has their loadings and of others.
    fn made_notes(
        &mut self,
        dice: &mut Dice,
        study: &Versioned,
        file: &[u8],
        made: &[u32],
        share: u32,
    ) {
        let step = dice.pick(&[0, 1, 2, 63, 64, 65, 500, 1_023]);
        let note = study.some_note(dice, step);
        let mut table = made.to_vec();
        study.add_noted(&note, &mut table);
        let grown = share + u32::from(step);
        let reply = self.noted(
            Kind::TakeBack,
            file,
            Some(&table),
            grown,
            Some(note.clone()),
        );
        if step > 0 && reply.refusal() == 0 {
            assert_eq!(reply, Reply::TakeBack(TakeBackAnswer { refusal: 0, share }));
            assert_eq!(self.fast.table, made);
        }
        for _ in 0..3 {
            let share = nearly(dice, grown);
            let note = damaged_note(dice, study, &note, share);
            self.noted(Kind::TakeBack, file, Some(&table), share, Some(note));
        }
        let other = study.some_note(dice, step);
        self.noted(Kind::TakeBack, file, Some(&table), grown, Some(other));
        let doubled: Vec<u32> = made.iter().map(|flow| 2 * flow).collect();
        let note = vec![0; study.note_length()];
        self.noted(Kind::TakeBack, file, Some(&doubled), 2 * share, Some(note));
        self.noted(Kind::TakeBack, file, None, share, None);
    }

    /// At least so many times the note was at fault, or what it says; and more
    /// often something was taken back.
    fn has_takings_back(&self, least: usize) {
        let refused = &self.numbers[21..=22];
        assert!(refused.iter().all(|&count| count > least), "{refused:?}");
        assert!(self.taken_back > 3 * least, "{}", self.taken_back);
    }

    /// All calls there are, with tables of all kinds, for one study.
    fn study(&mut self, dice: &mut Dice, study: &Versioned, file: &[u8]) {
        let length = study.table_length();
        let table = |table: &Vec<u32>| Lent::Table(table.clone());
        self.call(Kind::Check, file, Lent::Nothing, 0, 0, 0);
        let room = study.packed_length() + dice.index(3) - dice.index(2);
        self.call(Kind::Pack, file, Lent::Output(vec![0xC3; room]), 0, 0, 0);
        let garbage: Vec<u32> = (0..length + dice.index(3) - dice.index(2))
            .map(|_| dice.any_u32())
            .collect();
        let budget = dice.pick(&[0, 1, 2, 3, 8, 15, 40, 1_025]);
        let excess = dice.pick(&[0, 0, 0, 1, 4, 30, 500, 65_535]);
        if let Reply::Run(answer) = self.call(Kind::Run, file, table(&garbage), 0, budget, excess) {
            self.page(dice, study, file, None, answer.share);
        }
        self.call(Kind::Start, file, table(&garbage), 0, 0, 0);

        let mut share = 1;
        for _ in 0..dice.between(1, 8) {
            let handed = if dice.once_in(8) {
                dice.any_u32()
            } else {
                share
            };
            if dice.once_in(4) {
                self.call(Kind::Audit, file, Lent::Same, handed, 0, 0);
            } else if let Some(answer) = self.pass(dice, study, file, None, handed) {
                share = answer.share;
            }
            if dice.once_in(3) {
                self.page(dice, study, file, None, share);
            }
        }
        for _ in 0..2 {
            self.made_tables(dice, study, file);
        }
    }

    /// Tables that nobody's passes have made: wandering, with cycles, damaged,
    /// and, where there are closed nodes or lorries, by any links.
    fn made_tables(&mut self, dice: &mut Dice, study: &Versioned, file: &[u8]) {
        let table = |table: &Vec<u32>| Lent::Table(table.clone());
        let share = if dice.once_in(2) {
            dice.between(1, 1_024) as u32
        } else {
            dice.pick(&[
                1, 2, 63, 64, 500, 512, 513, 959, 960, 961, 1_000, 1_023, 1_024,
            ])
        };
        let mut made = study.wandering_table(dice, share);
        self.pass(dice, study, file, Some(&made), share);
        self.call(Kind::Audit, file, table(&made), share, 0, 0);
        self.page(dice, study, file, Some(&made), share);
        self.made_notes(dice, study, file, &made, share);
        let most = share * study.total() as u32;
        let amount = dice.pick(&[1, 2, share, most / 2, most]);
        if study.add_cycle(dice, &mut made, amount) {
            self.pass(dice, study, file, Some(&made), share);
            self.call(Kind::Audit, file, Lent::Same, share, 0, 0);
            self.page(dice, study, file, Some(&made), share);
        }
        if study.version() == 4 || study.closed.is_some() {
            let mut through = study.table_by_any_links(dice, share);
            self.pass(dice, study, file, Some(&through), share);
            self.page(dice, study, file, Some(&through), share);
            through.clone_from(&made);
            // A cycle of the last class there is.
            let row = through.len() - study.draft.table_length();
            study.draft.add_cycle(dice, &mut through[row..], 1);
            self.call(Kind::Audit, file, table(&through), share, 0, 0);
            self.page(dice, study, file, Some(&through), share);
        }
        let place = dice.index(made.len());
        made[place] = dice.any_u32();
        self.call(Kind::Audit, file, table(&made), share, 0, 0);
        self.page(dice, study, file, None, share);
        self.pass(dice, study, file, Some(&made), share);
        let note = study.some_note(dice, 1);
        self.noted(Kind::TakeBack, file, Some(&made), share, Some(note));
    }
}

/// Thousands of small studies, all calls but desks.
#[test]
fn small_studies() {
    let mut dice = Dice::new(2_026);
    let mut pair = Pair::default();
    for _ in 0..6_000 {
        let study = Versioned::from(Plan::small(&mut dice).draft(&mut dice));
        let file = study.file();
        pair.study(&mut dice, &study, &file);
    }
    assert!(pair.made > 100_000);
    assert!(pair.numbers[0] > 50_000);
    assert!(pair.pages > 15_000, "{}", pair.pages);
    assert!(pair.over > 10_000, "{}", pair.over);
    pair.has_takings_back(8_000);
}

/// A small study of version 2: with some nodes closed or all destinations or
/// nearly all nodes, or with zones beside the streets.
fn small_closed_study(dice: &mut Dice) -> Versioned {
    let plan = Plan::small(dice);
    match dice.below(6) {
        0 => {
            let streets = dice.between(2, 6);
            let links = Plan {
                nodes: (streets, streets),
                links: (streets, 3 * streets),
                ..plan
            }
            .draft(dice)
            .links;
            let zones = dice.between(1, 4) as u16;
            plan.with_zones(dice, streets as u16, zones, links)
        }
        1 => {
            let draft = plan.draft(dice);
            let destinations = draft.destinations.clone();
            let mut study = draft.closing(&destinations);
            study.drop_pathless_trips();
            study
        }
        2 => plan.draft(dice).closing_some(dice, 9),
        _ => plan.draft(dice).closing_some(dice, 2),
    }
}

/// Thousands of small studies with closed nodes, all calls but desks.
#[test]
fn small_studies_with_closed_nodes() {
    let mut dice = Dice::new(2_027);
    let mut pair = Pair::default();
    for _ in 0..8_000 {
        let study = small_closed_study(&mut dice);
        let file = study.file();
        pair.study(&mut dice, &study, &file);
    }
    assert!(pair.numbers[0] > 80_000, "{:?}", pair.numbers);
    assert!(pair.numbers[20] > 4_000, "{:?}", pair.numbers);
    assert!(pair.pages > 15_000, "{}", pair.pages);
    assert!(pair.over > 10_000, "{}", pair.over);
    pair.has_takings_back(8_000);
}

/// A study with powers at random, and mostly with closed nodes.
fn some_powers_and_zones(dice: &mut Dice, draft: Draft) -> Versioned {
    match dice.below(3) {
        0 => draft.with_some_powers(dice),
        1 => draft.closing_some(dice, 3).with_some_powers(dice),
        _ => draft.with_some_powers(dice).closing_some(dice, 2),
    }
}

/// Thousands of small studies with powers, all calls but desks.
#[test]
fn small_studies_with_powers() {
    let mut dice = Dice::new(2_031);
    let mut pair = Pair::default();
    for turn in 0..9_000 {
        let study = match turn % 3 {
            0 => Plan::small(&mut dice)
                .draft(&mut dice)
                .with_some_powers(&mut dice),
            1 => small_closed_study(&mut dice).with_some_powers(&mut dice),
            _ => small_powers_study(&mut dice),
        };
        let file = study.file();
        pair.study(&mut dice, &study, &file);
    }
    assert!(pair.numbers[0] > 90_000, "{:?}", pair.numbers);
    assert!(pair.numbers[20] > 1_000, "{:?}", pair.numbers);
    assert!(pair.pages > 20_000, "{}", pair.pages);
    assert!(pair.over > 20_000, "{}", pair.over);
    pair.has_takings_back(8_000);
}

/// A few nodes with many links side by side, of like times and several powers,
/// with flows all along the curve.
fn small_powers_study(dice: &mut Dice) -> Versioned {
    let nodes = dice.between(2, 4) as u16;
    let (time, capacity) = (dice.between(1, 400), dice.between(2, 60));
    let mut links = Vec::new();
    for _ in 0..dice.between(3, 12) {
        let tail = dice.below(u64::from(nodes)) as u16;
        let free = dice.between(time, time + time / 4) as u16;
        let rise = dice.between(1, 2 * time) as u16;
        let head = (tail + 1) % nodes;
        links.push([tail, head, free, rise, dice.between(1, capacity) as u16]);
    }
    let plan = Plan {
        nodes: (2, 2),
        links: (1, 1),
        destinations: 3,
        time: 1,
        capacity: 1,
        trips: 4 * capacity,
        tenths: 9,
    };
    plan.with_links(dice, nodes, links).with_some_powers(dice)
}

/// A small study of version 4: of any kind otherwise, with lorry trips on some
/// or no relations and some or no links barred.
fn small_lorry_study(dice: &mut Dice, turn: usize) -> Versioned {
    let study = match turn % 4 {
        0 => Plan::small(dice).draft(dice).into(),
        1 => small_closed_study(dice).with_some_powers(dice),
        2 => small_closed_study(dice),
        _ => small_powers_study(dice),
    };
    let (some, barred) = (dice.pick(&[0, 2, 5, 9]), dice.pick(&[0, 1, 2, 5]));
    let mut study = study.with_some_lorries(dice, some);
    if dice.once_in(8) {
        // Lorries only.
        study.draft.trips.iter_mut().for_each(|trips| trips.fill(0));
    }
    study.barring_some(dice, barred)
}

/// Thousands of small studies with lorries, all calls but desks.
#[test]
fn small_studies_with_lorries() {
    let mut dice = Dice::new(2_034);
    let mut pair = Pair::default();
    for turn in 0..9_000 {
        let study = small_lorry_study(&mut dice, turn);
        let file = study.file();
        pair.study(&mut dice, &study, &file);
    }
    assert!(pair.numbers[0] > 90_000, "{:?}", pair.numbers);
    assert!(pair.numbers[20] > 8_000, "{:?}", pair.numbers);
    assert!(pair.pages > 20_000, "{}", pair.pages);
    assert!(pair.over > 20_000, "{}", pair.over);
    pair.has_takings_back(8_000);
}

/// Barred bytes, lorry trips and other parts of a study at fault, one or more of
/// them.
#[test]
fn faults_with_lorries() {
    let mut dice = Dice::new(2_035);
    let mut pair = Pair::default();
    for turn in 0..8_000 {
        let mut study = small_lorry_study(&mut dice, turn);
        let position = dice.index(study.draft.destinations.len());
        let own = usize::from(study.draft.destinations[position]);
        let nodes = usize::from(study.draft.nodes);
        for _ in 0..dice.between(1, 2) {
            let row = &mut study.lorries.as_mut().expect("there are lorries")[position];
            let barred = study.barred.as_mut().expect("there are barred bytes");
            match dice.below(8) {
                0 => barred[0] = dice.pick(&[2, 3, 128, 255]),
                1 => barred.push(dice.pick(&[0, 1, 2])),
                2 => barred.fill(dice.pick(&[1, 1, 2])),
                3 => row[own] = 1,
                4 => row[dice.index(nodes)] = 65_535,
                5 => row.push(0),
                6 => row.fill(1),
                _ => study.closed = Some(vec![dice.pick(&[0, 1, 2]); nodes]),
            }
        }
        let file = study.file();
        pair.call(Kind::Check, &file, Lent::Nothing, 0, 0, 0);
        let table = Lent::Table(vec![7; study.table_length()]);
        pair.call(Kind::Start, &file, table, 0, 0, 0);
    }
    for number in [0, 5, 9, 10, 11, 19, 23] {
        assert!(pair.numbers[number] > 100, "{:?}", pair.numbers);
    }
}

/// Makes a call with the cars' part of a table and note, and no lorries' flow.
fn call_with_cars(
    study: &Versioned,
    kind: Kind,
    (table, share): (&[u32], u32),
    note: &[u16],
) -> (Reply, Player) {
    let (mut table, mut note) = (table.to_vec(), note.to_vec());
    table.resize(study.table_length(), 0);
    note.resize(study.note_length(), 7);
    let call = Call {
        kind,
        file: Some(study.file()),
        lent: match kind {
            Kind::Page => Lent::Page(Some(table), vec![1; 30 * 60]),
            Kind::Pass => Lent::Noted(Some(table), Some(note)),
            _ => Lent::Table(table),
        },
        share,
        budget: 30,
        excess: 0,
    };
    let mut player = Player::default();
    let reply = player.play(&Second, &call);
    (reply, player)
}

/// A study of version 4 without lorry trips is that of version 3, be links
/// barred or not: the same answers, the same cars' part of table and note.
#[test]
fn no_lorries_is_version_3() {
    let mut dice = Dice::new(2_036);
    for turn in 0..600 {
        let study = small_closed_study(&mut dice).with_some_powers(&mut dice);
        let barred = [0, 0, 3][turn % 3];
        let twin = study.clone().barring_some(&mut dice, barred);
        let share = dice.pick(&[1, 9, 512, 1_024]);
        let table = study.wandering_table(&mut dice, share);
        let step = dice.pick(&[0, 1, 8]);
        let note = study.some_note(&mut dice, step);
        for kind in [Kind::Start, Kind::Pass, Kind::Run, Kind::Audit, Kind::Page] {
            let call = |study| call_with_cars(study, kind, (&table, share), &note);
            let ((reply, old), (other, new)) = (call(&study), call(&twin));
            assert_eq!((reply, &old.page), (other, &new.page));
            let (cars, lorries) = new.table.split_at(old.table.len());
            assert!(old.table == cars && lorries.iter().all(|&flow| flow == 0));
            assert!(new.note.starts_with(&old.note));
        }
    }
}

/// Powers that are none, and other faults with them.
#[test]
fn powers_out_of_range() {
    let mut dice = Dice::new(2_032);
    let mut pair = Pair::default();
    for _ in 0..3_000 {
        let mut study = Plan::small(&mut dice)
            .draft(&mut dice)
            .with_some_powers(&mut dice);
        let links = study.draft.links.len();
        let powers = study.powers.as_mut().expect("there are powers");
        powers[dice.index(links)] = dice.pick(&[0, 5, 6, 8, 255, 256, 260, 1_024, 65_535]);
        match dice.below(8) {
            0 => study.draft.links[dice.index(links)][1] = study.draft.nodes,
            1 => study.draft.destinations[0] = study.draft.nodes,
            2 => study = study.with_closed(vec![2; 2]),
            _ => {}
        }
        pair.call(Kind::Check, &study.file(), Lent::Nothing, 0, 0, 0);
    }
    assert!(pair.numbers[5] > 100 && pair.numbers[6] > 100 && pair.numbers[7] > 2_000);
    assert_eq!(pair.numbers[5] + pair.numbers[6] + pair.numbers[7], 3_000);
}

/// Small studies with closed nodes, and trips that may have no path.
#[test]
fn closed_nodes_and_paths() {
    let mut dice = Dice::new(2_028);
    let mut pair = Pair::default();
    for _ in 0..20_000 {
        let plan = Plan {
            nodes: (4, 9),
            links: (6, 20),
            tenths: dice.between(1, 5),
            ..Plan::small(&mut dice)
        };
        let draft = plan.draft(&mut dice);
        let mut study = draft.clone().closing_some(&mut dice, 4);
        if dice.once_in(2) {
            study.draft = draft;
        }
        let file = study.file();
        pair.call(Kind::Check, &file, Lent::Nothing, 0, 0, 0);
        let table = Lent::Table(vec![7; study.draft.table_length()]);
        pair.call(Kind::Start, &file, table, 0, 0, 0);
    }
    assert!(
        pair.numbers[0] > 20_000 && pair.numbers[11] > 2_000,
        "{:?}",
        pair.numbers
    );
}

/// Who has a path, with many destinations: trips between any two nodes of
/// networks that hang together more or less.
#[test]
fn paths_to_many_destinations() {
    let mut dice = Dice::new(2_030);
    let mut pair = Pair::default();
    for _ in 0..1_500 {
        let nodes = dice.between(5, 40);
        let plan = Plan {
            nodes: (nodes, nodes),
            links: (nodes, dice.between(nodes, 5 * nodes)),
            destinations: 32,
            time: 9,
            capacity: 9,
            trips: 1,
            tenths: 0,
        };
        let tenths = dice.pick(&[0, 0, 1, 3, 8]);
        let mut study = plan.draft(&mut dice).closing_some(&mut dice, tenths);
        for _ in 0..8 {
            let trips = &mut study.draft.trips;
            let position = dice.index(trips.len());
            let from = dice.index(nodes as usize);
            trips[position][from] = u16::from(from as u16 != study.draft.destinations[position]);
            let file = study.file();
            let reply = pair.call(Kind::Check, &file, Lent::Nothing, 0, 0, 0);
            if reply.refusal() != 0 {
                study.draft.trips[position][from] = 0;
            }
        }
    }
    assert!(
        pair.numbers[0] > 3_000 && pair.numbers[11] > 3_000,
        "{:?}",
        pair.numbers
    );
}

/// Makes every call but pack with each of these files, which are to be answered
/// alike, and compares what the calls answer and leave.
fn compare_alike(files: &[Vec<u8>], table: &[u32], share: u32, note: &[u16]) {
    let page = vec![1; 30 * 20];
    for (kind, budget) in [
        (Kind::Check, 0),
        (Kind::Audit, 0),
        (Kind::Pass, 0),
        (Kind::Run, 30),
        (Kind::Start, 0),
        (Kind::Page, 0),
        (Kind::TakeBack, 0),
    ] {
        let answered = files.iter().map(|file| {
            let call = Call {
                kind,
                file: Some(file.clone()),
                lent: match kind {
                    Kind::Check => Lent::Nothing,
                    Kind::Page => Lent::Page(Some(table.to_vec()), page.clone()),
                    Kind::Pass | Kind::TakeBack => {
                        Lent::Noted(Some(table.to_vec()), Some(note.to_vec()))
                    }
                    _ => Lent::Table(table.to_vec()),
                },
                share,
                budget,
                excess: 0,
            };
            let mut player = Player::default();
            let reply = player.play(&Second, &call);
            (reply, player.table, player.page, player.note)
        });
        let answered: Vec<_> = answered.collect();
        assert!(answered.iter().all(|other| *other == answered[0]));
    }
}

/// A study of version 2 whose nodes are all open is the same in version 1, and
/// so is one of version 3 whose powers are all 4.
#[test]
fn all_open_is_version_1() {
    let mut dice = Dice::new(2_029);
    for _ in 0..500 {
        let draft = Plan::small(&mut dice).draft(&mut dice);
        let powers = vec![4; draft.links.len()];
        let files = [
            draft.file(),
            draft.clone().closing(&[]).file(),
            draft.clone().with_powers(powers).file(),
        ];
        let share = dice.pick(&[1, 9, 512, 1_024]);
        let table = draft.wandering_table(&mut dice, share);
        let note = Versioned::from(draft).some_note(&mut dice, 1);
        compare_alike(&files, &table, share, &note);
    }
}

/// A study of version 3 whose powers are all 4 is the same in version 2, with
/// tables of all kinds. Packed, it has the same bytes but for the version, the
/// powers and the offsets after them.
#[test]
fn all_powers_4_is_version_2() {
    let mut dice = Dice::new(2_033);
    for _ in 0..1_000 {
        let study = small_closed_study(&mut dice);
        let links = study.draft.links.len();
        let twin = study.clone().with_powers(vec![4; links]);
        let files = [study.file(), twin.file()];
        let share = dice.pick(&[1, 9, 512, 1_024]);
        let mut table = study.wandering_table(&mut dice, share);
        let step = dice.pick(&[0, 1, 8]);
        let note = study.some_note(&mut dice, step);
        compare_alike(&files, &table, share, &note);
        let through = study.draft.wandering_table(&mut dice, share);
        compare_alike(&files, &through, share, &note);
        let place = dice.index(table.len());
        table[place] = dice.any_u32();
        compare_alike(&files, &table, share, &note);

        let mut packed = vec![0; twin.packed_length()];
        assert_eq!(pack(&files[0], &mut packed), 0);
        assert_eq!(packed[..study.packed_length()], files[0]);
        assert_eq!(pack(&files[1], &mut packed), 0);
        assert_eq!(packed, files[1]);
        assert_eq!(files[1][40 + 12 * links..], files[0][40 + 10 * links..]);
    }
}

/// A crowded street grid of one of seven kinds: in version 1, with zones, with
/// zones and powers, with powers, with closed nodes, with lorries, and with
/// lorries and all the rest.
fn crowded_study(dice: &mut Dice, kind: usize) -> Versioned {
    let (wide, high) = (dice.between(2, 4) as u16, dice.between(1, 3) as u16);
    let (time, capacity) = (dice.pick(&[5, 40, 900]), dice.pick(&[4, 25, 300]));
    let links = grid(dice, wide, high, 512, time, capacity);
    let plan = Plan {
        nodes: (1, 1),
        links: (1, 1),
        destinations: 5,
        time,
        capacity,
        trips: capacity,
        tenths: 9,
    };
    let nodes = wide * high;
    match kind {
        0 => plan.with_links(dice, nodes, links).into(),
        1 => plan.with_zones(dice, nodes, 5, links),
        2 => plan
            .with_zones(dice, nodes, 5, links)
            .with_some_powers(dice),
        3 => plan.with_links(dice, nodes, links).with_some_powers(dice),
        4 => plan.with_links(dice, nodes, links).closing_some(dice, 2),
        5 => plan
            .with_links(dice, nodes, links)
            .with_some_lorries(dice, 5)
            .barring_some(dice, 2),
        _ => plan
            .with_zones(dice, nodes, 5, links)
            .with_some_powers(dice)
            .with_some_lorries(dice, 7)
            .barring_some(dice, 1),
    }
}

/// Runs to their end, on crowded networks where they take long, in version 1,
/// with closed nodes, with powers and with lorries.
#[test]
fn long_runs() {
    let mut dice = Dice::new(77);
    let mut pair = Pair::default();
    let (mut judged, mut endings) = (0, [0; 4]);
    for turn in 0..840 {
        let study = crowded_study(&mut dice, turn % 7);
        let excess = dice.pick(&[0, 0, 0, 1, 3]);
        let budget = if turn % 4 == 0 { 60 } else { 1_024 };
        let table = Lent::Table(vec![0; study.table_length()]);
        let reply = pair.call(Kind::Run, &study.file(), table, 0, budget, excess);
        if let Reply::Run(answer) = reply {
            judged += answer.judged;
            endings[usize::from(answer.ending)] += 1;
        }
    }
    assert!(judged > 7_500, "{judged}");
    assert!(
        endings[0] == 0 && endings[1..].iter().all(|&count| count > 5),
        "{endings:?}"
    );
}

/// Changes a few bytes of a file at random, half of them in the header, and
/// perhaps cuts it short.
fn damaged(dice: &mut Dice, file: &[u8], header: usize) -> Vec<u8> {
    let mut other = file.to_vec();
    for _ in 0..dice.between(1, 3) {
        let end = if dice.once_in(2) { header } else { other.len() };
        let place = dice.index(end);
        other[place] = match dice.below(4) {
            0 => other[place].wrapping_add(1),
            1 => other[place].wrapping_sub(1),
            2 => 0,
            _ => dice.roll() as u8,
        };
    }
    if dice.once_in(20) {
        other.truncate(dice.index(other.len()));
    }
    other
}

/// Small studies with bytes changed at random.
#[test]
fn damaged_files() {
    let mut dice = Dice::new(505);
    let mut pair = Pair::default();
    for turn in 0..10_000 {
        let draft = Plan::small(&mut dice).draft(&mut dice);
        let gaps: [Vec<u8>; 7] = [(); 7].map(|()| vec![dice.roll() as u8; dice.index(6)]);
        let gaps = gaps.each_ref().map(Vec::as_slice);
        let (study, header) = match turn % 4 {
            0 => (Versioned::from(draft), 32),
            1 => (draft.closing_some(&mut dice, 3), 40),
            2 => (some_powers_and_zones(&mut dice, draft), 40),
            _ => (small_lorry_study(&mut dice, turn / 4), 56),
        };
        let file = study.file_with_gaps(&gaps[..header / 8]);
        for _ in 0..8 {
            let other = damaged(&mut dice, &file, header);
            pair.call(Kind::Check, &other, Lent::Nothing, 0, 0, 0);
            let kind = dice.pick(&Kind::ALL);
            let number = dice.below(3) as u32;
            let lent = match kind {
                Kind::Desks => {
                    pair.desk(&other, vec![1; dice.index(20)], number, 0);
                    continue;
                }
                Kind::Check => Lent::Nothing,
                Kind::Pack => Lent::Output(vec![2; dice.index(300)]),
                Kind::Page => Lent::Page(Some(vec![0; dice.index(20)]), vec![3; dice.index(600)]),
                Kind::Pass | Kind::TakeBack => {
                    Lent::Noted(Some(vec![1; dice.index(20)]), Some(vec![4; dice.index(40)]))
                }
                _ => Lent::Table(vec![1; dice.index(20)]),
            };
            pair.call(kind, &other, lent, number, number, 0);
        }
    }
    for number in (0..=12).chain([13, 14, 15, 16, 17, 19, 23]) {
        assert!(pair.numbers[number] > 0, "{number}: {:?}", pair.numbers);
    }
}

/// A header that looks like one, for sections without gaps.
fn sensible_header(version: u16, n: u16, m: u16, p: u16) -> Vec<u8> {
    let mut header: Vec<u8> = [version, n, m, p]
        .into_iter()
        .flat_map(u16::to_le_bytes)
        .collect();
    let sections = [3, 4, 4, 6, 6][usize::from(version) - 1];
    let link_bytes = if version >= 3 { 12 } else { 10 };
    let mut offset = 8 + 8 * sections as u32;
    let lengths = [link_bytes * m, 2 * p, 2 * p * n, n, 2 * p * n, m];
    for length in &lengths[..sections] {
        header.extend(offset.to_le_bytes());
        header.extend(u32::from(*length).to_le_bytes());
        offset += u32::from(*length);
    }
    header
}

/// Files of bytes without any sense behind a header that looks like one.
#[test]
fn senseless_files() {
    let mut dice = Dice::new(606);
    let mut pair = Pair::default();
    for _ in 0..12_000 {
        let length = dice.pick(&[0, 31, 32, 36, 39, 40, 41, 55, 56, 60, 70, 90, 200]);
        let mut file: Vec<u8> = (0..length)
            .map(|_| dice.roll() as u8 >> dice.below(8))
            .collect();
        let (n, m, p) = (dice.between(1, 3), dice.between(1, 3), dice.between(1, 2));
        let version = dice.pick(&[1, 1, 2, 2, 3, 3, 4, 4, 5]);
        let header = sensible_header(version, n as u16, m as u16, p as u16);
        if dice.once_in(2) {
            for (byte, number) in file.iter_mut().zip(header) {
                *byte = number;
            }
        }
        let table: Vec<u32> = (0..dice.index(8)).map(|_| dice.any_u32()).collect();
        for kind in Kind::ALL {
            let number = dice.any_u32();
            let lent = match kind {
                Kind::Desks => {
                    pair.desk(&file, table.clone(), number, number as u16);
                    continue;
                }
                Kind::Check => Lent::Nothing,
                Kind::Pack => Lent::Output(vec![7; dice.index(120)]),
                Kind::Page => Lent::Page(Some(table.clone()), vec![7; dice.index(120)]),
                Kind::Pass | Kind::TakeBack => {
                    let note = (0..dice.index(9)).map(|_| dice.any_u32() as u16).collect();
                    Lent::Noted(Some(table.clone()), Some(note))
                }
                _ => Lent::Table(table.clone()),
            };
            pair.call(kind, &file, lent, number, number, number as u16);
        }
    }
}

/// An order for a seat: a study of any kind, a table of numbers without any sense
/// that is mostly long enough, and a budget that is mostly in range.
fn some_seat(dice: &mut Dice, turn: usize) -> LentSeat {
    let study = match turn % 3 {
        0 => small_lorry_study(dice, turn),
        1 => small_powers_study(dice),
        _ => small_closed_study(dice),
    };
    let mut file = study.file();
    if dice.once_in(12) {
        file = damaged(dice, &file, 32);
    }
    let length = study.table_length() + dice.index(3) - usize::from(dice.once_in(15));
    LentSeat {
        file: (!dice.once_in(8)).then_some(file),
        table: (!dice.once_in(8)).then(|| (0..length).map(|_| dice.any_u32()).collect()),
        budget: dice.pick(&[1, 2, 3, 6, 12, 30, 1_024, 1, 5, 8, 0, 1_025]),
        excess: dice.pick(&[0, 0, 0, 1, 9, 400, 65_535]),
    }
}

/// Desks with small studies of all kinds, and with seats that take over what was
/// left.
#[test]
fn desks_with_small_studies() {
    let mut dice = Dice::new(910);
    let mut pair = Pair::default();
    let (mut endings, mut refused) = ([0; 5], 0);
    for turn in 0..1_200 {
        let mut lent = LentDesks {
            desks: dice.pick(&[8, 8, 8, 8, 7, 5, 3, 2, 1, 0, 9]),
            allowance: dice.pick(&[1, 3, 8, 12, 20, 40, 40, 90, 8_192, 0, 8_193]),
            ..LentDesks::default()
        };
        for (number, seat) in lent.seats.iter_mut().enumerate() {
            *seat = some_seat(&mut dice, turn + number);
        }
        let Reply::Desks(answer) = pair.play(&Call::for_desks(lent)) else {
            unreachable!("desks are answered as desks");
        };
        for own in answer.seats {
            endings[usize::from(own.ending)] += 1;
            refused += usize::from(own.refusal != 0);
        }
    }
    assert!(endings.iter().all(|&count| count >= 50), "{endings:?}");
    assert!(refused >= 300, "{refused}");
    assert!(pair.numbers[24] >= 100 && pair.numbers[25] >= 100);
}

/// Every recorded call, those at the limits included.
#[test]
fn recorded_calls() {
    let mut pair = Pair::default();
    for call in cases::all() {
        pair.play(&call);
    }
    assert!(pair.made >= 2_400 && pair.pages >= 190 && pair.over >= 500);
    assert!(pair.taken_back >= 200, "{}", pair.taken_back);
}

/// Networks of a larger size, with many destinations, in version 1, with closed
/// nodes, with powers and with lorries.
#[test]
fn larger_studies() {
    let mut dice = Dice::new(909);
    let mut pair = Pair::default();
    for turn in 0..240 {
        let plan = Plan {
            nodes: (20, 70),
            links: (40, 260),
            destinations: 32.min(4 + turn / 4),
            time: dice.pick(&[2, 30, 1_000, 16_383]),
            capacity: dice.pick(&[2, 30, 1_000, 65_535]),
            trips: dice.pick(&[1, 5, 60]),
            tenths: dice.between(1, 10),
        };
        let draft = if turn % 3 == 0 {
            let links = grid(&mut dice, 8, 6, 160, plan.time, plan.capacity);
            plan.with_links(&mut dice, 48, links)
        } else {
            plan.draft(&mut dice)
        };
        let study = match turn % 8 {
            0 | 1 => Versioned::from(draft),
            2 => draft.with_some_powers(&mut dice),
            3 => some_powers_and_zones(&mut dice, draft),
            4 => draft.closing_some(&mut dice, 2),
            5 => {
                let links = grid(&mut dice, 8, 6, 160, plan.time, plan.capacity);
                plan.with_zones(&mut dice, 48, 5 + turn as u16 / 8, links)
            }
            _ => some_powers_and_zones(&mut dice, draft)
                .with_some_lorries(&mut dice, 4)
                .barring_some(&mut dice, 1),
        };
        let file = study.file();
        pair.study(&mut dice, &study, &file);
    }
    assert!(pair.numbers[20] > 50, "{:?}", pair.numbers);
    pair.has_takings_back(300);
}
