//! Lorries (request A.7): studies of version 4, call by call beside the second
//! implementation, and held to what the request says of their tables.

mod common;
mod freight;
mod lent;
mod noted;
mod pair;
mod rounds;
mod sessions;
mod studies;

use common::Proved;
use freight::{large, largest, small, with_a_fault, with_lorries};
use ilstrovan::{LINE_BYTES, LONGEST_NOTE};
use pair::{Numbers, Pair};
use rounds::{round, rounds_of_2048_bytes};
use second::draft::{Dice, Plan, Versioned};
use second::questions::LARGEST_TOTAL;
use second::stream::{Calls, Kind, Lent, Reply};
use second::{AuditAnswer, MOVED, PassAnswer, RunAnswer, TakeBackAnswer};
use sessions::{acceptable, expect, many_destinations, sessions, started};
use studies::{open, powered, small_closed};

/// Holds calls to so many refusals by every number that lorries play a part in.
fn expect_refusals(pair: &Pair, least: u64) {
    for number in [4, 5, 9, 10, 11, 12, 15, 16, 20, 21, 22, 23] {
        let kinds = Kind::ALL.into_iter();
        let count: u64 = kinds.map(|kind| pair.answered(kind)[number]).sum();
        assert!(count > least, "{count} refusals {number}");
    }
}

/// Calls of every kind on small studies, whole and damaged.
#[test]
fn random_calls_on_small_studies() {
    let mut dice = Dice::new(7_001);
    let mut pair = Pair::default();
    while pair.calls < 120_000 {
        let study = small(&mut dice);
        let study = with_a_fault(&mut dice, study);
        round(&mut pair, &mut dice, &study, 1_024);
    }
    assert!(pair.accepted > pair.calls / 4, "{} accepted", pair.accepted);
    assert!(pair.over > pair.calls / 50, "{} with links over", pair.over);
    expect_refusals(&pair, 150);
    let (pages, back) = (pair.answered(Kind::Page), pair.answered(Kind::TakeBack));
    // A page puts every question but those of a run, of a pack and of a note.
    assert!(pages[0] > 5_000, "{pages:?}");
    assert_eq!(pair.never(Kind::Page), [13, 17, 21, 22, 24, 25]);
    assert!(back[0] > 800, "{back:?}");
    assert_eq!(pair.never(Kind::TakeBack), [13, 17, 18, 24, 25]);
}

/// The same up to every limit.
#[test]
fn random_calls_on_large_studies() {
    let mut dice = Dice::new(7_002);
    let mut pair = Pair::default();
    while pair.calls < 5_000 {
        let study = large(&mut dice);
        let study = with_a_fault(&mut dice, study);
        round(&mut pair, &mut dice, &study, 40);
    }
    assert!(pair.accepted > pair.calls / 4, "{} accepted", pair.accepted);
    assert!(pair.over > pair.calls / 50, "{} with links over", pair.over);
    expect_refusals(&pair, 5);
}

/// As many links or trips as there is room for.
#[test]
fn random_calls_on_files_of_about_2048_bytes() {
    let mut pair = Pair::default();
    rounds_of_2048_bytes(&mut pair, 6_000, about_2048_bytes);
    assert!(pair.accepted > pair.calls / 3, "{} accepted", pair.accepted);
    let pages = pair.answered(Kind::Page);
    assert!(pages[0] > 200, "{pages:?}");
}

/// A study of many links and few trips, or of many trips and fewer links, whose
/// file often has about 2,048 bytes.
fn about_2048_bytes(dice: &mut Dice) -> Versioned {
    let sizes = [((2, 4), (147, 152), 1), ((14, 20), (20, 60), 20)];
    let (nodes, links, destinations) = dice.pick(&sizes);
    let plan = Plan {
        nodes,
        links,
        destinations,
        ..Plan::small(dice)
    };
    let tenths = dice.pick(&[0, 0, 1]);
    let study = plan.draft(dice).closing_some(dice, tenths);
    with_lorries(dice, study)
}

#[test]
fn moves_and_back_in_small_studies() {
    expect(&sessions(7_003, 80_000, small), 2_000, 150, &[]);
}

/// Up to 32 destinations, to many of which only cars go, only lorries or nobody.
#[test]
fn moves_and_back_to_many_destinations() {
    let study = |dice: &mut Dice| {
        let study = many_destinations(dice);
        with_lorries(dice, study)
    };
    expect(&sessions(7_004, 10_000, study), 400, 30, &[]);
}

#[test]
fn moves_and_back_in_large_studies() {
    expect(&sessions(7_005, 4_000, large), 100, 10, &[]);
}

/// Whether a table has lorries on a barred link.
fn on_barred(study: &Versioned, table: &[u32]) -> bool {
    let links = study.draft.links.len();
    let lorries = table[study.draft.table_length()..].iter().enumerate();
    lorries
        .filter(|&(_, &flow)| flow > 0)
        .any(|(place, _)| study.is_barred(place % links))
}

/// With all nodes open, the tables that are refused 20 are those with lorries on
/// barred links.
#[test]
fn lorries_on_barred_links() {
    let mut dice = Dice::new(7_006);
    let mut pair = Pair::default();
    let mut told = [0; 2];
    while pair.calls < 20_000 {
        let study = open_nodes(&mut dice);
        let share = dice.pick(&[1, 2, 9, 512, 1_024]);
        let mut table = match dice.below(2) {
            0 => study.wandering_table(&mut dice, share),
            _ => study.table_by_any_links(&mut dice, share),
        };
        if dice.once_in(3) {
            open(&study).add_cycle(&mut dice, &mut table, 1);
        }
        let number = refusal_of_table(&mut pair, &study, &table, share);
        if number == 0 || number == 20 {
            let barred = on_barred(&study, &table);
            assert_eq!(number == 20, barred, "{study:?} {table:?}");
            told[usize::from(barred)] += 1;
        }
    }
    assert!(told[0] > 1_000 && told[1] > 500, "{told:?}");
}

/// A small study with lorries and all nodes open, most of them with barred links.
fn open_nodes(dice: &mut Dice) -> Versioned {
    let study = acceptable(dice, small).closing(&[]);
    match dice.once_in(2) {
        true => study.barring_some(dice, 2),
        false => study,
    }
}

/// What an audit answers, and a page, a pass and taking back too but for their own
/// questions.
fn refusal_of_table(pair: &mut Pair, study: &Versioned, table: &[u32], share: u32) -> u8 {
    let file = study.file();
    let given = Numbers::share(share);
    let lent = Lent::Table(table.to_vec());
    let number = pair.call(Kind::Audit, &file, lent, given).refusal();
    let paper = vec![7; LINE_BYTES * study.draft.links.len()];
    let lent = Lent::Page(None, paper);
    assert_eq!(pair.call(Kind::Page, &file, lent, given).refusal(), number);
    let note = vec![7; study.note_length()];
    for kind in [Kind::TakeBack, Kind::Pass] {
        let lent = Lent::Noted(Some(table.to_vec()), Some(note.clone()));
        let other = pair.call(kind, &file, lent, given).refusal();
        assert!(other == number || number == 0 && other > 20, "{other}");
    }
    number
}

/// A study in which cars and lorries make the same trips.
fn same_trips(dice: &mut Dice) -> Versioned {
    let mut study = acceptable(dice, small);
    study.draft.trips = study.lorries.clone().expect("there are lorries");
    study.limit_total(u64::from(LARGEST_TOTAL));
    study
}

/// Two tables with the same totals at this share. In the one some cars go where
/// lorries go in the other, and the other way round.
fn exchanged(dice: &mut Dice, study: &Versioned, share: u32) -> [Vec<u32>; 2] {
    let step = dice.between(1, u64::from(share) - 1) as u16;
    let lorries = study.draft.note_length();
    let [one, other] = [(); 2].map(|()| study.some_note(dice, step)[lorries..].to_vec());
    [[&one, &other], [&other, &one]].map(|[cars, lorries]| {
        let note = [&[step], &cars[..], &lorries[..]].concat();
        let mut table = started(study, share - u32::from(step));
        study.add_noted(&note, &mut table);
        table
    })
}

/// What is answered and written of a table: audit, page, pass, the note, and what
/// each number grew by, unless the table was doubled.
type Judgement = (Reply, Vec<u8>, Reply, Vec<u16>, Vec<u32>);

fn judge(pair: &mut Pair, study: &Versioned, table: &[u32], share: u32) -> Judgement {
    let file = study.file();
    let given = Numbers::share(share);
    let audit = pair.call(Kind::Audit, &file, Lent::Table(table.to_vec()), given);
    let paper = vec![7; LINE_BYTES * study.draft.links.len()];
    pair.call(Kind::Page, &file, Lent::Page(None, paper), given);
    let blank = vec![7; study.note_length()];
    let pass = pair.call(Kind::Pass, &file, Lent::Noted(None, Some(blank)), given);
    let left = &pair.proved;
    let grown = left
        .table
        .iter()
        .zip(table)
        .map(|(after, before)| after - before);
    let loaded = match left.note[0] {
        0 => vec![],
        _ => grown.collect(),
    };
    (audit, left.page.clone(), pass, left.note.clone(), loaded)
}

/// Cars have the same times, next links and loading, whatever the lorries do, as
/// long as the totals and the share are the same.
#[test]
fn equal_totals() {
    let mut dice = Dice::new(7_007);
    let mut pair = Pair::default();
    let (mut different, mut moved) = (0, 0);
    while pair.calls < 20_000 {
        let study = same_trips(&mut dice);
        let share = dice.pick(&[2, 3, 10, 64, 513, 1_024]);
        let tables = exchanged(&mut dice, &study, share);
        let [one, other] = tables
            .each_ref()
            .map(|table| judge(&mut pair, &study, table, share));
        assert_eq!(one.0.refusal(), 0);
        assert_eq!(one, other);
        let cars = study.draft.table_length();
        different += u32::from(tables[0][cars..] != tables[1][cars..]);
        moved += u32::from(!one.4.is_empty());
    }
    assert!(different > 1_000, "{different} with different lorries");
    assert!(moved > 1_000, "{moved} moved by loadings");
}

/// What calls answer and leave of the cars.
#[derive(Debug, PartialEq)]
struct Cars {
    check: u8,
    start: u8,
    started: Vec<u32>,
    audit: AuditAnswer,
    page: (u8, Vec<u8>),
    pass: PassAnswer,
    note: Vec<u16>,
    moved: Vec<u32>,
    back: TakeBackAnswer,
    left: Vec<u32>,
    run: RunAnswer,
    ended: Vec<u32>,
}

/// The calls on a study without lorry trips, and on this table of its cars. The
/// lorries' part of every table is seen to be 0.
fn cars_of(study: &Versioned, cars: &[u32], share: u32) -> Cars {
    let file = study.file();
    let length = study.table_length();
    let part = |table: &[u32]| {
        let (cars, lorries) = table.split_at(cars.len());
        assert!(lorries.iter().all(|&flow| flow == 0), "{lorries:?}");
        cars.to_vec()
    };
    let (mut started, mut ended) = (vec![7; length], vec![7; length]);
    let start = Proved.start(&file, &mut started);
    let run = Proved.run(&file, &mut ended, 20, 0);
    let mut table = cars.to_vec();
    table.resize(length, 0);
    let audit = Proved.audit(&file, &table, share);
    let mut paper = vec![7; LINE_BYTES * study.draft.links.len()];
    let page = Proved.page(&file, &table, share, &mut paper);
    let mut note = vec![7; study.note_length()];
    let pass = Proved.pass(&file, &mut table, share, &mut note);
    let moved = part(&table);
    let back = Proved.take_back(&file, &mut table, pass.share, &note);
    note.truncate(study.draft.note_length());
    Cars {
        check: Proved.check(&file),
        start,
        started: part(&started),
        audit,
        page: (page, paper),
        pass,
        note,
        moved,
        back,
        left: part(&table),
        run,
        ended: part(&ended),
    }
}

/// Without lorry trips version 4 answers what version 3 does, whatever is barred.
#[test]
fn no_lorry_trips_make_no_difference() {
    let mut dice = Dice::new(7_008);
    let mut accepted = 0;
    for _ in 0..800 {
        let study = acceptable(&mut dice, |dice| {
            let study = small_closed(dice);
            powered(dice, study)
        });
        let share = dice.pick(&[1, 2, 10, 1_024]);
        let table = study.wandering_table(&mut dice, share);
        let none = vec![vec![0; usize::from(study.draft.nodes)]; study.draft.trips.len()];
        let unbarred = study.clone().with_lorries(none);
        let barred = unbarred.clone().barring_some(&mut dice, 5);
        let expected = cars_of(&study, &table, share);
        assert_eq!(cars_of(&unbarred, &table, share), expected);
        assert_eq!(cars_of(&barred, &table, share), expected);
        accepted += u32::from(expected.pass.refusal == 0);
    }
    assert!(accepted > 400, "{accepted}");
}

#[test]
fn the_largest_study() {
    let mut dice = Dice::new(7_009);
    let study = largest(&mut dice);
    assert_eq!(study.table_length(), 32_768);
    assert_eq!(study.note_length(), LONGEST_NOTE);
    let file = study.file();
    let mut pair = Pair::default();
    let none = Numbers::default();
    let checked = pair.call(Kind::Check, &file, Lent::Nothing, none);
    assert_eq!(checked, Reply::Check(0));
    for (room, number) in [(23_287, 17), (23_288, 0), (23_300, 0)] {
        let packed = pair.call(Kind::Pack, &file, Lent::Output(vec![7; room]), none);
        assert_eq!(packed, Reply::Pack(number));
    }
    for (length, number) in [(16_384, 12), (32_767, 12), (32_771, 0)] {
        let run = Numbers { budget: 30, ..none };
        let ran = pair.call(Kind::Run, &file, Lent::Table(vec![7; length]), run);
        assert_eq!(ran.refusal(), number);
        let started = pair.call(Kind::Start, &file, Lent::Table(vec![7; length]), none);
        assert_eq!(started, Reply::Start(number));
    }
    largest_moves(&mut pair, &study);
}

/// Passes over the table that the call before left, with notes of several lengths,
/// audits and pages, and all moves back.
fn largest_moves(pair: &mut Pair, study: &Versioned) {
    let file = study.file();
    let (mut moves, mut share) = (vec![], 1);
    for length in [8_193, 4_097, 8_192, 8_200].into_iter().cycle().take(24) {
        let judged = (pair.proved.table.clone(), share);
        let given = Numbers::share(share);
        pair.call(Kind::Audit, &file, Lent::Same, given);
        pair.call(
            Kind::Page,
            &file,
            Lent::Page(None, vec![7; 512 * 30]),
            given,
        );
        let lent = Lent::Noted(None, Some(vec![7; length]));
        let Reply::Pass(answer) = pair.call(Kind::Pass, &file, lent, given) else {
            unreachable!("a pass answers as one");
        };
        if length < LONGEST_NOTE {
            assert_eq!(answer.refusal, 12);
        } else {
            assert_eq!(answer.outcome, MOVED);
            share = answer.share;
            moves.push((pair.proved.note.clone(), judged));
        }
    }
    for (note, judged) in moves.into_iter().rev() {
        let lent = Lent::Noted(None, Some(note));
        let reply = pair.call(Kind::TakeBack, &file, lent, Numbers::share(share));
        let Reply::TakeBack(answer) = reply else {
            unreachable!("taking back answers as such");
        };
        share = answer.share;
        assert!((&pair.proved.table, share) == (&judged.0, judged.1));
    }
}
