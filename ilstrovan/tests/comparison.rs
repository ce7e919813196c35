//! The proved calls compared with the second implementation's, call by call:
//! every number answered, and everything lent.

mod common;
mod lent;
mod pair;
mod rounds;
mod studies;

use common::Proved;
use pair::Pair;
use rounds::{round, rounds_of_2048_bytes};
use second::cases;
use second::draft::{Dice, Plan, Versioned};
use second::stream::{Calls, Kind};
use studies::{closing, large, large_closed, powered, small_closed};

/// The list of recorded calls.
#[test]
fn recorded_calls() {
    let mut pair = Pair::default();
    for call in cases::all() {
        pair.play(&call);
    }
    assert!(pair.calls > 7_500, "{} calls", pair.calls);
    assert!(pair.over > 500, "{} with links over", pair.over);
    let pages = pair.answered(Kind::Page);
    assert!(pages[0] > 150, "{pages:?}");
    let desks = pair.answered(Kind::Desks);
    assert!(desks[0] > 300, "{desks:?}");
}

/// Small studies of version 1, whole and damaged.
#[test]
fn random_calls_on_small_studies() {
    let mut dice = Dice::new(2_026);
    let mut pair = Pair::default();
    while pair.calls < 180_000 {
        let study = Plan::small(&mut dice).draft(&mut dice).into();
        round(&mut pair, &mut dice, &study, 1_024);
    }
    assert!(pair.accepted > pair.calls / 3, "{} accepted", pair.accepted);
    assert!(pair.over > pair.calls / 50, "{} with links over", pair.over);
    let (pages, back) = (pair.answered(Kind::Page), pair.answered(Kind::TakeBack));
    // A page puts every question but those of a run and of a pack.
    assert!(pages[0] > 10_000, "{pages:?}");
    assert_eq!(pair.never(Kind::Page), [13, 17, 19, 20, 21, 22, 23, 24, 25]);
    // Taking back puts those of a note, and none to a page.
    assert!(back[0] > 1_500, "{back:?}");
    assert_eq!(pair.never(Kind::TakeBack), [13, 17, 18, 19, 20, 23, 24, 25]);
}

/// Small studies of version 2, whole and damaged.
#[test]
fn random_calls_on_small_studies_with_closed_nodes() {
    let mut dice = Dice::new(2_028);
    let mut pair = Pair::default();
    while pair.calls < 210_000 {
        let study = small_closed(&mut dice);
        round(&mut pair, &mut dice, &study, 1_024);
    }
    assert!(pair.accepted > pair.calls / 3, "{} accepted", pair.accepted);
    assert!(pair.over > pair.calls / 50, "{} with links over", pair.over);
    let (pages, back) = (pair.answered(Kind::Page), pair.answered(Kind::TakeBack));
    assert!(pages[0] > 10_000, "{pages:?}");
    assert!(pages[20] > 1_000, "{pages:?}");
    assert_eq!(pair.never(Kind::Page), [13, 17, 21, 22, 23, 24, 25]);
    assert!(back[0] > 1_500, "{back:?}");
    assert_eq!(pair.never(Kind::TakeBack), [13, 17, 18, 23, 24, 25]);
}

/// Small studies of version 3, with closed nodes and without, whole and damaged.
#[test]
fn random_calls_on_small_studies_with_powers() {
    let mut dice = Dice::new(2_031);
    let mut pair = Pair::default();
    while pair.calls < 180_000 {
        let study = small_closed(&mut dice);
        let study = powered(&mut dice, study);
        round(&mut pair, &mut dice, &study, 1_024);
    }
    assert!(pair.accepted > pair.calls / 3, "{} accepted", pair.accepted);
    assert!(pair.over > pair.calls / 50, "{} with links over", pair.over);
    let (pages, back) = (pair.answered(Kind::Page), pair.answered(Kind::TakeBack));
    assert!(pages[0] > 10_000, "{pages:?}");
    assert!(pages[7] > 500, "{pages:?}");
    assert_eq!(pair.never(Kind::Page), [13, 17, 21, 22, 23, 24, 25]);
    assert!(back[0] > 1_500, "{back:?}");
    assert_eq!(pair.never(Kind::TakeBack), [13, 17, 18, 23, 24, 25]);
}

/// Studies of version 1 up to every limit.
#[test]
fn random_calls_on_large_studies() {
    let mut dice = Dice::new(2_027);
    let mut pair = Pair::default();
    while pair.calls < 6_000 {
        let study = large(&mut dice);
        round(&mut pair, &mut dice, &study, 40);
    }
    assert!(pair.accepted > pair.calls / 3, "{} accepted", pair.accepted);
    assert!(pair.over > pair.calls / 50, "{} with links over", pair.over);
    let pages = pair.answered(Kind::Page);
    assert!(pages[0] > 300, "{pages:?}");
}

/// Studies of version 2 up to every limit.
#[test]
fn random_calls_on_large_studies_with_closed_nodes() {
    let mut dice = Dice::new(2_029);
    let mut pair = Pair::default();
    while pair.calls < 6_000 {
        let study = large_closed(&mut dice);
        round(&mut pair, &mut dice, &study, 40);
    }
    assert!(pair.accepted > pair.calls / 3, "{} accepted", pair.accepted);
    assert!(pair.over > pair.calls / 50, "{} with links over", pair.over);
    let pages = pair.answered(Kind::Page);
    assert!(pages[0] > 300, "{pages:?}");
    assert!(pages[20] > 50, "{pages:?}");
}

/// Studies of version 3 up to every limit.
#[test]
fn random_calls_on_large_studies_with_powers() {
    let mut dice = Dice::new(2_032);
    let mut pair = Pair::default();
    while pair.calls < 8_000 {
        let study = large_closed(&mut dice);
        let study = powered(&mut dice, study);
        round(&mut pair, &mut dice, &study, 40);
    }
    assert!(pair.accepted > pair.calls / 4, "{} accepted", pair.accepted);
    assert!(pair.over > pair.calls / 50, "{} with links over", pair.over);
    let pages = pair.answered(Kind::Page);
    assert!(pages[0] > 300, "{pages:?}");
}

/// As many links or trips as there is room for, in versions 1 to 3.
#[test]
fn random_calls_on_files_of_about_2048_bytes() {
    let mut pair = Pair::default();
    rounds_of_2048_bytes(&mut pair, 8_000, about_2048_bytes);
    assert!(pair.accepted > pair.calls / 2, "{} accepted", pair.accepted);
    let pages = pair.answered(Kind::Page);
    assert!(pages[0] > 300, "{pages:?}");
}

/// A study of many links and few trips, or of many trips and fewer links, whose
/// file often has about 2,048 bytes.
fn about_2048_bytes(dice: &mut Dice) -> Versioned {
    let sizes = [
        ((2, 4), (195, 201), 1),
        ((2, 4), (162, 167), 1),
        ((20, 30), (30, 80), 30),
    ];
    let (nodes, links, destinations) = dice.pick(&sizes);
    let plan = Plan {
        nodes,
        links,
        destinations,
        ..Plan::small(dice)
    };
    let draft = plan.draft(dice);
    if dice.once_in(2) {
        return draft.into();
    }
    let tenths = dice.pick(&[0, 0, 1]);
    let study = closing(dice, draft, tenths);
    match dice.below(2) {
        0 => study,
        _ => study.with_some_powers(dice),
    }
}

/// With all nodes open, version 2 answers what version 1 does, and version 3 too
/// where every link has power 4.
#[test]
fn open_nodes_and_fourth_powers_make_no_difference() {
    let mut dice = Dice::new(2_030);
    for _ in 0..400 {
        let draft = Plan::small(&mut dice).draft(&mut dice);
        let mut table = draft.wandering_table(&mut dice, 10);
        draft.add_cycle(&mut dice, &mut table, 3);
        let fourth = vec![4; draft.links.len()];
        let files = [
            draft.file(),
            draft.clone().closing(&[]).file(),
            draft.clone().with_powers(fourth).file(),
        ];
        let [first, second, third] = files.map(|file| {
            let audit = Proved.audit(&file, &table, 10);
            let (mut moved, mut ended) = (table.clone(), table.clone());
            let mut note = vec![7; draft.note_length()];
            let pass = Proved.pass(&file, &mut moved, 10, &mut note);
            let run = Proved.run(&file, &mut ended, 20, 0);
            let mut back = moved.clone();
            let taken = Proved.take_back(&file, &mut back, pass.share, &note);
            let answers = (Proved.check(&file), audit, pass, run, taken);
            (answers, moved, note, ended, back)
        });
        assert_eq!(first, second);
        assert_eq!(first, third);
    }
}
