//! Rounds of calls of every kind with one study, and what they are lent.

use crate::lent::{file_of, table_length};
use crate::pair::{Numbers, Pair};
use crate::studies::{blank_note, open};
use ilstrovan::LINE_BYTES;
use second::draft::{Dice, Versioned};
use second::stream::{Kind, Lent, Reply};

/// Calls of every kind with one study, its file whole or damaged.
pub fn round(pair: &mut Pair, dice: &mut Dice, study: &Versioned, budget: u64) {
    let file = file_of(dice, study);
    round_of(pair, dice, study, &file, budget);
}

/// Rounds with studies of a kind until there are as many calls, their files of about
/// 2,048 bytes, up to which the calls lend fewer places for their rows.
pub fn rounds_of_2048_bytes(pair: &mut Pair, calls: u64, study: fn(&mut Dice) -> Versioned) {
    let mut dice = Dice::new(2_030);
    while pair.calls < calls {
        let study = study(&mut dice);
        let mut file = study.file();
        if file.len() <= 2_049 {
            file.resize(dice.between(2_047, 2_049) as usize, dice.roll() as u8);
            round_of(pair, &mut dice, &study, &file, 40);
        }
    }
}

/// Calls of every kind with a file of a study, its runs within a budget.
fn round_of(pair: &mut Pair, dice: &mut Dice, study: &Versioned, file: &[u8], budget: u64) {
    let length = table_length(dice, study);
    let garbage: Vec<u32> = (0..length).map(|_| dice.any_u32()).collect();

    pair.call(Kind::Check, file, Lent::Nothing, Numbers::default());
    let room = output(dice, study);
    pair.call(Kind::Pack, file, Lent::Output(room), Numbers::default());
    let run = Numbers {
        budget: match dice.below(12) {
            0 => dice.pick(&[0, 1_024, 1_025, u32::MAX]),
            1 => dice.between(1, budget) as u32,
            _ => dice.between(1, 30) as u32,
        },
        excess: dice.pick(&[0, 0, 1, 5, 80, 2_000, 65_535]),
        share: 0,
    };
    let reply = pair.call(Kind::Run, file, Lent::Table(garbage.clone()), run);
    if let Reply::Run(answer) = reply {
        let lent = Lent::Page(None, paper(dice, study));
        pair.call(Kind::Page, file, lent, Numbers::share(answer.share));
    }

    pair.call(Kind::Start, file, Lent::Table(garbage), Numbers::default());
    follow(pair, dice, study, file, 1);

    let share = dice.pick(&[1, 2, 3, 10, 64, 100, 512, 960, 1_000, 1_023, 1_024]);
    let mut table = any_table(dice, study, share);
    table.resize(length, 7);
    let given = Numbers::share(share);
    pair.call(Kind::Audit, file, Lent::Table(table.clone()), given);
    let lent = Lent::Page(Some(table.clone()), paper(dice, study));
    pair.call(Kind::Page, file, lent, given);
    let lent = Lent::Noted(Some(table), Some(blank_note(dice, study)));
    pair.call(Kind::Pass, file, lent, given);
    follow(pair, dice, study, file, share);
}

/// A table that conserves, half of them as if all nodes were open and no link
/// barred; one in three has a cycle, which may lead through closed nodes and over
/// barred links too, and one in three another number somewhere.
fn any_table(dice: &mut Dice, study: &Versioned, share: u32) -> Vec<u32> {
    let mut table = match dice.below(6) {
        0 | 1 => study.wandering_table(dice, share),
        2 => study.table_by_any_links(dice, share),
        3 => started(&study.file(), study, share),
        _ => started(&open(study).file(), study, share),
    };
    let amount = dice.pick(&[1, share, share * (study.total() as u32) / 3]);
    match dice.below(6) {
        0 => _ = open(study).add_cycle(dice, &mut table, amount),
        1 => _ = study.add_cycle(dice, &mut table, amount),
        _ => {}
    }
    if dice.once_in(3) {
        let place = dice.index(table.len());
        table[place] = dice.any_u32();
    }
    table
}

/// The start's table, at this share.
fn started(file: &[u8], study: &Versioned, share: u32) -> Vec<u32> {
    let mut table = vec![0; study.table_length()];
    second::start(file, &mut table);
    table.iter_mut().for_each(|flow| *flow *= share);
    table
}

/// A pass of the table as the call before left it, then passes, audits, pages and
/// moves taken back, most of them at the share reached.
fn follow(pair: &mut Pair, dice: &mut Dice, study: &Versioned, file: &[u8], share: u32) {
    let mut reached = share;
    let mut kind = Kind::Pass;
    for _ in 0..dice.between(1, 6) {
        let share = if dice.once_in(6) {
            let any = dice.any_u32();
            dice.pick(&[0, reached + 1, 2 * reached, 1_025, any])
        } else {
            reached
        };
        let lent = match kind {
            Kind::Page => Lent::Page(None, paper(dice, study)),
            Kind::Pass => Lent::Noted(None, Some(blank_note(dice, study))),
            Kind::TakeBack => Lent::Noted(None, None),
            _ => Lent::Same,
        };
        match pair.call(kind, file, lent, Numbers::share(share)) {
            Reply::Pass(answer) if answer.refusal == 0 => reached = answer.share,
            Reply::TakeBack(answer) if answer.refusal == 0 => reached = answer.share,
            _ => {}
        }
        kind = dice.pick(&[
            Kind::Pass,
            Kind::Pass,
            Kind::Audit,
            Kind::Page,
            Kind::TakeBack,
        ]);
    }
}

/// An output that holds a pattern: about one in four is too short, some by one
/// byte, some as long as the study needs in version 1.
fn output(dice: &mut Dice, study: &Versioned) -> Vec<u8> {
    let length = study.packed_length();
    let room = match dice.below(8) {
        0 => length - 1,
        1 => study.draft.packed_length() + dice.index(2),
        2 => length + 1 + dice.index(20),
        3 => dice.index(length),
        _ => length,
    };
    vec![dice.roll() as u8; room]
}

/// A page slice that holds a pattern: one time in five too short.
fn paper(dice: &mut Dice, study: &Versioned) -> Vec<u8> {
    let lines = LINE_BYTES * study.draft.links.len();
    let length = match dice.below(10) {
        0 => 0,
        1 => lines - 1,
        2 => lines + 1,
        3 => lines + dice.index(200),
        _ => lines,
    };
    let first = dice.index(256);
    (first..first + length).map(|byte| byte as u8).collect()
}
