//! Links past their curves (request A.4): roads side by side whose totals are
//! four times their capacity, a few parts of a trip less or more. The proved
//! calls, the second implementation's, and the count by the totals themselves.

mod common;

use common::Proved;
use second::draft::{Dice, Draft, DraftLink};
use second::stream::{Calls, Second};
use second::{FINEST, MOVED};

/// The widest road, which no study's trips bring past its curve.
const WIDEST: u16 = u16::MAX;

/// A study and a table of it at a share.
struct Crowd {
    links: Vec<DraftLink>,
    file: Vec<u8>,
    table: Vec<u32>,
    share: u32,
}

impl Crowd {
    /// How many links have at least four times their capacity in a table.
    fn over(&self, table: &[u32], share: u32) -> u32 {
        let full = |&(link, &total): &(&DraftLink, &u32)| {
            u64::from(total) >= 4 * u64::from(link[4]) * u64::from(share)
        };
        self.links.iter().zip(table).filter(full).count() as u32
    }
}

/// Roads from node 0 to node 1 with totals about four times their capacity, and
/// the widest road last, with what is left of the last trip. In version 2 too,
/// with no node closed or the destination closed, which changes no number here,
/// and in version 3, where links of every power are over alike.
fn crowd(dice: &mut Dice, most_links: u64) -> Crowd {
    let share = match dice.below(4) {
        0 => dice.pick(&[1, 2, 3, 512, 1_023, 1_024]),
        _ => dice.between(1, 1_024) as u32,
    };
    let roads = dice.between(1, most_links - 1);
    let mut links = Vec::new();
    let mut table = Vec::new();
    for _ in 0..roads {
        let capacity = dice.between(1, 16_000 / roads) as u16;
        let edge = i64::from(capacity) * i64::from(share) * 4;
        let near = dice.pick(&[-2, -1, 0, 0, 1, 2]);
        let total = (edge + near).max(0) as u32;
        let free = dice.between(1, 90) as u16;
        let rise = dice.pick(&[0, 1, 50, 16_383]);
        links.push([0, 1, free, rise, capacity]);
        table.push(total);
    }
    let parts: u64 = table.iter().copied().map(u64::from).sum();
    let trips = parts.div_ceil(u64::from(share));
    table.push((trips * u64::from(share) - parts) as u32);
    links.push([0, 1, dice.between(1, 90) as u16, 9, WIDEST]);
    let draft = Draft {
        nodes: 2,
        links: links.clone(),
        destinations: vec![1],
        trips: vec![vec![trips as u16, 0]],
    };
    let file = match dice.below(4) {
        0 => draft.file(),
        1 => draft.closing(&[]).file(),
        2 => draft.closing(&[1]).file(),
        _ => draft.with_some_powers(dice).file(),
    };
    Crowd {
        links,
        file,
        table,
        share,
    }
}

/// How many tables were judged, how many of them have links over, and after how
/// many of the passes the table has another count.
#[derive(Default)]
struct Tally {
    judged: u32,
    above: u32,
    changed: u32,
}

/// Audit, pass and the audit of what the pass leaves, by both implementations.
fn judge(crowd: &Crowd, tally: &mut Tally) {
    let file = &crowd.file;
    let audited = Proved.audit(file, &crowd.table, crowd.share);
    assert_eq!(audited, Second.audit(file, &crowd.table, crowd.share));
    let over = crowd.over(&crowd.table, crowd.share);
    assert_eq!((audited.refusal, audited.over), (0, over));

    let (mut table, mut other) = (crowd.table.clone(), crowd.table.clone());
    let (mut note, mut other_note) = ([7; 3], [7; 3]);
    let passed = Proved.pass(file, &mut table, crowd.share, &mut note);
    let expected = Second.pass(file, &mut other, crowd.share, &mut other_note);
    assert_eq!(passed, expected);
    assert_eq!((&table, note), (&other, other_note));
    assert_eq!(passed.over, over);
    assert!(passed.outcome == MOVED || passed.outcome == FINEST);

    let left = Proved.audit(file, &table, passed.share);
    assert_eq!(left, Second.audit(file, &table, passed.share));
    assert_eq!(left.over, crowd.over(&table, passed.share));
    tally.judged += 1;
    tally.above += u32::from(over > 0);
    tally.changed += u32::from(left.over != over);
}

/// A part of a trip more on the first road: the table no longer conserves, and
/// a refusal counts nothing.
fn refuse(crowd: &Crowd) {
    let mut table = crowd.table.clone();
    table[0] += 1;
    let audited = Proved.audit(&crowd.file, &table, crowd.share);
    assert!(audited.refusal == 15 || audited.refusal == 16);
    assert_eq!(audited.over, 0);
    let passed = Proved.pass(&crowd.file, &mut table, crowd.share, &mut [7; 3]);
    assert_eq!((passed.refusal, passed.over), (audited.refusal, 0));
}

#[test]
fn totals_about_four_times_the_capacity() {
    let mut dice = Dice::new(2_029);
    let mut tally = Tally::default();
    while tally.judged < 15_000 {
        let crowd = crowd(&mut dice, 24);
        judge(&crowd, &mut tally);
        refuse(&crowd);
    }
    assert!(tally.above > 10_000, "{}", tally.above);
    assert!(tally.changed > 5_000, "{}", tally.changed);
}

#[test]
fn many_links() {
    let mut dice = Dice::new(2_030);
    let mut tally = Tally::default();
    while tally.judged < 300 {
        judge(&crowd(&mut dice, 512), &mut tally);
    }
    assert!(tally.above > 250, "{}", tally.above);
}

/// Runs with any budget: the count is that of the table they leave.
#[test]
fn runs() {
    let mut dice = Dice::new(2_031);
    let mut above = 0;
    for _ in 0..4_000 {
        let crowd = crowd(&mut dice, 12);
        let budget = dice.pick(&[1, 2, 3, 5, 40, 1_024]);
        let excess = dice.pick(&[0, 0, 9, 65_535]);
        let (mut table, mut other) = (crowd.table.clone(), crowd.table.clone());
        let ended = Proved.run(&crowd.file, &mut table, budget, excess);
        assert_eq!(ended, Second.run(&crowd.file, &mut other, budget, excess));
        assert_eq!(table, other);
        assert_eq!(ended.over, crowd.over(&table, ended.share));
        above += u32::from(ended.over > 0);
        let refused = Proved.run(&crowd.file, &mut table, 0, excess);
        assert_eq!((refused.refusal, refused.over), (13, 0));
    }
    assert!(above > 1_000, "{above}");
}
