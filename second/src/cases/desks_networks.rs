//! Desks with random studies, with runs that end without a move, and with the
//! largest studies.

use super::desks::{Order, again};
use super::{List, largest, side_by_side};
use crate::calls::{RUN_FINEST, SPENT, run};
use crate::desks::SEATS;
use crate::draft::{Dice, Plan, Versioned};

/// A small study of any version.
fn small(dice: &mut Dice) -> Versioned {
    let draft = Plan::small(dice).draft(dice);
    match dice.below(5) {
        0 | 1 => draft.into(),
        2 => draft.closing_some(dice, 2),
        3 => draft.with_some_powers(dice),
        _ => draft
            .with_some_powers(dice)
            .with_some_lorries(dice, 5)
            .barring_some(dice, 1),
    }
}

/// A small study whose run mostly goes on past a few tables.
fn busy(dice: &mut Dice) -> Versioned {
    loop {
        let study = small(dice);
        let mut table = vec![0; study.table_length()];
        let answer = run(&study.file(), &mut table, 6, 0);
        if answer.ending == SPENT || dice.once_in(30) {
            return study;
        }
    }
}

/// Runs that end without a move: with others, and cut off on their way and
/// just before their end.
pub(super) fn finest(list: &mut List) {
    let roads = [[10, 7_777, 3], [11, 5_555, 2], [12, 900, 1], [500, 60, 2]];
    let mut studies = vec![Versioned::from(side_by_side(&roads, 60))];
    let mut dice = Dice::new(41);
    while studies.len() < 4 {
        let study = small(&mut dice);
        let mut table = vec![0; study.table_length()];
        let answer = run(&study.file(), &mut table, 1_024, 0);
        if answer.ending == RUN_FINEST && answer.judged < 200 {
            studies.push(study);
        }
    }
    let orders: Vec<Order> = studies
        .iter()
        .enumerate()
        .map(|(seat, study)| Order::of(study, seat, seat % 2, (1_024, 0)))
        .collect();
    let all = list.desks(&orders, 4, 8_192).turns;
    for allowance in [1, 3, 7, all / 3, all / 2, all - 2, all - 1, all, all + 1] {
        list.desks(&again(&orders), 4, allowance);
    }
    for order in &orders {
        let alone = std::slice::from_ref(order);
        let all = list.desks(alone, 1, 8_192).turns;
        list.desks(&again(alone), 1, all - 1);
        list.desks(&again(alone), 1, all);
        // The budget ends with the table that has no move, or one before.
        for budget in [all, all - 1] {
            let last = Order {
                budget,
                ..order.again()
            };
            list.desks(&[last], 1, 8_192);
        }
    }
}

/// One more order, of any kind, now and then refused.
fn some_order(dice: &mut Dice, seat: usize) -> Order {
    let study = busy(dice);
    let budget = match dice.below(14) {
        0 => dice.pick(&[0, 1_025, u32::MAX]),
        1..4 => 1_024,
        _ => dice.between(1, 40) as u32,
    };
    let excess = dice.pick(&[0, 0, 0, 0, 1, 5, 80, 2_000]);
    let more = dice.index(3);
    let mut order = Order::of(&study, seat, more, (budget, excess));
    match dice.below(20) {
        0 => order.file[0] = 9,
        1 => order.table = Some(vec![dice.any_u32(); study.table_length() - 1]),
        _ => {}
    }
    order
}

/// Random studies, budgets, excesses and allowances. From call to call some
/// seats get another order, and some another table.
pub(super) fn random_studies(list: &mut List) {
    let mut dice = Dice::new(42);
    let mut orders: Vec<Order> = (0..SEATS).map(|seat| some_order(&mut dice, seat)).collect();
    for _ in 0..110 {
        for (seat, order) in orders.iter_mut().enumerate() {
            if dice.once_in(4) {
                *order = some_order(&mut dice, seat);
            }
        }
        let desks = match dice.below(30) {
            0 => dice.pick(&[0, 9]),
            _ => dice.pick(&[8, 8, 8, 7, 5, 3, 2, 1]),
        };
        let allowance = match dice.below(6) {
            0 => 8_192,
            1 => dice.between(1, 9) as u32,
            2 => dice.between(1, 300) as u32,
            _ => dice.between(1, 90) as u32,
        };
        list.desks(&orders, desks, allowance);
        orders = again(&orders);
    }
}

/// Studies with 128 nodes, 512 links and 32 destinations: the largest there are.
pub(super) fn full_limits(list: &mut List) {
    let mut dice = Dice::new(43);
    let plain = Versioned::from(largest(&mut dice, 250));
    let mixed = largest(&mut dice, 90).with_some_powers(&mut dice);
    let mixed = mixed.closing_some(&mut dice, 1);
    let mixed = mixed.with_some_lorries(&mut dice, 4);
    let mixed = mixed.barring_some(&mut dice, 1);
    let orders = [
        Order::of(&plain, 0, 5, (6, 0)),
        Order::of(&mixed, 1, 3, (4, 0)),
    ];
    list.desks(&orders, 2, 7);
    for allowance in [1, 2, 8_192] {
        list.desks(&again(&orders), 2, allowance);
    }
}
