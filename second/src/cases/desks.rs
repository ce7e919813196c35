//! Desks: the town on all seats, allowances that end anywhere, refusals of
//! desks and of whole calls, seats without a desk, and calls of other kinds in
//! between.

use super::zones::crossing;
use super::{List, files_at_boundaries, side_by_side};
use crate::calls::check;
use crate::desks::{DesksAnswer, SEATS};
use crate::draft::{Draft, Versioned};
use crate::stream::{Call, Kind, Lent, LentDesks, Reply, Second};

/// The longest file and table that a stream may have.
const LONGEST: (usize, usize) = (65_540, 32_800);

/// A study and the run that is wanted of it.
#[derive(Clone, Debug)]
pub(super) struct Order {
    /// The study file.
    pub(super) file: Vec<u8>,
    /// The table, or none for the table as the last call for desks left it.
    pub(super) table: Option<Vec<u32>>,
    /// The budget.
    pub(super) budget: u32,
    /// The excess.
    pub(super) excess: u16,
}

impl Order {
    /// An order with a table that is longer than needed by so many numbers, and
    /// of other numbers for each seat.
    pub(super) fn of(study: &Versioned, seat: usize, more: usize, run: (u32, u16)) -> Self {
        Order {
            file: study.file(),
            table: Some(garbage(seat, study.table_length() + more)),
            budget: run.0,
            excess: run.1,
        }
    }

    /// The same order with the table as it was left.
    pub(super) fn again(&self) -> Self {
        Order {
            table: None,
            ..self.clone()
        }
    }
}

/// The same orders with the tables as they were left.
pub(super) fn again(orders: &[Order]) -> Vec<Order> {
    orders.iter().map(Order::again).collect()
}

/// So many numbers without any sense, others for each seat.
fn garbage(seat: usize, length: usize) -> Vec<u32> {
    (0..length as u32)
        .map(|place| 2_654_435_761_u32.wrapping_mul(place + 97 * seat as u32 + 1))
        .collect()
}

impl List {
    /// A call for desks. Seats behind the orders keep their file and table.
    pub(super) fn desks(&mut self, orders: &[Order], desks: u32, allowance: u32) -> DesksAnswer {
        let mut lent = LentDesks {
            desks,
            allowance,
            ..LentDesks::default()
        };
        let seats = lent.seats.iter_mut().zip(&self.player.seats);
        for ((seat, left), order) in seats.zip(orders) {
            let table = order.table.as_ref().unwrap_or(&left.table);
            assert!(order.file.len() <= LONGEST.0 && table.len() <= LONGEST.1);
            seat.file = (left.file != order.file).then(|| order.file.clone());
            seat.table.clone_from(&order.table);
            (seat.budget, seat.excess) = (order.budget, order.excess);
        }
        let call = Call::for_desks(lent);
        let reply = self.player.play(&Second, &call);
        self.calls.push(call);
        match reply {
            Reply::Desks(answer) => answer,
            _ => unreachable!("desks are answered as desks"),
        }
    }

    /// Every allowance from 1 on to one more than all runs take, with other
    /// tables each third time; and the largest one.
    pub(super) fn every_allowance(&mut self, orders: &[Order]) {
        let desks = orders.len() as u32;
        let all = self.desks(orders, desks, 8_192).turns;
        for allowance in 1..=all + 1 {
            let orders = match allowance % 3 {
                0 => orders.to_vec(),
                _ => again(orders),
            };
            self.desks(&orders, desks, allowance);
        }
    }
}

/// An order for the town of two roads, with a table longer than needed on each
/// second seat.
fn town(seat: usize, budget: u32, excess: u16) -> Order {
    Order::of(&Draft::town().into(), seat, seat % 2, (budget, excess))
}

/// Orders for the town of two roads with these budgets and excesses.
fn towns(runs: &[(u32, u16)]) -> Vec<Order> {
    let orders = runs.iter().enumerate();
    orders
        .map(|(seat, &(budget, excess))| town(seat, budget, excess))
        .collect()
}

/// The town on one seat up to all of them; the seats behind have orders too, but
/// no desk.
pub(super) fn one_to_eight(list: &mut List) {
    for (turn, excesses) in [[0; SEATS], [5, 0, 4, 0, 5, 4, 0, 0]]
        .into_iter()
        .enumerate()
    {
        for desks in 1..=SEATS {
            let budgets = [1, 2, 3, 4, 5, 1_024];
            let orders: Vec<Order> = (0..SEATS)
                .map(|seat| town(seat, budgets[(seat + desks + turn) % 6], excesses[seat]))
                .collect();
            let desks = desks as u32;
            list.desks(&orders, desks, 8_192);
            list.desks(&again(&orders), desks, 2 * desks - 1);
        }
    }
}

/// One desk with every budget and several excesses.
pub(super) fn one_desk(list: &mut List) {
    for (turn, budget) in [1, 2, 3, 4, 5, 6, 1_023, 1_024].into_iter().enumerate() {
        for excess in [0, [4, 5, 65_535][turn % 3]] {
            list.desks(&[town(turn, budget, excess)], 1, 8_192);
        }
    }
    for allowance in [1, 2, 4, 5, 6, 8_191] {
        list.desks(&[town(0, 1_024, 4).again()], 1, allowance);
    }
}

/// Allowances that end at any turn of a round.
pub(super) fn allowances(list: &mut List) {
    list.every_allowance(&towns(&[(1_024, 0), (3, 0), (1_024, 5), (1, 0), (2, 4)]));
    list.every_allowance(&towns(&[
        (1_024, 0),
        (1, 0),
        (4, 4),
        (2, 0),
        (9, 5),
        (3, 0),
        (1_024, 4),
        (5, 0),
    ]));
}

/// Three studies of every version there is from the second on: node 1 closed,
/// then with powers, then with lorries that keep off the links from 0 to 1 and
/// from 2 to 3.
fn closed_powers_lorries() -> [Versioned; 3] {
    let closed = crossing().closing(&[1]);
    let powers = closed.clone().with_powers(vec![1, 2, 3, 4, 1, 2]);
    let lorries = vec![vec![1, 0, 3, 0], vec![0, 4, 0, 0]];
    let mut draft = powers.clone();
    draft.draft.links.push([2, 3, 25, 9, 2]);
    let lorries = draft.with_lorries(lorries).barring(&[0, 3]);
    [closed, powers, lorries]
}

/// Studies of all versions in one call.
pub(super) fn versions(list: &mut List) {
    let [closed, powers, lorries] = closed_powers_lorries();
    let open = Versioned::from(crossing());
    let studies = [
        &lorries, &open, &powers, &closed, &closed, &lorries, &open, &powers,
    ];
    let runs = [
        (4, 0),
        (1_024, 30),
        (3, 0),
        (5, 9),
        (1, 0),
        (1_024, 40),
        (2, 0),
        (6, 3),
    ];
    let orders: Vec<Order> = (0..SEATS)
        .map(|seat| Order::of(studies[seat], seat, seat % 3, runs[seat]))
        .collect();
    assert!(orders.iter().all(|order| check(&order.file) == 0));
    list.every_allowance(&orders);
    // Every seat with the study of the next one, without other tables.
    let mut files: Vec<Vec<u8>> = orders.iter().map(|order| order.file.clone()).collect();
    files.rotate_left(1);
    let mut orders = again(&orders);
    for (order, file) in orders.iter_mut().zip(files) {
        order.file = file;
    }
    for allowance in [8_192, 11, 5] {
        list.desks(&orders, 8, allowance);
    }
}

/// The same study on all seats, with the same run on each and with others.
pub(super) fn same_study(list: &mut List) {
    let [_, powers, lorries] = closed_powers_lorries();
    for study in [Draft::town().into(), powers, lorries] {
        let orders: Vec<Order> = (0..SEATS)
            .map(|seat| Order::of(&study, seat, 0, (1_024, 4)))
            .collect();
        for allowance in [8_192, 8, 20] {
            list.desks(&orders, 8, allowance);
        }
        let mut orders = again(&orders);
        for (seat, order) in orders.iter_mut().enumerate() {
            (order.budget, order.excess) = (1 + seat as u32, 0);
        }
        for allowance in [8_192, 3, 35] {
            list.desks(&orders, 8, allowance);
        }
    }
}

/// Studies without trips, which are reached at once.
pub(super) fn no_trips(list: &mut List) {
    let idle = Versioned::from(side_by_side(&[[10, 10, 2], [15, 0, 1]], 0));
    let run = |seat: usize, budget: u32| Order::of(&idle, seat, seat % 2, (budget, 0));
    let orders = [
        run(0, 1),
        town(1, 1_024, 0),
        run(2, 1_024),
        town(3, 2, 0),
        run(4, 7),
    ];
    list.every_allowance(&orders);
    list.desks(&[run(0, 1_024), run(1, 1)], 2, 8_192);
    list.desks(&[run(0, 1_024), run(1, 1)], 2, 1);
}

/// One file for each of the numbers that refuse a file.
fn refused_files() -> Vec<Vec<u8>> {
    let mut closed = closed_powers_lorries()[0].clone();
    closed.closed = Some(vec![0, 1, 0, 2]);
    let mut lorries = closed_powers_lorries()[2].clone();
    lorries.barred = Some(vec![0, 0, 0, 0, 0, 0, 2]);
    let mut files = files_at_boundaries();
    files.extend([closed.file(), lorries.file()]);
    let mut seen = vec![0];
    files.retain(|file| {
        let number = check(file);
        let new = !seen.contains(&number);
        seen.push(number);
        new
    });
    assert_eq!(files.len(), 13);
    files
}

/// Desks that are refused by each question of a file, among others that are
/// not, with and without an allowance for all.
pub(super) fn refused_files_among_others(list: &mut List) {
    for (turn, file) in refused_files().into_iter().enumerate() {
        let mut orders = towns(&[(1_024, 0), (5, 0), (3, 0), (4, 4)]);
        let seat = turn % 4;
        orders[seat].file = file;
        // Table and budget are at fault too, but the file comes first.
        if turn % 3 == 1 {
            orders[seat].table = Some(vec![]);
        }
        if turn % 3 == 2 {
            orders[seat].budget = 0;
        }
        list.desks(&orders, 4, 8_192);
        list.desks(&again(&orders), 4, 2 + turn as u32 % 5);
        list.desks(&again(&orders[seat..=seat]), 1, 1);
    }
}

/// Tables that are too short and budgets out of range.
pub(super) fn refused_tables_and_budgets(list: &mut List) {
    let [_, powers, lorries] = closed_powers_lorries();
    let cases: [(Versioned, usize, u32); 12] = [
        (Draft::town().into(), 0, 1_024),
        (Draft::town().into(), 1, 1_024),
        (Draft::town().into(), 1, 0),
        (Draft::town().into(), 2, 0),
        (Draft::town().into(), 2, 1_025),
        (Draft::town().into(), 3, 65_537),
        (Draft::town().into(), 2, u32::MAX),
        (powers.clone(), powers.table_length(), 0),
        (lorries.clone(), lorries.table_length() - 1, 5),
        (lorries.clone(), lorries.table_length() / 2, 5),
        (lorries.clone(), lorries.table_length(), 0),
        (lorries.clone(), lorries.table_length(), 1_025),
    ];
    for (turn, (study, length, budget)) in cases.into_iter().enumerate() {
        let order = Order {
            file: study.file(),
            table: Some(garbage(turn, length)),
            budget,
            excess: 0,
        };
        let mut orders = towns(&[(1_024, 0), (2, 0), (1_024, 4)]);
        orders.insert(turn % 4, order.clone());
        for allowance in [8_192, 1 + turn as u32 % 7] {
            list.desks(&orders, 4, allowance);
        }
        list.desks(&[order], 1, 8_192);
    }
}

/// Refused desks only, and one desk that is not refused on each seat in turn.
pub(super) fn refused_desks_only(list: &mut List) {
    let refused = |seat: usize| {
        let budget = [0, 1_025, u32::MAX, 3][seat % 4];
        let mut order = town(seat, budget, 0);
        if seat % 4 == 3 {
            order.table = Some(vec![7]);
        }
        order
    };
    let orders: Vec<Order> = (0..SEATS).map(refused).collect();
    for (desks, allowance) in [(8, 8_192), (8, 1), (5, 3), (1, 1)] {
        list.desks(&orders, desks, allowance);
    }
    for seat in 0..SEATS {
        let mut orders = orders.clone();
        orders[seat] = town(seat, 1_024, 0);
        list.desks(&orders, 8, [8_192, 3][seat % 2]);
    }
}

/// Seats without a desk, lent whatever there may be.
pub(super) fn seats_without_a_desk(list: &mut List) {
    let files = refused_files();
    for desks in 1..SEATS as u32 {
        let orders: Vec<Order> = (0..SEATS)
            .map(|seat| {
                let mut order = town(seat, 1 + seat as u32, 0);
                if seat >= desks as usize {
                    order.file = match seat % 3 {
                        0 => files[seat].clone(),
                        1 => vec![0x5A; 7 * seat],
                        _ => order.file,
                    };
                    order.table = Some(garbage(seat + 40, [0, 1, 2, 9][seat % 4]));
                    order.budget = [0, 1, 1_025, u32::MAX][(seat + desks as usize) % 4];
                    order.excess = [0, 65_535][seat % 2];
                }
                order
            })
            .collect();
        list.desks(&orders, desks, 8_192);
        list.desks(&again(&orders), desks, desks + 1);
        // And with a desk on each of them.
        list.desks(&again(&orders), 8, 8_192);
    }
}

/// Whole calls that are refused, for their desks first and then for their
/// allowance, and those at the limits.
pub(super) fn whole_calls(list: &mut List) {
    let mut orders = towns(&[(1_024, 0), (3, 0), (0, 0), (1_024, 5), (1_025, 4), (2, 0)]);
    orders[5].table = Some(vec![]);
    for desks in [0, 9, 257, 1 << 31, u32::MAX] {
        for allowance in [1, 8_192, 0, 8_193] {
            list.desks(&orders, desks, allowance);
        }
    }
    for desks in [1, 8] {
        for allowance in [0, 8_193, 65_537, 1 << 31, u32::MAX] {
            list.desks(&again(&orders), desks, allowance);
        }
        for allowance in [1, 8_192] {
            list.desks(&orders, desks, allowance);
        }
    }
}

/// Calls of other kinds between calls for desks: neither kind has a part in
/// what the other takes over.
pub(super) fn among_other_calls(list: &mut List) {
    let file = crossing().closing(&[1]).file();
    let orders = towns(&[(3, 0), (1_024, 0), (2, 0)]);
    list.start(&file, vec![1; 13]);
    list.desks(&orders, 3, 4);
    list.call(Kind::Audit, &file, Lent::Same, 1, 0, 0);
    let mut share = 1;
    list.note_on(&file, &mut share, 9);
    list.desks(&again(&orders), 0, 4);
    list.take_back_on(&file, &mut share, None);
    list.desks(&again(&orders), 3, 8_192);
    list.desks(&again(&orders[..1]), 2, 1);
    list.audit_on(&file, share);
    list.run_on(&file, 4, 0);
    list.check(&file);
    list.desks(&again(&orders), 2, 3);
    list.check(&file);
    list.start(&file, vec![2; 12]);
    list.desks(&again(&orders), 3, 6);
    list.run_on(&Draft::town().file(), 4, 0);
}
