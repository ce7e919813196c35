//! Desks (request A.8): calls for desks beside the second implementation's, and
//! held to what the request says of them by runs, starts, audits and passes.

mod common;
mod freight;
mod lent;
mod pair;
mod studies;

use freight::{largest, with_a_fault};
use lent::{file_of, table_length};
use pair::{NUMBERS, Numbers, Pair};
use second::draft::{Dice, Draft, Plan, Versioned};
use second::stream::{Call, Kind, Lent, LentDesks, LentSeat, Reply};
use second::{AuditAnswer, DesksAnswer, MOVED, RunAnswer, SEATS, SPENT, WAITING};
use studies::{blank_note, large, large_closed, open, powered, small_closed};

/// The largest allowance, which is enough for eight runs to their ends.
const AMPLE: u32 = 8_192;

/// A study and what a seat is lent for it.
#[derive(Clone, Debug)]
struct Order {
    study: Versioned,
    file: Vec<u8>,
    table: Vec<u32>,
    budget: u32,
    excess: u16,
}

impl Order {
    /// An order for a study, with a table that holds anything and is longer than
    /// needed by up to three numbers.
    fn new(dice: &mut Dice, study: Versioned, budget: u32, excess: u16) -> Self {
        let length = study.table_length() + dice.index(4);
        Order {
            file: study.file(),
            table: anything(dice, length),
            study,
            budget,
            excess,
        }
    }

    /// An order of any kind for a study, its budget mostly up to `most`. About one
    /// in four is refused.
    fn any(dice: &mut Dice, study: Versioned, most: u64) -> Self {
        let mut file = match dice.below(3) {
            0 => file_of(dice, &study),
            _ => study.file(),
        };
        if file.len() < 2_047 && dice.once_in(12) {
            file.resize(dice.between(2_047, 2_049) as usize, 0x5A);
        }
        let length = table_length(dice, &study);
        Order {
            file,
            table: anything(dice, length),
            study,
            budget: any_budget(dice, most),
            excess: dice.pick(&[0, 0, 0, 0, 1, 5, 80, 2_000, 65_535]),
        }
    }
}

/// So many numbers without any sense.
fn anything(dice: &mut Dice, length: usize) -> Vec<u32> {
    (0..length).map(|_| dice.any_u32()).collect()
}

fn any_budget(dice: &mut Dice, most: u64) -> u32 {
    match dice.below(20) {
        0 => dice.pick(&[0, 1_025, 65_537, u32::MAX]),
        1 => dice.pick(&[1_023, 1_024]),
        2 | 3 => dice.pick(&[1, 2]),
        _ => dice.between(1, most) as u32,
    }
}

fn any_desks(dice: &mut Dice) -> u32 {
    match dice.below(30) {
        0 => dice.pick(&[0, 9, 257, 1 << 31, u32::MAX]),
        1..12 => 8,
        _ => dice.between(1, 8) as u32,
    }
}

/// An allowance, mostly one that may be accepted and is at most `most`.
fn any_allowance(dice: &mut Dice, most: u64) -> u32 {
    match dice.below(30) {
        0 => dice.pick(&[0, 8_193, 65_537, 1 << 31, u32::MAX]),
        1..6 => most as u32,
        6..9 => dice.between(1, most.min(9)) as u32,
        9..16 => dice.between(1, most.min(300)) as u32,
        _ => dice.between(1, most.min(80)) as u32,
    }
}

/// A small study of any version, some with a fault of version 4.
fn small(dice: &mut Dice) -> Versioned {
    match dice.below(5) {
        0 => Plan::small(dice).draft(dice).into(),
        1 => small_closed(dice),
        2 => {
            let study = small_closed(dice);
            powered(dice, study)
        }
        3 => freight::small(dice),
        _ => {
            let study = freight::small(dice);
            with_a_fault(dice, study)
        }
    }
}

/// A small study whose run mostly judges several tables.
fn busy(dice: &mut Dice) -> Versioned {
    loop {
        let study = small(dice);
        let mut table = vec![0; study.table_length()];
        let answer = second::run(&study.file(), &mut table, 3, 0);
        if answer.ending == SPENT || dice.once_in(8) {
            return study;
        }
    }
}

/// A study of 40 to 128 nodes of any version.
fn any_large(dice: &mut Dice) -> Versioned {
    match dice.below(4) {
        0 => large(dice),
        1 => large_closed(dice),
        2 => {
            let study = large_closed(dice);
            powered(dice, study)
        }
        _ => freight::large(dice),
    }
}

/// The seats of all turns, one after the other, of runs that judge so many
/// tables.
fn turns(judged: [u32; SEATS]) -> Vec<usize> {
    let rounds = judged.into_iter().max().unwrap_or(0);
    let seats = |round| (0..SEATS).filter(move |&seat| judged[seat] > round);
    (0..rounds).flat_map(seats).collect()
}

/// Both implementations, and what came of the desks.
#[derive(Default)]
struct Tally {
    pair: Pair,
    /// Desks by the number that refused them, or 0.
    numbers: [u64; NUMBERS],
    /// Desks that were not refused, by ending.
    endings: [u64; 5],
    /// Waiting desks that had no turn.
    without_a_turn: u64,
}

impl Tally {
    /// Makes a call for desks by both implementations, and compares all numbers
    /// and tables.
    fn call(&mut self, orders: &[Order; SEATS], desks: u32, allowance: u32) -> DesksAnswer {
        let seats = orders.each_ref().map(|order| LentSeat {
            file: Some(order.file.clone()),
            table: Some(order.table.clone()),
            budget: order.budget,
            excess: order.excess,
        });
        let reply = self.pair.play(&Call::for_desks(LentDesks {
            seats,
            desks,
            allowance,
        }));
        let Reply::Desks(answer) = reply else {
            unreachable!("{reply:?}");
        };
        if answer.refusal == 0 {
            answer.seats[..desks as usize]
                .iter()
                .for_each(|own| self.count(own));
        }
        answer
    }

    fn count(&mut self, own: &RunAnswer) {
        self.numbers[usize::from(own.refusal)] += 1;
        if own.refusal == 0 {
            self.endings[usize::from(own.ending)] += 1;
            self.without_a_turn += u64::from(own.ending == WAITING && own.judged == 0);
        }
    }

    /// A seat's table as the last call for desks left it.
    fn left(&self, seat: usize) -> &[u32] {
        &self.pair.proved.seats[seat].table
    }

    /// The run of an order alone with this budget, and the table it leaves.
    fn run(&mut self, order: &Order, budget: u32) -> (RunAnswer, Vec<u32>) {
        let numbers = Numbers {
            budget,
            excess: order.excess,
            share: 0,
        };
        let lent = Lent::Table(order.table.clone());
        let reply = self.pair.call(Kind::Run, &order.file, lent, numbers);
        let Reply::Run(answer) = reply else {
            unreachable!("{reply:?}");
        };
        (answer, self.pair.proved.table.clone())
    }

    /// What a desk holds that the allowance cuts off after so many turns.
    fn cut_off(&mut self, order: &Order, turns: u32) -> (RunAnswer, Vec<u32>) {
        let ending = WAITING;
        if turns > 0 {
            let (answer, table) = self.run(order, turns);
            assert_eq!((answer.ending, answer.judged), (SPENT, turns));
            return (RunAnswer { ending, ..answer }, table);
        }
        let lent = Lent::Table(order.table.clone());
        let none = Numbers::default();
        let reply = self.pair.call(Kind::Start, &order.file, lent, none);
        assert_eq!(reply, Reply::Start(0));
        let answer = RunAnswer {
            ending,
            share: 1,
            ..RunAnswer::default()
        };
        (answer, self.pair.proved.table.clone())
    }

    /// Makes a call that is accepted, and holds every number and table to runs
    /// alone.
    fn hold(&mut self, orders: &[Order; SEATS], desks: u32, allowance: u32) -> DesksAnswer {
        let alone: [_; SEATS] = std::array::from_fn(|seat| match &orders[seat] {
            order if seat < desks as usize => self.run(order, order.budget),
            order => (RunAnswer::default(), order.table.clone()),
        });
        let judged = alone.each_ref().map(|own| own.0.judged);
        let mut turns = turns(judged);
        turns.truncate(allowance as usize);

        let answer = self.call(orders, desks, allowance);
        assert_eq!((answer.refusal, answer.turns), (0, turns.len() as u32));
        for (seat, own) in alone.into_iter().enumerate() {
            let taken = turns.iter().filter(|&&turn| turn == seat).count() as u32;
            let (expected, table) = match taken == judged[seat] {
                true => own,
                false => self.cut_off(&orders[seat], taken),
            };
            assert_eq!(answer.seats[seat], expected, "seat {seat}");
            assert!(self.left(seat) == table, "the table of seat {seat}");
        }
        answer
    }

    /// Goes on from a waiting desk that had turns: an audit of its table answers
    /// its numbers, and a pass leads to the next table of its run.
    fn go_on(&mut self, dice: &mut Dice, order: &Order, seat: usize, own: RunAnswer) {
        let table = Lent::Table(self.left(seat).to_vec());
        let given = Numbers::share(own.share);
        let audited = self.pair.call(Kind::Audit, &order.file, table, given);
        let RunAnswer {
            refusal,
            gap,
            cost,
            over,
            ..
        } = own;
        let expected = AuditAnswer {
            refusal,
            gap,
            cost,
            over,
        };
        assert_eq!(audited, Reply::Audit(expected));

        let lent = Lent::Noted(None, Some(blank_note(dice, &order.study)));
        let reply = self.pair.call(Kind::Pass, &order.file, lent, given);
        let Reply::Pass(moved) = reply else {
            unreachable!("{reply:?}");
        };
        // The note may be too short.
        if moved.refusal == 0 {
            assert_eq!((moved.outcome, moved.gap, moved.cost), (MOVED, gap, cost));
            let table = self.pair.proved.table.clone();
            let (next, next_table) = self.run(order, own.judged + 1);
            let expected = (own.judged + 1, moved.share);
            assert_eq!((next.judged, next.share), expected);
            assert!(next_table == table);
        }
    }

    /// Holds the calls to so many desks of every ending and of every number that
    /// refuses one, and to so many refusals of whole calls.
    fn expect(&self, least: u64, least_refused: u64) {
        let Tally {
            numbers, endings, ..
        } = self;
        let ended = &endings[1..];
        assert!(ended.iter().all(|&count| count > least), "{endings:?}");
        let without = self.without_a_turn;
        assert!(without > least, "{without} without a turn");
        let whole = self.pair.answered(Kind::Desks);
        for number in (1..=13).chain([19, 23]) {
            assert!(numbers[number] > least_refused, "{number} of {numbers:?}");
        }
        assert!(whole[24].min(whole[25]) > least_refused, "{whole:?}");
        let others: Vec<usize> = (1..24).collect();
        assert_eq!(self.pair.never(Kind::Desks), others);
    }
}

/// Orders of any kind on all seats.
fn any_orders(dice: &mut Dice, study: fn(&mut Dice) -> Versioned, most: u64) -> [Order; SEATS] {
    std::array::from_fn(|_| {
        let study = study(dice);
        Order::any(dice, study, most)
    })
}

/// Calls for desks with studies of a kind. From call to call some seats have
/// another order, and some of the others the table as it was left.
fn random_calls(
    seed: u64,
    calls: u64,
    study: fn(&mut Dice) -> Versioned,
    [budget, allowance]: [u64; 2],
) -> Tally {
    let mut dice = Dice::new(seed);
    let mut tally = Tally::default();
    let mut orders = any_orders(&mut dice, study, budget);
    while tally.pair.calls < calls {
        let allowance = any_allowance(&mut dice, allowance);
        tally.call(&orders, any_desks(&mut dice), allowance);
        for (seat, order) in orders.iter_mut().enumerate() {
            match dice.below(6) {
                0 => {
                    let study = study(&mut dice);
                    *order = Order::any(&mut dice, study, budget);
                }
                1 | 2 => order.table = tally.left(seat).to_vec(),
                3 => order.budget = any_budget(&mut dice, budget),
                _ => {}
            }
        }
    }
    tally
}

#[test]
fn random_calls_on_small_studies() {
    let tally = random_calls(8_001, 60_000, busy, [40, u64::from(AMPLE)]);
    tally.expect(5_000, 100);
}

/// The same with shorter runs, more of which end before the allowance does.
#[test]
fn random_calls_with_short_runs() {
    let tally = random_calls(8_002, 60_000, small, [6, 60]);
    tally.expect(1_500, 100);
}

/// Small studies beside others of up to 128 nodes, 512 links and 32
/// destinations.
#[test]
fn random_calls_on_small_and_large_studies() {
    let study = |dice: &mut Dice| match dice.below(6) {
        0 => any_large(dice),
        _ => busy(dice),
    };
    let tally = random_calls(8_003, 3_000, study, [12, 60]);
    tally.expect(200, 1);
}

#[test]
fn random_calls_on_large_studies() {
    let tally = random_calls(8_004, 500, any_large, [8, 24]);
    assert!(tally.endings[usize::from(WAITING)] > 300);
}

/// Every allowance up to one more than all turns gives one desk one turn more.
/// Turns go round in seat order, and each unfinished desk has one within eight.
#[test]
fn every_allowance() {
    let mut dice = Dice::new(8_005);
    let mut tally = Tally::default();
    let mut longest = 0;
    while tally.pair.calls < 50_000 {
        let mut orders = any_orders(&mut dice, busy, 12);
        let desks = dice.between(1, 8) as u32;
        let answer = tally.call(&orders, desks, AMPLE);
        if answer.turns > 150 {
            continue;
        }
        let (judged, mut before) = (answer.seats.map(|own| own.judged), [0; SEATS]);
        let turns = turns(judged);
        assert_eq!(turns.len() as u32, answer.turns);
        longest = longest.max(answer.turns);
        for (allowance, &seat) in (1..).zip(&turns) {
            let now = tally.call(&orders, desks, allowance);
            before[seat] += 1;
            let served = now.seats.map(|own| own.judged);
            assert_eq!((now.turns, served), (allowance, before));
            let place = dice.index(SEATS);
            orders[place].table = tally.left(place).to_vec();
        }
        assert_eq!(tally.call(&orders, desks, answer.turns + 1), answer);
        for seat in 0..SEATS {
            let own = (0..turns.len()).filter(|&turn| turns[turn] == seat);
            let own: Vec<usize> = own.collect();
            assert!(own.first().is_none_or(|&first| first < 8));
            assert!(own.windows(2).all(|two| two[1] - two[0] <= 8));
        }
    }
    assert!(longest > 60, "{longest}");
}

/// An ended desk is as a run alone leaves it, a waiting one as a run of its turns
/// does, and any other seat as it was; and the turns add up.
#[test]
fn desks_are_runs_alone() {
    let mut dice = Dice::new(8_006);
    let mut tally = Tally::default();
    while tally.pair.answered(Kind::Desks)[0] < 14_000 {
        let orders = any_orders(&mut dice, busy, 30);
        for _ in 0..3 {
            let desks = dice.between(1, 8) as u32;
            let most = dice.pick(&[8, 60, 200, u64::from(AMPLE)]);
            let allowance = dice.between(1, most) as u32;
            let answer = tally.hold(&orders, desks, allowance);
            let judged: u32 = answer.seats.iter().map(|own| own.judged).sum();
            assert_eq!(answer.turns, judged);
            let waiting = answer.seats.iter().any(|own| own.ending == WAITING);
            assert!(!waiting || answer.turns == allowance);
            for (seat, (order, own)) in orders.iter().zip(answer.seats).enumerate() {
                if own.ending == WAITING && own.judged > 0 {
                    tally.go_on(&mut dice, order, seat, own);
                }
            }
        }
    }
    let passed = tally.pair.answered(Kind::Pass);
    assert!(passed[0] > 5_000 && tally.without_a_turn > 1_000);
    assert!(tally.endings[1..].iter().all(|&count| count > 1_000));
}

/// The same study on all seats, with the same run on each or with others.
#[test]
fn the_same_study_on_all_seats() {
    let mut dice = Dice::new(8_007);
    let mut tally = Tally::default();
    while tally.pair.answered(Kind::Desks)[0] < 6_000 {
        let study = busy(&mut dice);
        let (budget, excess) = (dice.between(1, 20) as u32, dice.pick(&[0, 0, 1, 80]));
        let mut orders = [(); SEATS].map(|()| Order::new(&mut dice, study.clone(), budget, excess));
        let answer = tally.hold(&orders, 8, AMPLE);
        let length = study.table_length();
        for (seat, own) in answer.seats.iter().enumerate().skip(1) {
            assert_eq!(own, &answer.seats[0]);
            let alike = own.refusal != 0 || tally.left(seat)[..length] == tally.left(0)[..length];
            assert!(alike);
        }
        let cut = dice.between(1, 40) as u32;
        tally.hold(&orders, 8, cut);
        for order in &mut orders {
            order.budget = any_budget(&mut dice, 20);
        }
        tally.hold(&orders, 8, AMPLE);
        tally.hold(&orders, 8, cut);
    }
}

/// A study and the same with every node open and no link barred, seat by seat.
#[test]
fn studies_beside_their_open_twins() {
    let mut dice = Dice::new(8_008);
    let mut tally = Tally::default();
    while tally.pair.answered(Kind::Desks)[0] < 2_000 {
        let study = freight::small(&mut dice);
        let twin = open(&study);
        let orders = [0, 1, 0, 1, 0, 1, 0, 1].map(|turn| {
            let study = [&study, &twin][turn].clone();
            let budget = dice.between(1, 20) as u32;
            Order::new(&mut dice, study, budget, 0)
        });
        tally.hold(&orders, 8, AMPLE);
        let allowance = dice.between(1, 40) as u32;
        tally.hold(&orders, 8, allowance);
    }
}

/// Budgets and excesses at their limits, on the town of two roads and on others.
#[test]
fn budgets_and_excesses() {
    let mut dice = Dice::new(8_009);
    let mut tally = Tally::default();
    let budgets = [
        0,
        1,
        2,
        3,
        4,
        5,
        6,
        31,
        32,
        1_023,
        1_024,
        1_025,
        1_026,
        65_536,
        65_537,
        u32::MAX,
    ];
    for _ in 0..12 {
        for excess in [0, 1, 4, 5, 6, 1_000, 65_534, 65_535] {
            for eight in [&budgets[..8], &budgets[8..]] {
                let orders = std::array::from_fn(|seat| {
                    let study = match dice.below(2) {
                        0 => Draft::town().into(),
                        _ => busy(&mut dice),
                    };
                    Order::new(&mut dice, study, eight[seat], excess)
                });
                for allowance in [1, 7, 8, 9, 30, 8_191, 8_192] {
                    tally.hold(&orders, 8, allowance);
                }
            }
        }
    }
}

/// Refused whole calls answer 0 in every other field and leave all tables, also
/// where desks and their allowance are refused together and with any desk.
#[test]
fn whole_calls_that_are_refused() {
    let mut dice = Dice::new(8_010);
    let mut tally = Tally::default();
    let mut refused = |desks, allowance, refusal| {
        let orders = any_orders(&mut dice, small, 5);
        let answer = tally.call(&orders, desks, allowance);
        let only = DesksAnswer {
            refusal,
            ..DesksAnswer::default()
        };
        assert_eq!(answer, only, "{desks} desks, allowance {allowance}");
        for (seat, order) in orders.iter().enumerate() {
            assert!(tally.left(seat) == order.table);
        }
    };
    for _ in 0..20 {
        for desks in [0, 9, 10, 255, 256, 257, 264, 65_537, 1 << 31, u32::MAX] {
            for allowance in [0, 1, 5, 8_192, 8_193, 1 << 31, u32::MAX] {
                refused(desks, allowance, 24);
            }
        }
        for allowance in [0, 8_193, 8_194, 65_536, 65_537, 1 << 31, u32::MAX] {
            (1..=8).for_each(|desks| refused(desks, allowance, 25));
        }
    }
}

/// Eight studies of 128 nodes, 512 links and 32 destinations, every second with
/// lorries.
#[test]
fn eight_of_the_largest_studies() {
    let mut dice = Dice::new(8_011);
    let mut tally = Tally::default();
    let orders = [0, 1, 0, 1, 0, 1, 0, 1].map(|turn| {
        let study = largest(&mut dice);
        match turn {
            0 => Order::new(&mut dice, study.draft.into(), 3, 0),
            _ => Order::new(&mut dice, study, 1_024, 0),
        }
    });
    assert_eq!(orders[1].study.table_length(), 32_768);
    for allowance in [1, 8, 20, 45] {
        let answer = tally.hold(&orders, 8, allowance);
        assert_eq!(answer.turns, allowance);
    }
    assert!(tally.endings[usize::from(SPENT)] > 3);
}
