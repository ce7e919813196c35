//! Desks: request A.8, sentence by sentence, against runs by themselves, starts,
//! passes and audits.

use second::draft::{Dice, Draft, Plan, Versioned, grid};
use second::{
    Desk, DesksAnswer, MOVED, REACHED, RUN_FINEST, RunAnswer, SEATS, SPENT, WAITING, audit, check,
    desks, pass, run, start,
};

/// What a seat is lent.
#[derive(Clone, Debug, Default, PartialEq)]
struct Seat {
    file: Vec<u8>,
    table: Vec<u32>,
    budget: u32,
    excess: u16,
}

/// Eight seats; those that are not given are empty.
fn seats(given: Vec<Seat>) -> [Seat; SEATS] {
    let mut given = given.into_iter();
    std::array::from_fn(|_| given.next().unwrap_or_default())
}

/// A seat with a study, and with a table that is longer than needed by two
/// numbers and holds neither 0 nor a loading.
fn seat(study: impl Into<Versioned>, budget: u32, excess: u16) -> Seat {
    let study = study.into();
    Seat {
        file: study.file(),
        table: (0..study.table_length() as u32 + 2)
            .map(|place| 1_000_003 * place + 77)
            .collect(),
        budget,
        excess,
    }
}

/// The town of two roads.
fn town(budget: u32, excess: u16) -> Seat {
    seat(Draft::town(), budget, excess)
}

/// Makes the call, and hands back the tables too.
fn call(lent: &[Seat; SEATS], count: u32, allowance: u32) -> (DesksAnswer, [Vec<u32>; SEATS]) {
    let mut left = lent.clone();
    let mut borrowed = left.each_mut().map(|seat| Desk {
        file: &seat.file,
        table: &mut seat.table,
        budget: seat.budget,
        excess: seat.excess,
    });
    let answer = desks(&mut borrowed, count, allowance);
    (answer, left.map(|seat| seat.table))
}

/// The run of a seat by itself with this budget.
fn alone(seat: &Seat, budget: u32) -> (RunAnswer, Vec<u32>) {
    let mut table = seat.table.clone();
    let answer = run(&seat.file, &mut table, budget, seat.excess);
    (answer, table)
}

/// A desk that the allowance cuts off after so many turns.
fn cut_off(seat: &Seat, turns: u32) -> (RunAnswer, Vec<u32>) {
    if turns > 0 {
        let (answer, table) = alone(seat, turns);
        assert_eq!(answer.ending, SPENT);
        let ending = WAITING;
        return (RunAnswer { ending, ..answer }, table);
    }
    let mut table = seat.table.clone();
    assert_eq!(start(&seat.file, &mut table), 0);
    let answer = RunAnswer {
        refusal: 0,
        ending: WAITING,
        judged: 0,
        share: 1,
        gap: 0,
        cost: 0,
        over: 0,
    };
    (answer, table)
}

/// The seats of the turns, one after the other, for runs that judge so many
/// tables by themselves.
fn turns_of(judged: &[u32], allowance: u32) -> Vec<usize> {
    let mut left = judged.to_vec();
    let mut turns = Vec::new();
    while left.iter().any(|&tables| tables > 0) {
        for (seat, tables) in left.iter_mut().enumerate() {
            if *tables > 0 && turns.len() < allowance as usize {
                turns.push(seat);
            }
            *tables = tables.saturating_sub(1);
        }
    }
    turns
}

/// What a call that is not refused is to answer and to leave.
fn expected(lent: &[Seat; SEATS], count: u32, allowance: u32) -> (DesksAnswer, [Vec<u32>; SEATS]) {
    let mut answer = DesksAnswer::default();
    let mut tables = lent.each_ref().map(|seat| seat.table.clone());
    let lent = &lent[..count as usize];
    let runs: Vec<(RunAnswer, Vec<u32>)> =
        lent.iter().map(|seat| alone(seat, seat.budget)).collect();
    let judged: Vec<u32> = runs.iter().map(|(answer, _)| answer.judged).collect();
    let turns = turns_of(&judged, allowance);
    answer.turns = turns.len() as u32;
    for (number, (seat, own)) in lent.iter().zip(runs).enumerate() {
        let taken = turns.iter().filter(|&&turn| turn == number).count() as u32;
        (answer.seats[number], tables[number]) = if taken == judged[number] {
            own
        } else {
            cut_off(seat, taken)
        };
    }
    (answer, tables)
}

/// Compares a call with what it is to answer and to leave.
fn compare(lent: &[Seat; SEATS], count: u32, allowance: u32) -> DesksAnswer {
    let (answer, tables) = call(lent, count, allowance);
    let (wanted, wanted_tables) = expected(lent, count, allowance);
    assert_eq!(answer, wanted, "{count} desks, allowance {allowance}");
    assert!(
        tables == wanted_tables,
        "{count} desks, allowance {allowance}"
    );
    answer
}

/// Compares every allowance that makes a difference.
fn compare_allowances(lent: &[Seat; SEATS], count: u32) {
    let all = compare(lent, count, 8_192).turns;
    for allowance in 1..=all + 1 {
        let answer = compare(lent, count, allowance);
        assert_eq!(answer.turns, allowance.min(all));
    }
}

/// A town with a third road, node 1 closed, powers, and lorries that keep off the
/// first road.
fn lorries() -> Versioned {
    let mut draft = Draft::town();
    draft.links.push([0, 1, 12, 7, 3]);
    let study = draft.closing(&[1]).with_powers(vec![3, 2, 1]);
    study.with_lorries(vec![vec![3, 0]]).barring(&[0])
}

/// Studies of all versions.
fn all_versions() -> [Versioned; 4] {
    let mut draft = Draft::town();
    draft.trips[0][0] = 7;
    [
        Draft::town().into(),
        draft.clone().closing(&[0, 1]),
        draft.with_powers(vec![2, 1]),
        lorries(),
    ]
}

/// A small study of any version whose run mostly judges several tables.
fn some_study(dice: &mut Dice) -> Versioned {
    loop {
        let draft = Plan::small(dice).draft(dice);
        let study = match dice.below(4) {
            0 => draft.into(),
            1 => draft.closing_some(dice, 2),
            2 => draft.with_some_powers(dice),
            _ => {
                let study = draft.with_some_lorries(dice, 5).with_some_powers(dice);
                study.barring_some(dice, 1)
            }
        };
        let several = alone(&seat(study.clone(), 4, 0), 4).0.ending == SPENT;
        if several || dice.once_in(20) {
            return study;
        }
    }
}

/// Eight seats of any kind, one in ten of which is refused.
fn some_seats(dice: &mut Dice) -> [Seat; SEATS] {
    std::array::from_fn(|_| {
        let budget = dice.pick(&[1, 2, 3, 5, 9, 20, 60, 1_023, 1_024]);
        let excess = dice.pick(&[0, 0, 0, 1, 7, 300, 65_535]);
        let mut seat = seat(some_study(dice), budget, excess);
        match dice.below(30) {
            0 => seat.budget = dice.pick(&[0, 1_025, u32::MAX]),
            1 => seat.table.truncate(seat.table.len() - 3),
            2 => seat.file.truncate(dice.index(40)),
            _ => {}
        }
        seat
    })
}

/// The town of P9 and P10 and with budgets in between, in numbers.
#[test]
fn towns_in_numbers() {
    let lent = seats(vec![town(3, 0), town(10, 5), town(1_024, 4), town(1, 0)]);
    let judged = |allowance: u32| -> Vec<u32> {
        let answer = call(&lent, 4, allowance).0;
        assert_eq!((answer.refusal, answer.turns), (0, allowance.min(10)));
        answer.seats[..4].iter().map(|seat| seat.judged).collect()
    };
    assert_eq!(judged(1), [1, 0, 0, 0]);
    assert_eq!(judged(3), [1, 1, 1, 0]);
    assert_eq!(judged(4), [1, 1, 1, 1]);
    assert_eq!(judged(5), [2, 1, 1, 1]);
    assert_eq!(judged(7), [3, 1, 2, 1]);
    assert_eq!(judged(8), [3, 1, 3, 1]);
    assert_eq!(judged(10), [3, 1, 5, 1]);
    assert_eq!(judged(8_192), [3, 1, 5, 1]);

    let (answer, tables) = call(&lent, 4, 9);
    let ending = |seat: usize| answer.seats[seat].ending;
    assert_eq!([0, 1, 2, 3].map(ending), [SPENT, REACHED, WAITING, SPENT]);
    let p9 = RunAnswer {
        refusal: 0,
        ending: SPENT,
        judged: 3,
        share: 4,
        gap: 40,
        ..answer.seats[0]
    };
    assert_eq!(answer.seats[0], p9);
    assert_eq!(tables[0][..2], [8, 0]);
    assert_eq!(tables[1][..2], [2, 0]);
}

/// "An office queues one to eight studies, each with its own budget, excess and
/// flow table."
#[test]
fn one_to_eight_desks() {
    let lent = [1, 2, 1_024, 4, 5, 3, 1_024, 1].map(|budget| town(budget, budget as u16 % 6));
    for count in 1..=8 {
        compare_allowances(&lent, count);
    }
}

/// "Each ended desk holds what it would hold if run by itself with its budget."
#[test]
fn ended_desks_are_runs_by_themselves() {
    let mut dice = Dice::new(801);
    let mut endings = [0; 5];
    for _ in 0..60 {
        let lent = some_seats(&mut dice);
        let (answer, tables) = call(&lent, 8, 8_192);
        for (number, seat) in lent.iter().enumerate() {
            let (own, table) = alone(seat, seat.budget);
            assert_eq!(answer.seats[number], own);
            assert!(tables[number] == table);
            endings[usize::from(own.ending)] += 1;
        }
        // 8,192 turns are enough for all runs that there are.
        assert!(answer.seats.iter().all(|seat| seat.ending != WAITING));
    }
    assert_eq!(endings[usize::from(WAITING)], 0);
    assert!(endings[..4].iter().all(|&count| count >= 20), "{endings:?}");
    assert!(endings[usize::from(RUN_FINEST)] >= 20);
}

/// "A desk that the allowance cuts off after k turns has the ending 'waiting' and
/// otherwise holds what a run of budget k would".
#[test]
fn cut_desks_hold_a_run_of_their_turns() {
    let mut dice = Dice::new(802);
    let (mut cut, mut longest) = (0, 0);
    for _ in 0..150 {
        let lent = some_seats(&mut dice);
        let allowance = dice.between(1, 120) as u32;
        let (answer, tables) = call(&lent, 8, allowance);
        for (number, seat) in lent.iter().enumerate() {
            let own = answer.seats[number];
            if own.ending != WAITING || own.judged == 0 {
                continue;
            }
            let (by_budget, table) = alone(seat, own.judged);
            assert_eq!(by_budget.ending, SPENT);
            let ending = WAITING;
            assert_eq!(
                own,
                RunAnswer {
                    ending,
                    ..by_budget
                }
            );
            assert!(tables[number] == table);
            cut += 1;
            longest = longest.max(own.judged);
        }
    }
    assert!(cut >= 100 && longest >= 15, "{cut} {longest}");
}

/// The same by a start, passes and an audit: table k is judged and not moved.
#[test]
fn cut_desks_by_passes() {
    let studies = all_versions();
    let given = studies.iter().map(|study| seat(study.clone(), 1_024, 0));
    let lent = seats(given.collect());
    for allowance in 1..=40 {
        let (answer, tables) = call(&lent, 4, allowance);
        for (number, study) in studies.iter().enumerate() {
            let own = answer.seats[number];
            if own.ending != WAITING || own.judged == 0 {
                continue;
            }
            let Seat {
                file, mut table, ..
            } = lent[number].clone();
            assert_eq!(start(&file, &mut table), 0);
            let (mut share, mut note) = (1, vec![0; study.note_length()]);
            for _ in 1..own.judged {
                let moved = pass(&file, &mut table, share, &mut note);
                assert_eq!(moved.outcome, MOVED);
                share = moved.share;
            }
            assert!(tables[number] == table);
            let audited = audit(&file, &table, share);
            assert_eq!(own.share, share);
            assert_eq!(
                (own.refusal, own.gap, own.cost, own.over),
                (0, audited.gap, audited.cost, audited.over)
            );
        }
    }
}

/// "with no turn it has its table as started, share 1, tables judged, gap, cost
/// and the count of A.4 all 0."
#[test]
fn desks_without_a_turn_are_as_started() {
    let mut dice = Dice::new(803);
    for _ in 0..40 {
        let lent = std::array::from_fn(|_| seat(some_study(&mut dice), 1_024, 0));
        let allowance = dice.between(1, 7) as u32;
        let (answer, tables) = call(&lent, 8, allowance);
        assert_eq!(answer.turns, allowance);
        for number in allowance as usize..SEATS {
            let mut table = lent[number].table.clone();
            assert_eq!(start(&lent[number].file, &mut table), 0);
            assert!(tables[number] == table);
            let own = answer.seats[number];
            let expected = RunAnswer {
                ending: WAITING,
                share: 1,
                ..RunAnswer::default()
            };
            assert_eq!(own, expected);
        }
    }
}

/// The seat of each turn: the one with one more table judged than with an
/// allowance that is smaller by one.
fn served(lent: &[Seat; SEATS], count: u32) -> Vec<usize> {
    let all = call(lent, count, 8_192).0.turns;
    let mut before = [0; SEATS];
    let mut turns = Vec::new();
    for allowance in 1..=all {
        let answer = call(lent, count, allowance).0;
        let judged = answer.seats.map(|seat| seat.judged);
        let more: Vec<usize> = (0..SEATS)
            .filter(|&seat| judged[seat] != before[seat])
            .collect();
        assert_eq!(more.len(), 1);
        assert_eq!(judged[more[0]], before[more[0]] + 1);
        turns.push(more[0]);
        before = judged;
    }
    turns
}

/// "Turns go round the unfinished desks in seat order, one judged table each".
#[test]
fn turns_go_round_in_seat_order() {
    let lent = seats(vec![
        town(2, 0),
        town(0, 0),
        town(1_024, 0),
        town(1, 0),
        town(4, 0),
    ]);
    assert_eq!(served(&lent, 5), [0, 2, 3, 4, 0, 2, 4, 2, 4, 2, 4, 2]);
    let mut dice = Dice::new(804);
    for _ in 0..20 {
        let mut lent = some_seats(&mut dice);
        lent.iter_mut()
            .for_each(|seat| seat.budget = seat.budget.min(12));
        let judged = lent
            .each_ref()
            .map(|seat| alone(seat, seat.budget).0.judged);
        assert_eq!(served(&lent, 8), turns_of(&judged, 8_192));
    }
}

/// "Unless the allowance ends first, an unfinished desk is served within eight
/// turns, whatever the others submit."
#[test]
fn an_unfinished_desk_is_served_within_eight_turns() {
    let mut dice = Dice::new(805);
    for _ in 0..30 {
        let mut lent = some_seats(&mut dice);
        lent.iter_mut()
            .for_each(|seat| seat.budget = seat.budget.min(15));
        let turns = served(&lent, 8);
        for (number, seat) in lent.iter().enumerate() {
            let own: Vec<usize> = (0..turns.len())
                .filter(|&turn| turns[turn] == number)
                .collect();
            assert_eq!(own.len() as u32, alone(seat, seat.budget).0.judged);
            assert!(own.first().is_none_or(|&first| first < 8));
            assert!(own.windows(2).all(|two| two[1] - two[0] <= 8));
        }
    }
}

/// "The total of turns is returned."
#[test]
fn turns_add_up() {
    let mut dice = Dice::new(806);
    for _ in 0..100 {
        let lent = some_seats(&mut dice);
        let count = dice.between(1, 8) as u32;
        let allowance = dice.pick(&[1, 2, 7, 20, 50, 100, 8_192]);
        let answer = call(&lent, count, allowance).0;
        let judged: u32 = answer.seats.iter().map(|seat| seat.judged).sum();
        assert_eq!(answer.turns, judged);
        assert!(judged <= allowance);
        let waiting = answer.seats.iter().any(|seat| seat.ending == WAITING);
        assert!(!waiting || judged == allowance);
    }
}

/// "Turned away: 24, desks not 1 to 8, first of all; 25, allowance not 1 to
/// 8,192, second." The refusal carries 0 in every other field and changes no
/// lent memory.
#[test]
fn whole_calls_that_are_refused() {
    let mut lent = [1, 2, 1_024, 0, 1_025, 3, 7, 1].map(|budget| town(budget, 0));
    lent[5].table.truncate(1);
    lent[6].file.truncate(31);
    let refused = |count: u32, allowance: u32, refusal: u8| {
        let (answer, tables) = call(&lent, count, allowance);
        let only = DesksAnswer {
            refusal,
            ..DesksAnswer::default()
        };
        assert_eq!(answer, only, "{count} {allowance}");
        assert_eq!(tables, lent.each_ref().map(|seat| seat.table.clone()));
    };
    for count in [0, 9, 10, 256, 257, 264, 65_537, 1 << 31, u32::MAX] {
        for allowance in [0, 1, 5, 8_192, 8_193, u32::MAX] {
            refused(count, allowance, 24);
        }
    }
    for allowance in [0, 8_193, 8_194, 65_536, 65_537, 1 << 31, u32::MAX] {
        for count in 1..=8 {
            refused(count, allowance, 25);
        }
    }
    for count in 1..=8 {
        for allowance in [1, 2, 8_191, 8_192] {
            assert_eq!(compare(&lent, count, allowance).refusal, 0);
        }
    }
}

/// "A desk whose run would be refused counts as ended, takes no turn and reports
/// its own number."
#[test]
fn refused_desks() {
    let with = |change: &dyn Fn(&mut Draft)| {
        let mut draft = Draft::town();
        change(&mut draft);
        seat(draft, 1_024, 0)
    };
    let set = |place: usize, byte: u8| {
        let mut other = town(1_024, 0);
        other.file[place] = byte;
        other
    };
    let short = |length: usize, budget: u32| {
        let mut other = town(budget, 0);
        other.table.truncate(length);
        other
    };
    let mut barred = seat(lorries(), 1, 0);
    *barred.file.last_mut().expect("there are barred bytes") = 2;
    let mut cut = town(1_024, 0);
    cut.file.truncate(31);
    let kinds = [
        (cut, 1),
        (set(0, 5), 2),
        (set(2, 1), 3),
        (set(8, 31), 4),
        (set(6, 2), 5),
        (with(&|draft| draft.links[0][1] = 0), 6),
        (with(&|draft| draft.links[1][2] = 0), 7),
        (with(&|draft| draft.destinations[0] = 2), 8),
        (seat(Draft::town().with_closed(vec![0, 2]), 1, 0), 19),
        (barred, 23),
        (with(&|draft| draft.trips[0] = vec![0, 1]), 9),
        (
            with(&|draft| {
                draft.nodes = 3;
                draft.trips[0] = vec![65_535, 0, 1];
            }),
            10,
        ),
        (
            with(&|draft| {
                draft.links[0][0..2].swap(0, 1);
                draft.links[1][0..2].swap(0, 1);
            }),
            11,
        ),
        (short(0, 5), 12),
        (short(1, 5), 12),
        (short(1, 0), 12),
        (short(2, 0), 13),
        (town(0, 0), 13),
        (town(1_025, 0), 13),
        (town(u32::MAX, 5), 13),
    ];
    for (number, (refused, refusal)) in kinds.iter().enumerate() {
        let own = alone(refused, refused.budget).0;
        assert_eq!(own.refusal, *refusal);
        // Among others, on every seat in turn, and with any allowance.
        let mut lent = seats(vec![town(1_024, 0), town(2, 0), town(1_024, 5)]);
        let place = number % 4;
        lent[place..4].rotate_right(1);
        lent[place] = refused.clone();
        for allowance in [1, 2, 3, 5, 8, 8_192] {
            let answer = compare(&lent, 4, allowance);
            let only = RunAnswer {
                refusal: *refusal,
                ..RunAnswer::default()
            };
            assert_eq!(answer.seats[place], only);
            assert_eq!(answer.turns, allowance.min(8));
        }
        compare(&seats(vec![refused.clone()]), 1, 1);
    }
    // All of them refused: no turn at all.
    let lent = std::array::from_fn(|number| kinds[number].0.clone());
    let answer = compare(&lent, 8, 8_192);
    assert_eq!((answer.refusal, answer.turns), (0, 0));
    assert!(
        answer
            .seats
            .iter()
            .zip(&kinds)
            .all(|(own, kind)| own.refusal == kind.1)
    );
}

/// "A seat without a desk answers 0 throughout; a table lent there stays
/// unchanged."
#[test]
fn seats_without_a_desk() {
    let mut lent = [0; SEATS].map(|_| town(1_024, 0));
    lent[3].file = vec![0xFF; 40];
    lent[5].table.truncate(1);
    lent[6].budget = 0;
    lent[7] = Seat::default();
    for count in 1..8 {
        for allowance in [1, 4, 8_192] {
            let (answer, tables) = call(&lent, count, allowance);
            for (number, seat) in lent.iter().enumerate().skip(count as usize) {
                assert_eq!(answer.seats[number], RunAnswer::default());
                assert_eq!(tables[number], seat.table);
            }
            compare(&lent, count, allowance);
        }
    }
}

/// The same study on all seats: every desk holds the same once all have ended.
#[test]
fn the_same_study_on_all_seats() {
    for study in all_versions() {
        let lent = std::array::from_fn(|_| seat(study.clone(), 30, 0));
        compare_allowances(&lent, 8);
        let (answer, tables) = call(&lent, 8, 8_192);
        assert!(answer.seats.iter().all(|own| *own == answer.seats[0]));
        assert!(tables.iter().all(|table| *table == tables[0]));
    }
}

/// All versions in one call.
#[test]
fn all_versions_in_one_call() {
    let [town, closed, powers, lorries] = all_versions();
    let studies = [
        &lorries, &town, &powers, &closed, &town, &lorries, &closed, &powers,
    ];
    let budgets = [1_024, 3, 4, 1, 1_024, 2, 5, 6];
    let lent = std::array::from_fn(|number| {
        let excess = [0, 2][number % 2];
        seat(studies[number].clone(), budgets[number], excess)
    });
    assert!(lent.iter().all(|seat| check(&seat.file) == 0));
    compare_allowances(&lent, 8);
}

/// Studies without trips are reached at once, whatever the budget.
#[test]
fn studies_without_trips() {
    let mut draft = Draft::town();
    draft.trips[0] = vec![0, 0];
    let lent = seats(vec![
        seat(draft.clone(), 1, 0),
        town(3, 0),
        seat(draft.clone(), 1_024, 0),
        seat(draft, 5, 9),
    ]);
    compare_allowances(&lent, 4);
    let answer = call(&lent, 4, 4).0;
    assert_eq!(
        answer.seats.map(|seat| seat.ending)[..4],
        [REACHED, WAITING, REACHED, REACHED]
    );
}

/// Random studies, budgets, excesses and allowances.
#[test]
fn random_mixes() {
    let mut dice = Dice::new(807);
    let (mut waiting, mut untouched) = (0, 0);
    for _ in 0..150 {
        let lent = some_seats(&mut dice);
        for _ in 0..4 {
            let count = dice.pick(&[8, 8, 8, 7, 5, 2, 1]);
            let most = dice.pick(&[9, 60, 300]);
            let allowance = dice.between(1, most) as u32;
            let answer = compare(&lent, count, allowance);
            let cut = answer.seats.iter().filter(|seat| seat.ending == WAITING);
            waiting += cut.clone().count();
            untouched += cut.filter(|seat| seat.judged == 0).count();
        }
    }
    assert!(waiting >= 500 && untouched >= 50, "{waiting} {untouched}");
}

/// What a table held before makes no difference, nor what the seats beside do.
#[test]
fn desks_are_apart() {
    let mut dice = Dice::new(808);
    for _ in 0..20 {
        let lent = some_seats(&mut dice);
        let (answer, tables) = call(&lent, 8, 8_192);
        let mut other = lent.clone();
        for seat in &mut other {
            let used = seat.table.len().saturating_sub(2);
            seat.table[..used].fill(dice.any_u32());
        }
        let number = dice.index(SEATS);
        other[number] = town(1_024, 0);
        let (other_answer, other_tables) = call(&other, 8, 8_192);
        for place in (0..SEATS).filter(|&place| place != number) {
            assert_eq!(answer.seats[place], other_answer.seats[place]);
            if answer.seats[place].refusal == 0 {
                assert!(tables[place] == other_tables[place]);
            }
        }
    }
}

/// Studies with 128 nodes, 512 links and 32 destinations.
#[test]
fn large_studies() {
    let mut dice = Dice::new(809);
    let mut large = || -> Versioned {
        let plan = Plan {
            nodes: (128, 128),
            links: (512, 512),
            destinations: 32,
            time: 300,
            capacity: 200,
            trips: 30,
            tenths: 9,
        };
        let mut links = grid(&mut dice, 16, 8, 512, 300, 200);
        while links.len() < 512 {
            links.push(dice.pick(&links));
        }
        let study = plan
            .with_links(&mut dice, 128, links)
            .closing_some(&mut dice, 1);
        let study = study.with_some_lorries(&mut dice, 3);
        study.barring_some(&mut dice, 1)
    };
    let lent = std::array::from_fn(|number| seat(large(), [1_024, 9][number % 2], 0));
    for allowance in [1, 5, 8, 21, 70, 200] {
        compare(&lent, 8, allowance);
    }
}
