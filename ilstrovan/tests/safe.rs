//! The safe functions on the town of two roads, document 01's cases and those of
//! requests A.4 to A.8, and on towns with a zone, those of request A.2.

mod zone;

use ilstrovan::{
    Audit, Desk, DesksAnswer, Ending, LINE_BYTES, LONGEST_NOTE, NO_LINK, Outcome, Pass, Refusal,
    Run, SEATS, audit, check, desks, pack, page, pass, run, start, take_back,
};
use second::draft::{Draft, Versioned};
use zone::zone;

fn refusal<T: std::fmt::Debug>(result: Result<T, ilstrovan::Refusal>) -> u8 {
    result.expect_err("a refusal").number()
}

#[test]
fn accepted_calls() {
    let file = Draft::town().file();
    assert_eq!(check(&file), Ok(()));
    let mut output = [0xEE; 60];
    assert_eq!(pack(&file, &mut output), Ok(()));
    assert_eq!(output[..58], file);
    assert_eq!(output[58..], [0xEE; 2]);

    let mut table = [7; 3];
    assert_eq!(start(&file, &mut table), Ok(()));
    assert_eq!(table, [2, 0, 7]);
    let Audit { gap, cost, over } = audit(&file, &table, 1).expect("accepted");
    assert_eq!((gap, over), (10, 0));

    let mut note = [7; 4];
    let moved = pass(&file, &mut table, 1, &mut note).expect("accepted");
    assert_eq!((moved.outcome, moved.gap), (Outcome::Moved, gap));
    assert_eq!(moved.cost, cost);
    table = [16, 0, 7];
    let moved = pass(&file, &mut table, 8, &mut note).expect("accepted");
    assert_eq!((moved.outcome, moved.share), (Outcome::Moved, 9));
    assert_eq!(table, [16, 2, 7]);
    assert_eq!(note, [1, 1, NO_LINK, 7]);
    let best = Audit {
        gap: 0,
        cost: 13_104,
        over: 0,
    };
    assert_eq!(audit(&file, &table, 9), Ok(best));

    let ended = run(&file, &mut table, 3, 0).expect("accepted");
    assert_eq!((ended.ending, ended.judged), (Ending::Spent, 3));
    assert_eq!((ended.share, ended.gap), (4, 40));
    assert_eq!(table, [8, 0, 7]);
    let reached = Run {
        ending: Ending::Reached,
        judged: 5,
        share: 9,
        gap: 0,
        cost: 13_104,
        over: 0,
    };
    assert_eq!(run(&file, &mut table, 10, 0), Ok(reached));
    assert_eq!(table, [16, 2, 7]);
}

/// Passes until one finds no move, and a run that ends the same way.
#[test]
fn finest() {
    let mut draft = Draft::town();
    draft.links = vec![[0, 1, 10, 100, 2], [0, 1, 15, 7, 1]];
    let file = draft.file();
    let mut table = [0; 2];
    start(&file, &mut table).expect("accepted");
    let mut share = 1;
    let last: Pass = loop {
        let mut note = [7; 3];
        let answer = pass(&file, &mut table, share, &mut note).expect("accepted");
        share = answer.share;
        if answer.outcome == Outcome::Finest {
            assert_eq!(note, [7; 3]);
            break answer;
        }
        assert_eq!(note[2], NO_LINK);
    };
    let mut ended_with = [0; 2];
    let ended = run(&file, &mut ended_with, 1_024, 0).expect("accepted");
    assert_eq!(ended.ending, Ending::Finest);
    assert_eq!((ended.gap, ended.cost), (last.gap, last.cost));
    assert_eq!((ended.share, ended_with), (last.share, table));
}

/// A road at four times its capacity is over, a part of a trip below it is not;
/// a pass and a run answer the count of the table that they judged (A.4).
#[test]
fn links_past_their_curves() {
    let mut draft = Draft::town();
    draft.links = vec![[0, 1, 10, 10, 2], [0, 1, 15, 0, 9]];
    draft.trips = vec![vec![8, 0]];
    let file = draft.file();
    let over = |table: &[u32], share| audit(&file, table, share).expect("accepted").over;
    assert_eq!((over(&[8, 0], 1), over(&[511, 1], 64)), (1, 0));

    let (mut table, mut note) = ([8, 0], [0; 3]);
    let moved = pass(&file, &mut table, 1, &mut note).expect("accepted");
    assert_eq!((moved.outcome, moved.over), (Outcome::Moved, 1));
    assert_eq!((moved.share, table), (4, [8, 24]));
    assert_eq!(note, [3, 1, NO_LINK]);
    assert_eq!(over(&table, 4), 0);

    let ended = run(&file, &mut table, 1, 0).expect("accepted");
    assert_eq!((ended.ending, ended.over), (Ending::Spent, 1));
    assert_eq!(table, [8, 0]);
}

#[test]
fn refused_calls() {
    let file = Draft::town().file();
    let mut table = [16, 1, 7];
    assert_eq!(refusal(check(&[])), 1);
    assert_eq!(refusal(check(&file[..57])), 4);
    assert_eq!(refusal(pack(&file, &mut [0; 57])), 17);
    assert_eq!(refusal(start(&file, &mut [])), 12);
    assert_eq!(refusal(run(&file, &mut table, 0, 0)), 13);
    let mut note = [7; 3];
    assert_eq!(refusal(pass(&file, &mut table, 1_025, &mut note)), 14);
    assert_eq!(refusal(audit(&file, &[19, 0], 9)), 15);
    assert_eq!(refusal(pass(&file, &mut table, 9, &mut note)), 16);
    assert_eq!(refusal(pass(&file, &mut table, 1_025, &mut note[..2])), 12);
    assert_eq!((table, note), ([16, 1, 7], [7; 3]));

    let words = audit(&file, &table, 9).expect_err("a refusal").to_string();
    assert_eq!(words, "refused 16: the table does not conserve");
}

/// Every move of the town from its start on, and all of them back.
#[test]
fn moves_and_back() {
    let file = Draft::town().file();
    let mut table = [0; 3];
    start(&file, &mut table).expect("accepted");
    let mut moves = vec![];
    let mut share = 1;
    for (step, link, left) in [
        (0, NO_LINK, [4, 0, 0]),
        (0, NO_LINK, [8, 0, 0]),
        (0, NO_LINK, [16, 0, 0]),
        (1, 1, [16, 2, 0]),
    ] {
        let (judged, mut note) = ((table, share), [7; 4]);
        share = pass(&file, &mut table, share, &mut note)
            .expect("accepted")
            .share;
        assert_eq!(note, [step, link, NO_LINK, 7]);
        assert_eq!(table, left);
        moves.push((judged, note));
    }
    for (judged, note) in moves.into_iter().rev() {
        share = take_back(&file, &mut table, share, &note).expect("accepted");
        assert_eq!((table, share), judged);
    }
    assert_eq!((table, share), ([2, 0, 0], 1));
}

/// A note of somebody else's: the second loading of link 1, and the longest.
#[test]
fn notes_of_others() {
    let file = Draft::town().file();
    let mut table = [12, 6, 7];
    let mut note = [0; LONGEST_NOTE];
    note[..2].copy_from_slice(&[2, 1]);
    assert_eq!(take_back(&file, &mut table, 9, &note), Ok(7));
    assert_eq!(table, [12, 2, 7]);
    // Halved, whatever its links are.
    assert_eq!(take_back(&file, &mut [16, 4], 10, &[0, 99, 98]), Ok(5));
}

#[test]
fn notes_that_are_refused() {
    let file = Draft::town().file();
    let mut table = [16, 2, 7];
    let note = [1, 1, NO_LINK];
    for length in 0..3 {
        let number = refusal(take_back(&file, &mut table, 0, &note[..length]));
        assert_eq!(number, 12, "{length}");
    }
    assert_eq!(refusal(take_back(&file, &mut table[..1], 9, &note)), 12);
    assert_eq!(refusal(take_back(&file, &mut table, 0, &note)), 14);
    assert_eq!(refusal(take_back(&file, &mut [19, 0], 9, &note)), 15);
    assert_eq!(refusal(take_back(&file, &mut table, 8, &note)), 16);

    // No link, and links that there are not; the share is asked about later.
    for link in [2, 512, NO_LINK] {
        assert_eq!(refusal(take_back(&file, &mut table, 9, &[9, link, 0])), 21);
    }
    // As many loadings as the share, more flow than there is, odd numbers.
    for note in [[9, 0, 0], [2, 1, 0], [0, 1, 0]] {
        assert_eq!(refusal(take_back(&file, &mut table, 9, &note)), 22);
    }
    assert_eq!(refusal(take_back(&file, &mut [17, 3], 10, &[0; 3])), 22);
    assert_eq!(table, [16, 2, 7]);

    let words = |note| {
        let result = take_back(&file, &mut [16, 2], 9, note);
        result.expect_err("a refusal").to_string()
    };
    assert_eq!(
        words(&[1, 2, 0]),
        "refused 21: the note does not lead from every node with trips to the destination, along links that may carry them"
    );
    assert_eq!(
        words(&[9, 0, 0]),
        "refused 22: the note has no fewer loadings than the share, or more than the table holds, or a share or flow to be halved is odd"
    );
}

/// By the zone, node 1, when it is open; round it when it is closed.
#[test]
fn notes_of_a_zone() {
    let mut study = zone();
    study.trips = vec![vec![8, 0, 0, 0]];
    let by_the_zone = [1, 0, 1, NO_LINK, 3];
    let round_it = [1, 2, 1, NO_LINK, 3];
    let file = study.clone().closing(&[]).file();
    let mut table = [8, 8, 8, 8];
    assert_eq!(take_back(&file, &mut table.clone(), 2, &round_it), Ok(1));
    assert_eq!(take_back(&file, &mut table, 2, &by_the_zone), Ok(1));
    assert_eq!(table, [0, 0, 8, 8]);

    let file = study.closing(&[1]).file();
    let mut table = [0, 0, 16, 16];
    assert_eq!(refusal(take_back(&file, &mut table, 2, &by_the_zone)), 21);
    assert_eq!(take_back(&file, &mut table, 2, &round_it), Ok(1));
    assert_eq!(table, [0, 0, 8, 8]);
}

fn closed_zone() -> Versioned {
    zone().closing(&[1])
}

#[test]
fn a_zone_open_and_closed() {
    for (study, flows, gap, cost) in [
        (zone().into(), [2, 3, 0, 0, 7], 20, 2_048),
        (zone().closing(&[]), [2, 3, 0, 0, 7], 20, 2_048),
        (closed_zone(), [0, 1, 2, 2, 7], 0, 2_880),
    ] {
        let file = study.file();
        assert_eq!(check(&file), Ok(()));
        let mut table = [7; 5];
        assert_eq!(start(&file, &mut table), Ok(()));
        assert_eq!(table, flows);
        let over = 0;
        assert_eq!(audit(&file, &table, 1), Ok(Audit { gap, cost, over }));

        let length = study.packed_length();
        let mut output = [0xEE; 96];
        assert_eq!(refusal(pack(&file, &mut output[..length - 1])), 17);
        assert_eq!(output, [0xEE; 96]);
        assert_eq!(pack(&file, &mut output), Ok(()));
        assert_eq!(output[..length], file);
        assert!(output[length..].iter().all(|&byte| byte == 0xEE));
    }
    let ended = run(&closed_zone().file(), &mut [0; 4], 1_024, 0).expect("accepted");
    assert_eq!((ended.ending, ended.judged), (Ending::Reached, 1));
}

#[test]
fn calls_that_a_zone_refuses() {
    let file = closed_zone().file();
    assert_eq!(file.len(), 94);
    for length in 32..=40 {
        assert_eq!(refusal(check(&file[..length])), 4, "{length}");
    }
    assert_eq!(refusal(check(&file[..31])), 1);

    let mut through = [2, 3, 0, 0];
    let refused = audit(&file, &through, 1).expect_err("a refusal");
    assert_eq!(
        refused.to_string(),
        "refused 20: the table has flow on a link into a closed node that is not flow to that node, or lorries on a barred link"
    );
    let mut note = [7; 5];
    assert_eq!(refusal(pass(&file, &mut through, 1, &mut note)), 20);
    assert_eq!(refusal(take_back(&file, &mut through, 1, &note)), 20);
    assert_eq!((through, note), ([2, 3, 0, 0], [7; 5]));
    assert_eq!(refusal(audit(&file, &[2, 2, 0, 0], 1)), 16);

    // A closed byte of 2 is asked about before trips to itself.
    let mut study = zone().with_closed(vec![0, 2, 0, 0]);
    let refused = check(&study.file()).expect_err("a refusal");
    assert_eq!(
        refused.to_string(),
        "refused 19: a node's closed byte is neither 0 nor 1"
    );
    study.draft.trips[0][2] = 1;
    assert_eq!(refusal(check(&study.file())), 19);
    study.closed = Some(vec![0, 1, 0, 0]);
    assert_eq!(refusal(check(&study.file())), 9);

    // Links 0 and 1 alone.
    let mut alone = zone();
    alone.links.truncate(2);
    assert_eq!(refusal(check(&alone.clone().closing(&[1]).file())), 11);
    assert_eq!(check(&alone.closing(&[]).file()), Ok(()));
}

/// The town with each power on its first road, the model's cases: gap and cost of
/// flows 16 and 2 at share 9, and what a run ends with.
#[test]
fn a_road_of_each_power() {
    let cases = [
        (1, (48, 16_140), (2, 2, 3_448), [2, 2]),
        (2, (32, 14_342), (6, 11, 17_314), [16, 6]),
        (3, (16, 13_552), (4, 5, 7_500), [8, 2]),
        (4, (0, 13_104), (5, 9, 13_104), [16, 2]),
    ];
    for (power, (gap, cost), numbers, flows) in cases {
        let study = Draft::town().with_powers(vec![power, 4]);
        let file = study.file();
        assert_eq!(file.len(), 72);
        let over = 0;
        assert_eq!(audit(&file, &[16, 2], 9), Ok(Audit { gap, cost, over }));
        let mut table = [7; 3];
        let ended = run(&file, &mut table, 10, 0).expect("accepted");
        assert_eq!((ended.judged, ended.share, ended.cost), numbers);
        assert_eq!((ended.ending, ended.gap), (Ending::Reached, 0));
        assert_eq!(table, [flows[0], flows[1], 7]);

        let mut output = [0xEE; 80];
        assert_eq!(refusal(pack(&file, &mut output[..71])), 17);
        assert_eq!(pack(&file, &mut output), Ok(()));
        assert_eq!(output[..72], file);
        assert!(output[72..].iter().all(|&byte| byte == 0xEE));
    }
}

#[test]
fn powers_that_are_refused() {
    for power in [0, 5, 255, 256, 260, 65_535] {
        let file = Draft::town().with_powers(vec![4, power]).file();
        let refused = check(&file).expect_err("a refusal");
        assert_eq!(
            refused.to_string(),
            "refused 7: a link's free time is not 1 to 16,383, its rise is above 16,383, its capacity is 0, or its power is not 1 to 4"
        );
    }
    let file = Draft::town().with_powers(vec![1, 4]).file();
    for length in 32..=40 {
        assert_eq!(refusal(check(&file[..length])), 4, "{length}");
    }
    // The same file in other versions.
    for (version, number) in [(0, 2), (1, 5), (2, 5), (4, 4), (5, 2)] {
        let mut other = file.clone();
        other[0] = version;
        assert_eq!(refusal(check(&other)), number, "version {version}");
    }
}

/// The town with two cars and a lorry, and road 0 barred to lorries.
fn freight() -> Versioned {
    let town = Draft::town().with_lorries(vec![vec![1, 0]]);
    town.barring(&[0])
}

#[test]
fn a_road_barred_to_lorries() {
    let file = freight().file();
    assert_eq!((check(&file), file.len()), (Ok(()), 94));
    let mut output = [0xEE; 96];
    assert_eq!(refusal(pack(&file, &mut output[..93])), 17);
    assert_eq!(pack(&file, &mut output), Ok(()));
    assert_eq!((&output[..94], &output[94..]), (&file[..], &[0xEE; 2][..]));

    // The cars by road 0, the lorry by road 1.
    let mut table = [7; 5];
    assert_eq!(start(&file, &mut table), Ok(()));
    assert_eq!(table, [2, 0, 0, 1, 7]);
    let (gap, cost, over) = (10, 2_448, 0);
    assert_eq!(audit(&file, &table, 1), Ok(Audit { gap, cost, over }));
    let mut paper = [0; 2 * LINE_BYTES];
    assert_eq!(page(&file, &table, 1, &mut paper), Ok(()));
    let lines = [
        "  0   0   1     2.00     0.20\n",
        "  1   0   1     1.00     0.15\n",
    ];
    assert_eq!(paper, lines.concat().as_bytes());

    let ended = run(&file, &mut table, 10, 0).expect("accepted");
    assert_eq!((ended.ending, ended.judged), (Ending::Reached, 5));
    assert_eq!((ended.share, ended.gap, ended.cost), (9, 0, 21_744));
    assert_eq!(table, [16, 2, 0, 9, 7]);
}

/// A loading of the town with a lorry, and back.
#[test]
fn a_note_of_cars_and_lorries() {
    let file = freight().file();
    let (mut table, mut note) = ([16, 0, 0, 8, 7], [7; 6]);
    let moved = pass(&file, &mut table, 8, &mut note).expect("accepted");
    assert_eq!((moved.outcome, moved.share), (Outcome::Moved, 9));
    assert_eq!(
        (table, note),
        ([16, 2, 0, 9, 7], [1, 1, NO_LINK, 1, NO_LINK, 7])
    );
    assert_eq!(refusal(take_back(&file, &mut table, 9, &note[..4])), 12);
    // The lorry by road 0, which is barred to it, and by a link that there is not.
    for link in [0, 2] {
        note[3] = link;
        assert_eq!(refusal(take_back(&file, &mut table, 9, &note)), 21);
    }
    note[3] = 1;
    assert_eq!(take_back(&file, &mut table, 9, &note), Ok(8));
    assert_eq!(table, [16, 0, 0, 8, 7]);
    assert_eq!(take_back(&file, &mut table, 8, &[0; 5]), Ok(4));
    assert_eq!(table, [8, 0, 0, 4, 7]);
    // An odd number of lorries.
    assert_eq!(refusal(take_back(&file, &mut [4, 0, 1, 1], 2, &[0; 5])), 20);
    let unbarred = freight().barring(&[]).file();
    assert_eq!(
        refusal(take_back(&unbarred, &mut [4, 0, 1, 1], 2, &[0; 5])),
        22
    );
}

#[test]
fn calls_that_lorries_refuse() {
    let file = freight().file();
    for length in 32..=56 {
        assert_eq!(refusal(check(&file[..length])), 4, "{length}");
    }
    let mut table = [2, 0, 1, 0];
    let mut note = [7; 5];
    assert_eq!(refusal(audit(&file, &table, 1)), 20);
    assert_eq!(refusal(pass(&file, &mut table, 1, &mut note)), 20);
    assert_eq!(refusal(start(&file, &mut table[..3])), 12);
    assert_eq!(refusal(pass(&file, &mut table, 1, &mut note[..4])), 12);
    assert_eq!((table, note), ([2, 0, 1, 0], [7; 5]));
    assert_eq!(refusal(audit(&file, &[2, 2, 0, 2], 1)), 15);
    assert_eq!(refusal(audit(&file, &[2, 0, 0, 0], 1)), 16);

    let study = freight().with_barred(vec![0, 2]);
    let refused = check(&study.file()).expect_err("a refusal");
    assert_eq!(
        refused.to_string(),
        "refused 23: a link's barred byte is neither 0 nor 1"
    );
    // Closed bytes are asked about before, trips to itself after.
    assert_eq!(
        refusal(check(&study.clone().with_closed(vec![0, 2]).file())),
        19
    );
    let own = vec![vec![1, 1]];
    assert_eq!(refusal(check(&study.with_lorries(own.clone()).file())), 23);
    assert_eq!(refusal(check(&freight().with_lorries(own).file())), 9);
    assert_eq!(refusal(check(&freight().with_barred(vec![0]).file())), 5);
    let many = freight().with_lorries(vec![vec![65_534, 0]]);
    assert_eq!(refusal(check(&many.file())), 10);
    assert_eq!(refusal(check(&freight().barring(&[0, 1]).file())), 11);
}

/// Flow to a closed destination enters it, and flow to another does not, though
/// the link's total is the same.
#[test]
fn a_closed_destination() {
    let draft = Draft {
        nodes: 3,
        links: vec![[0, 1, 5, 0, 1], [1, 2, 5, 0, 1], [0, 2, 20, 0, 1]],
        destinations: vec![1, 2],
        trips: vec![vec![1, 0, 0], vec![1, 0, 0]],
    };
    let file = draft.closing(&[1]).file();
    let mut table = [0; 6];
    assert_eq!(start(&file, &mut table), Ok(()));
    assert_eq!(table, [1, 0, 0, 0, 0, 1]);
    assert!(audit(&file, &[2, 0, 0, 0, 0, 2], 2).is_ok());
    assert_eq!(refusal(audit(&file, &[2, 0, 0, 1, 1, 1], 2)), 20);
}

/// Desks with one file, each with a table and with a budget and an excess from the
/// list.
fn desks_of<'a>(file: &'a [u8], tables: &'a mut [[u32; 3]], runs: &[(u32, u16)]) -> Vec<Desk<'a>> {
    let desks = tables.iter_mut().zip(runs);
    desks
        .map(|(table, &(budget, excess))| Desk {
            file,
            table,
            budget,
            excess,
        })
        .collect()
}

/// The answer and the tables of desks with the town.
fn town_desks(
    runs: &[(u32, u16)],
    allowance: u32,
) -> (Result<DesksAnswer, Refusal>, Vec<[u32; 3]>) {
    let mut tables = vec![[7; 3]; runs.len()];
    let file = Draft::town().file();
    let answer = desks(&mut desks_of(&file, &mut tables, runs), allowance);
    (answer, tables)
}

/// The ending and the tables judged of a desk.
fn ended(answer: &DesksAnswer, seat: usize) -> (Ending, u32) {
    let run = answer.seats[seat].expect("a desk").expect("accepted");
    (run.ending, run.judged)
}

/// Turns go round in seat order: a budget of 3, one of 10 with an excess that the
/// first table reaches, one of 1,024, and one of 1.
#[test]
fn turns_of_desks() {
    let runs = [(3, 0), (10, 5), (1_024, 4), (1, 0)];
    for (allowance, judged) in [
        (1, [1, 0, 0, 0]),
        (3, [1, 1, 1, 0]),
        (4, [1, 1, 1, 1]),
        (5, [2, 1, 1, 1]),
        (8, [3, 1, 3, 1]),
        (10, [3, 1, 5, 1]),
        (8_192, [3, 1, 5, 1]),
    ] {
        let (answer, _) = town_desks(&runs, allowance);
        let answer = answer.expect("accepted");
        assert_eq!(answer.turns, allowance.min(10));
        assert_eq!([0, 1, 2, 3].map(|seat| ended(&answer, seat).1), judged);
        assert_eq!(answer.seats[4..], [None; 4]);
    }

    let (answer, tables) = town_desks(&runs, 9);
    let answer = answer.expect("accepted");
    let endings = [0, 1, 2, 3].map(|seat| ended(&answer, seat).0);
    let (spent, waiting) = (Ending::Spent, Ending::Waiting);
    assert_eq!(endings, [spent, Ending::Reached, waiting, spent]);
    assert_eq!(tables, [[8, 0, 7], [2, 0, 7], [16, 0, 7], [2, 0, 7]]);
}

/// With no turn a desk has its table as started, share 1, and all else 0.
#[test]
fn desks_without_a_turn() {
    let (answer, tables) = town_desks(&[(10, 0); SEATS], 7);
    let answer = answer.expect("accepted");
    let none = Run {
        ending: Ending::Waiting,
        judged: 0,
        share: 1,
        gap: 0,
        cost: 0,
        over: 0,
    };
    assert_eq!(answer.seats[7], Some(Ok(none)));
    let first = Run {
        judged: 1,
        gap: 10,
        cost: 1_488,
        ..none
    };
    assert_eq!(answer.seats[..7], [Some(Ok(first)); 7]);
    assert_eq!(tables, [[2, 0, 7]; 8]);
}

/// Ended desks are as runs alone leave them, whatever the study's version, and one
/// of them is finest.
#[test]
fn ended_desks() {
    let mut rising = Draft::town();
    rising.links = vec![[0, 1, 10, 100, 2], [0, 1, 15, 7, 1]];
    let files = [
        rising.file(),
        closed_zone().file(),
        Draft::town().with_powers(vec![2, 4]).file(),
        freight().file(),
    ];
    let mut tables = [[7; 5]; 4];
    let mut lent: Vec<Desk> = files
        .iter()
        .zip(&mut tables)
        .map(|(file, table)| Desk {
            file,
            table,
            budget: 1_024,
            excess: 0,
        })
        .collect();
    let answer = desks(&mut lent, 8_192).expect("accepted");
    let mut turns = 0;
    for (seat, file) in files.iter().enumerate() {
        let mut table = [7; 5];
        let alone = run(file, &mut table, 1_024, 0);
        assert_eq!(answer.seats[seat], Some(alone));
        assert_eq!(tables[seat], table);
        turns += alone.expect("accepted").judged;
    }
    assert_eq!(ended(&answer, 0).0, Ending::Finest);
    assert_eq!(answer.turns, turns);
}

#[test]
fn desks_that_are_refused() {
    // One desk of three, for its budget.
    let (answer, tables) = town_desks(&[(1, 0), (0, 0), (1, 0)], 8_192);
    let answer = answer.expect("accepted");
    assert_eq!(answer.turns, 2);
    let second = answer.seats[1].expect("a desk");
    assert_eq!(refusal(second), 13);
    assert_eq!(tables, [[2, 0, 7], [7; 3], [2, 0, 7]]);

    // And for its file and its table.
    let (file, mut tables) = (Draft::town().file(), [[7; 3]; 3]);
    let mut lent = desks_of(&file, &mut tables, &[(1, 0); 3]);
    lent[0].file = &file[..57];
    lent[2].table = &mut [];
    let answer = desks(&mut lent, 1).expect("accepted");
    let numbers = [0, 2].map(|seat| refusal(answer.seats[seat].expect("a desk")));
    assert_eq!((numbers, answer.turns), ([4, 12], 1));
    assert_eq!(tables, [[7; 3], [2, 0, 7], [7; 3]]);
}

#[test]
fn calls_for_desks_that_are_refused() {
    for (count, allowance, number) in [
        (0, 0, 24),
        (0, 1, 24),
        (9, 0, 24),
        (9, 8_192, 24),
        (257, 1, 24),
        (1, 0, 25),
        (8, 8_193, 25),
        (8, u32::MAX, 25),
    ] {
        let (answer, tables) = town_desks(&vec![(3, 0); count], allowance);
        assert_eq!(refusal(answer), number, "{count} {allowance}");
        assert_eq!(tables, vec![[7; 3]; count]);
    }
    let words = |count, allowance| {
        let (answer, _) = town_desks(&vec![(3, 0); count], allowance);
        answer.expect_err("a refusal").to_string()
    };
    assert_eq!(words(0, 1), "refused 24: the desks are not 1 to 8");
    assert_eq!(words(1, 0), "refused 25: the allowance is not 1 to 8,192");
}
