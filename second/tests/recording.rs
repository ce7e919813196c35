//! The recorded calls: their number and variety, their stream, their answers.

use std::collections::HashSet;
use std::ops::RangeInclusive;

use second::format::{Sections, u16_at, u32_at};
use second::network::Study;
use second::staircase::LAST_STEP;
use second::stream::{
    Call, Kind, Lent, LentDesks, LentSeat, Player, Reply, Second, answers, digest, read_calls,
    write_calls,
};
use second::{
    AuditAnswer, DesksAnswer, FINEST, MOVED, PassAnswer, RunAnswer, SEATS, TakeBackAnswer, WAITING,
    cases, run,
};

#[test]
fn the_list_is_long_and_the_stream_short() {
    let calls = cases::all();
    assert!(calls.len() >= 2_400);
    assert!(write_calls(&calls).len() < 5_400_000);
}

/// Calls before the first ones that were made for pages.
const WITHOUT_PAGES: usize = 4_013;

/// Calls before the first ones that were made for version 2.
const WITHOUT_CLOSED_NODES: usize = 4_509;

/// Calls before the first ones that were made for links past the curve.
const WITHOUT_OVER: usize = 5_131;

/// Calls before the first ones that were made for version 3.
const WITHOUT_POWERS: usize = 5_253;

/// Calls before the first ones that were made for taking back.
const WITHOUT_TAKING_BACK: usize = 5_750;

/// Calls before the first ones that were made for lorries.
const WITHOUT_LORRIES: usize = 6_447;

/// Calls before the first ones that were made for desks.
const WITHOUT_DESKS: usize = 7_889;

/// All calls.
const ALL: usize = 8_337;

/// Kinds of calls that have one study, which are all but desks.
const WITH_ONE_STUDY: usize = Kind::ALL.len() - 1;

/// The stream of calls as it was before there were notes: those of passes are
/// left out.
fn stream_without_notes(calls: &[Call]) -> Vec<u8> {
    let mut stream = Vec::new();
    for call in calls {
        let mut bytes = write_calls(std::slice::from_ref(call));
        // Share, budget and excess stand behind the note, and then the end.
        let rest = bytes.split_off(bytes.len() - 11);
        if let Lent::Noted(_, note) = &call.lent {
            let length = 4 + 2 * note.as_ref().map_or(0, Vec::len);
            bytes.truncate(bytes.len() - length);
        }
        stream.extend(bytes);
        stream.extend(&rest[..10]);
    }
    stream.push(0);
    stream
}

/// The lines of answers as they were before there were notes: the digest of a
/// pass is that of its table.
fn answers_without_notes(calls: &[Call]) -> String {
    let mut player = Player::default();
    let mut lines = String::new();
    for call in calls {
        let reply = player.play(&Second, call);
        let kind = match call.kind {
            Kind::Pass => Kind::Audit,
            kind => kind,
        };
        lines += &reply.line(player.digest(kind));
        lines.push('\n');
    }
    lines
}

/// The places of the calls with a file that calls itself one of these versions,
/// and the numbers that answer them.
fn calling_themselves(calls: &[Call], versions: RangeInclusive<u16>) -> Vec<(usize, u8)> {
    let mut player = Player::default();
    let mut found = Vec::new();
    for (place, call) in calls.iter().enumerate() {
        let reply = player.play(&Second, call);
        if player.file.len() >= 32 && versions.contains(&u16_at(&player.file, 0)) {
            found.push((place, reply.refusal()));
        }
    }
    found
}

/// The lines of answers as they were when these, which have other numbers now,
/// were refused 2.
fn refused_2(lines: &str, changed: &[(usize, u8)]) -> String {
    let mut before = String::new();
    for (place, line) in lines.lines().enumerate() {
        before += &match changed.iter().find(|(changed, _)| *changed == place) {
            Some((_, refusal)) => line.replacen(&format!(" {refusal} "), " 2 ", 1),
            None => line.to_string(),
        };
        before.push('\n');
    }
    before
}

/// The lines of answers as they were before there was a version 4.
fn before_version_4(calls: &[Call], lines: &str) -> String {
    refused_2(lines, &calling_themselves(calls, 4..=4))
}

/// A player with a note for calls that take over a long one.
fn player_with_note() -> Player {
    Player {
        note: vec![0; 4_100],
        ..Player::default()
    }
}

/// The lines of answers without the count of links past the curve, which stands
/// before the digest.
fn without_over(lines: &str) -> String {
    let mut before = String::new();
    for line in lines.lines() {
        let mut words: Vec<&str> = line.split(' ').collect();
        if ["pass", "run", "audit"].contains(&words[0]) {
            words.remove(words.len() - 2);
        }
        before += &words.join(" ");
        before.push('\n');
    }
    before
}

/// The list is the same every time and everywhere, and begins with what it was
/// before there were pages, before there were closed nodes, before links past
/// the curve were counted, before there were powers, before there were notes,
/// before there were lorries and before there were desks. Nothing but the count has come to the answers, and
/// the note to the digests, and version 4 is no longer refused 2.
#[test]
fn the_list_stays_the_same() {
    let calls = cases::all();
    let first_page = calls.iter().position(|call| call.kind == Kind::Page);
    assert_eq!(first_page, Some(WITHOUT_PAGES + 1));
    for (count, stream, lines) in [
        (WITHOUT_PAGES, 0xD928_78A1_C5BC_FF7D, 0x3EDF_99DB_4BE3_4612),
        (
            WITHOUT_CLOSED_NODES,
            0x6153_11DF_0DB6_1548,
            0xE73C_6274_6DAF_CC73,
        ),
        (WITHOUT_OVER, 0x4CF5_E60D_F0D2_0DCD, 0x9D89_72D6_A7CC_F0E1),
    ] {
        let calls = &calls[..count];
        let answered = before_version_4(calls, &answers_without_notes(calls));
        let answered = without_over(&answered);
        assert_eq!(digest(stream_without_notes(calls)), stream, "{count}");
        assert_eq!(digest(answered.into_bytes()), lines, "{count}");
    }
    for (count, stream, lines) in [
        (WITHOUT_POWERS, 0x9C24_B7FE_D2AD_FC0D, 0xB966_9CB0_8703_1144),
        (
            WITHOUT_TAKING_BACK,
            0x2688_F39D_96B9_94F5,
            0xBC66_F6E7_B969_31A4,
        ),
    ] {
        let calls = &calls[..count];
        let answered = before_version_4(calls, &answers_without_notes(calls));
        assert_eq!(digest(stream_without_notes(calls)), stream, "{count}");
        assert_eq!(digest(answered.into_bytes()), lines, "{count}");
    }
    for (count, stream, lines) in [
        (
            WITHOUT_TAKING_BACK,
            0x5735_3BFC_03A0_CBB9,
            0x68FA_2E35_F99F_5FC6,
        ),
        (
            WITHOUT_LORRIES,
            0x5F9A_28CB_D850_E0E3,
            0xB9D8_82D2_94D1_B5B9,
        ),
    ] {
        let calls = &calls[..count];
        let answered = before_version_4(calls, &answers(&Second, calls));
        assert_eq!(digest(write_calls(calls)), stream, "{count}");
        assert_eq!(digest(answered.into_bytes()), lines, "{count}");
    }
    assert_eq!(calls.len(), ALL);
    for (count, stream, lines) in [
        (WITHOUT_DESKS, 0x08F6_1498_8C4E_FCE8, 0x1DA6_52D8_B4E8_4A0D),
        (ALL, 0x07C8_9E15_956E_9366, 0x0577_A01D_64B0_63D7),
    ] {
        let calls = &calls[..count];
        let answered = answers(&Second, calls);
        assert_eq!(digest(write_calls(calls)), stream, "{count}");
        assert_eq!(digest(answered.into_bytes()), lines, "{count}");
    }
}

/// The first pass of all is lent a long note, and all others that were there
/// before taking back take it over.
#[test]
fn notes_of_passes_before_taking_back() {
    let calls = &cases::all()[..WITHOUT_TAKING_BACK];
    let notes: Vec<&Option<Vec<u16>>> = calls
        .iter()
        .filter_map(|call| match &call.lent {
            Lent::Noted(_, note) => Some(note),
            _ => None,
        })
        .collect();
    assert!(notes[0].as_ref().is_some_and(|note| note.len() == 4_100));
    assert!(notes[1..].iter().all(|note| note.is_none()));
    let taken = calls.iter().any(|call| call.kind == Kind::TakeBack);
    assert!(!taken && notes.len() > 1_000);
}

/// A file of version 1 that calls itself version 2 was refused 2 before there
/// was a version 2, and is refused 4 since: its sections begin too early. That
/// is all that has changed in the answers.
#[test]
fn answers_that_changed_with_version_2() {
    let calls = &cases::all()[..WITHOUT_CLOSED_NODES];
    let changed = calling_themselves(calls, 2..=2);
    let places = [264, 265, 266, 267, 268, 269, 4_111];
    assert_eq!(changed, places.map(|place| (place, 4)));
    let before = refused_2(&answers_without_notes(calls), &changed);
    assert_eq!(digest(without_over(&before).bytes()), 0x68C3_3E75_690D_4835);
}

/// A file that calls itself version 3 was refused 2 before there was a version
/// 3. Since then those that are cut short or have the sections of version 1 are
/// refused 4, and one of version 2 is refused 5: its links are too short. That
/// is all that has changed in the answers.
#[test]
fn answers_that_changed_with_version_3() {
    let calls = &cases::all()[..WITHOUT_POWERS];
    let changed = calling_themselves(calls, 3..=3);
    let places = [4_534, 4_535, 4_549, 4_550, 4_551, 4_571];
    let numbers = [4, 4, 5, 5, 4, 4];
    assert!(changed.iter().copied().eq(places.into_iter().zip(numbers)));
    let later = calling_themselves(calls, 3..=4);
    let before = refused_2(&answers_without_notes(calls), &later);
    assert_eq!(digest(before.bytes()), 0x2A2C_235E_E9EB_6722);
    let first: String = before.split_inclusive('\n').take(WITHOUT_OVER).collect();
    let first = without_over(&first);
    assert_eq!(digest(first.into_bytes()), 0xFD51_74B0_5329_7677);
}

/// A file that calls itself version 4 was refused 2 before there was a version
/// 4. Since then those with the header of an older version are refused 4. That
/// is all that has changed in the answers.
#[test]
fn answers_that_changed_with_version_4() {
    let calls = &cases::all()[..WITHOUT_LORRIES];
    let changed = calling_themselves(calls, 4..=4);
    let places = [4_536, 4_537, 4_552, 4_553, 5_479, 5_511];
    assert_eq!(changed, places.map(|place| (place, 4)));
}

#[test]
fn the_stream_can_be_read_back() {
    let calls = cases::all();
    let stream = write_calls(&calls);
    assert!(read_calls(&stream).unwrap() == calls);
    assert!(read_calls(&stream[..stream.len() - 1]).is_err());
    assert!(read_calls(&[stream, vec![0]].concat()).is_err());
    assert!(read_calls(&[10]).is_err());
    assert!(read_calls(&[]).is_err());
}

#[test]
fn the_form_of_the_stream() {
    let calls = [
        Call {
            kind: Kind::Pass,
            file: Some(vec![9, 8]),
            lent: Lent::Noted(Some(vec![0x0102_0304]), Some(vec![0x0506, 65_535])),
            share: 5,
            budget: 0,
            excess: 0,
        },
        Call {
            kind: Kind::Run,
            file: None,
            lent: Lent::Same,
            share: 0,
            budget: 6,
            excess: 7,
        },
        Call {
            kind: Kind::Pack,
            file: None,
            lent: Lent::Output(vec![1]),
            share: 0,
            budget: 0,
            excess: 0,
        },
        Call {
            kind: Kind::Check,
            file: Some(vec![]),
            lent: Lent::Nothing,
            share: 0,
            budget: 0,
            excess: 0,
        },
        Call {
            kind: Kind::Page,
            file: Some(vec![6]),
            lent: Lent::Page(Some(vec![2]), vec![11, 12, 13]),
            share: 9,
            budget: 0,
            excess: 0,
        },
        Call {
            kind: Kind::Page,
            file: None,
            lent: Lent::Page(None, vec![]),
            share: 258,
            budget: 0,
            excess: 0,
        },
        Call {
            kind: Kind::Audit,
            file: None,
            lent: Lent::Same,
            share: 1,
            budget: 0,
            excess: 0,
        },
        Call {
            kind: Kind::TakeBack,
            file: None,
            lent: Lent::Noted(None, None),
            share: 2,
            budget: 0,
            excess: 0,
        },
        Call {
            kind: Kind::TakeBack,
            file: Some(vec![]),
            lent: Lent::Noted(Some(vec![]), Some(vec![])),
            share: 3,
            budget: 0,
            excess: 0,
        },
        Call {
            kind: Kind::Pass,
            file: None,
            lent: Lent::Noted(Some(vec![1]), None),
            share: 4,
            budget: 0,
            excess: 0,
        },
    ];
    #[rustfmt::skip]
    let stream = [
        4, 2, 0, 0, 0, 9, 8, 1, 0, 0, 0, 4, 3, 2, 1, 2, 0, 0, 0, 6, 5, 255, 255, 5, 0, 0, 0, 0, 0, 0, 0, 0, 0,
        5, 255, 255, 255, 255, 255, 255, 255, 255, 0, 0, 0, 0, 6, 0, 0, 0, 7, 0,
        2, 255, 255, 255, 255, 1, 0, 0, 0, 1, 0, 0, 0, 0, 0, 0, 0, 0, 0, 0,
        1, 0, 0, 0, 0, 0, 0, 0, 0, 0, 0, 0, 0, 0, 0, 0, 0, 0, 0,
        7, 1, 0, 0, 0, 6, 1, 0, 0, 0, 2, 0, 0, 0, 3, 0, 0, 0, 11, 12, 13, 9, 0, 0, 0, 0, 0, 0, 0, 0, 0,
        7, 255, 255, 255, 255, 255, 255, 255, 255, 0, 0, 0, 0, 2, 1, 0, 0, 0, 0, 0, 0, 0, 0,
        6, 255, 255, 255, 255, 255, 255, 255, 255, 1, 0, 0, 0, 0, 0, 0, 0, 0, 0,
        8, 255, 255, 255, 255, 255, 255, 255, 255, 255, 255, 255, 255, 2, 0, 0, 0, 0, 0, 0, 0, 0, 0,
        8, 0, 0, 0, 0, 0, 0, 0, 0, 0, 0, 0, 0, 3, 0, 0, 0, 0, 0, 0, 0, 0, 0,
        4, 255, 255, 255, 255, 1, 0, 0, 0, 1, 0, 0, 0, 255, 255, 255, 255, 4, 0, 0, 0, 0, 0, 0, 0, 0, 0,
        0,
    ];
    assert_eq!(write_calls(&calls), stream);
    assert_eq!(read_calls(&stream).unwrap(), calls);
}

/// A page takes a table over only where there is one, and its page slice never.
#[test]
fn what_a_page_cannot_take_over() {
    let same = [255; 4];
    let end = [0; 11];
    let check = [1, 0, 0, 0, 0, 0, 0, 0, 0, 0, 0, 0, 0, 0, 0, 0, 0, 0, 0];
    let stream = [&check, [7].as_slice(), &same, &same, &[0; 4], &end].concat();
    assert!(read_calls(&stream).is_err());
    let stream = [&check, [7].as_slice(), &same, &[0; 4], &[0; 4], &end].concat();
    assert!(read_calls(&stream).is_ok());
    let stream = [&check, [7].as_slice(), &same, &[0; 4], &same, &end].concat();
    assert!(read_calls(&stream).is_err());
}

/// A taking back takes a table over only where there is one, and a note always:
/// before any it is empty, and calls that are lent none leave it.
#[test]
fn what_a_taking_back_takes_over() {
    let same = [255; 4];
    let end = [0; 11];
    let check = [1, 0, 0, 0, 0, 0, 0, 0, 0, 0, 0, 0, 0, 0, 0, 0, 0, 0, 0];
    let stream = [&check, [8].as_slice(), &same, &same, &same, &end].concat();
    assert!(read_calls(&stream).is_err());
    let stream = [&check, [8].as_slice(), &same, &[0; 4], &same, &end].concat();
    assert!(read_calls(&stream).is_ok());

    let call = |kind: Kind, lent: Lent| Call {
        kind,
        file: Some(Vec::new()),
        lent,
        share: 0,
        budget: 0,
        excess: 0,
    };
    let mut player = Player::default();
    for (kind, lent, table, note) in [
        (
            Kind::Pass,
            Lent::Noted(Some(vec![1, 2]), None),
            vec![1, 2],
            vec![],
        ),
        (
            Kind::TakeBack,
            Lent::Noted(None, Some(vec![3, 4])),
            vec![1, 2],
            vec![3, 4],
        ),
        (Kind::Start, Lent::Table(vec![5]), vec![5], vec![3, 4]),
        (Kind::Check, Lent::Nothing, vec![5], vec![3, 4]),
        (
            Kind::Pass,
            Lent::Noted(Some(vec![6]), None),
            vec![6],
            vec![3, 4],
        ),
        (
            Kind::TakeBack,
            Lent::Noted(None, Some(vec![])),
            vec![6],
            vec![],
        ),
    ] {
        let reply = player.play(&Second, &call(kind, lent));
        assert_eq!(reply.refusal(), 1);
        assert_eq!((&player.table, &player.note), (&table, &note));
        if kind == Kind::Pass || kind == Kind::TakeBack {
            let table = table.iter().flat_map(|number| number.to_le_bytes());
            let note = note.iter().flat_map(|number: &u16| number.to_le_bytes());
            assert_eq!(player.digest(kind), digest(table.chain(note)));
        }
    }
}

/// Four seats with something of each kind of length, and four that take all over.
fn some_lent_desks() -> LentDesks {
    let mut lent = LentDesks {
        desks: 5,
        allowance: 0x0102_0304,
        ..LentDesks::default()
    };
    let given = [
        (Some(vec![9, 8]), Some(vec![7, 0x0102_0304]), 6, 5),
        (None, Some(vec![]), 0x0A0B_0C0D, 0x0102),
        (Some(vec![]), None, 0, 0),
        (Some(vec![3]), Some(vec![2]), u32::MAX, u16::MAX),
    ];
    for (seat, (file, table, budget, excess)) in lent.seats.iter_mut().zip(given) {
        *seat = LentSeat {
            file,
            table,
            budget,
            excess,
        };
    }
    lent
}

#[test]
fn the_form_of_desks_in_the_stream() {
    let calls = [Call::for_desks(some_lent_desks())];
    #[rustfmt::skip]
    let stream = [
        &[9][..],
        &[2, 0, 0, 0, 9, 8, 2, 0, 0, 0, 7, 0, 0, 0, 4, 3, 2, 1, 6, 0, 0, 0, 5, 0],
        &[255, 255, 255, 255, 0, 0, 0, 0, 13, 12, 11, 10, 2, 1],
        &[0, 0, 0, 0, 255, 255, 255, 255, 0, 0, 0, 0, 0, 0],
        &[1, 0, 0, 0, 3, 1, 0, 0, 0, 2, 0, 0, 0, 255, 255, 255, 255, 255, 255],
        &[[255; 8].as_slice(), &[0; 6]].concat().repeat(4),
        &[5, 0, 0, 0, 4, 3, 2, 1],
        &[0],
    ]
    .concat();
    assert_eq!(write_calls(&calls), stream);
    assert_eq!(read_calls(&stream).unwrap(), calls);
    for length in 0..stream.len() {
        assert!(read_calls(&stream[..length]).is_err());
    }
}

/// A call for desks takes over from the last one of its kind only, and the other
/// kinds from one another only, in reading as in playing.
#[test]
fn what_desks_take_over() {
    let same = [255; 4];
    let end = [0; 11];
    let desks = write_calls(&[Call::for_desks(some_lent_desks())]);
    let desks = &desks[..desks.len() - 1];
    let start = [3, 0, 0, 0, 0, 1, 0, 0, 0, 7, 0, 0, 0];
    let audit = [&[6], same.as_slice(), &same].concat();
    // The audit takes over from the start, across the desks, and from nothing
    // where there is no start.
    let stream = [&start, &end[..10], desks, &audit, &end].concat();
    assert!(read_calls(&stream).is_ok());
    assert!(read_calls(&[desks, &audit, &end].concat()).is_err());
    let check = [1, 0, 0, 0, 0, 0, 0, 0, 0, 0, 0, 0, 0, 0, 0, 0, 0, 0, 0];
    let stream = [&start, &end[..10], &check, desks, &audit, &end].concat();
    assert!(read_calls(&stream).is_err());

    let mut player = Player::default();
    for call in read_calls(&[&start, &end[..10], desks, desks, &audit, &end].concat()).unwrap() {
        let before = player.clone();
        player.play(&Second, &call);
        if call.kind == Kind::Desks {
            assert_eq!((&player.file, &player.table), (&before.file, &before.table));
        } else {
            assert_eq!(player.seats, before.seats);
            assert_eq!((player.file.len(), &player.table), (0, &vec![7]));
        }
    }
    let left = player.seats.clone().map(|seat| (seat.file, seat.table));
    let mut expected: [(Vec<u8>, Vec<u32>); SEATS] = Default::default();
    expected[0] = (vec![9, 8], vec![7, 0x0102_0304]);
    expected[3] = (vec![3], vec![2]);
    assert_eq!(left, expected);
    // The digest is that of all tables, in the order of the seats.
    let tables = [7, 0, 0, 0, 4, 3, 2, 1, 2, 0, 0, 0];
    assert_eq!(player.digest(Kind::Desks), digest(tables));
}

#[test]
fn the_digest() {
    assert_eq!(digest([]), 0xCBF2_9CE4_8422_2325);
    assert_eq!(digest(*b"a"), 0xAF63_DC4C_8601_EC8C);
    assert_eq!(digest(*b"foobar"), 0x8594_4171_F739_67E8);
}

#[test]
fn the_lines() {
    let calls = &cases::all()[..20];
    let text = answers(&Second, calls);
    assert_eq!(text.lines().count(), 20);
    // The town is accepted; an empty output is too short for it.
    let mut lines = text.lines();
    assert_eq!(lines.next(), Some("check 0 cbf29ce484222325"));
    assert_eq!(lines.next(), Some("pack 17 cbf29ce484222325"));
    // P6 further on, with no link past the curve.
    assert!(text.contains("audit 0 10 1488 0 "));
}

/// The count of links past the curve stands before the digest.
#[test]
fn lines_with_a_count() {
    let pass = PassAnswer {
        refusal: 1,
        outcome: 2,
        gap: 3,
        cost: 4,
        share: 5,
        over: 6,
    };
    let run = RunAnswer {
        refusal: 1,
        ending: 2,
        judged: 3,
        share: 4,
        gap: 5,
        cost: 6,
        over: 7,
    };
    let audit = AuditAnswer {
        refusal: 1,
        gap: 2,
        cost: 3,
        over: 4,
    };
    let take_back = TakeBackAnswer {
        refusal: 1,
        share: 2,
    };
    for (reply, line) in [
        (Reply::Pass(pass), "pass 1 2 3 4 5 6 00000000000000ff"),
        (Reply::Run(run), "run 1 2 3 4 5 6 7 00000000000000ff"),
        (Reply::Audit(audit), "audit 1 2 3 4 00000000000000ff"),
        (Reply::TakeBack(take_back), "take_back 1 2 00000000000000ff"),
    ] {
        assert_eq!(reply.line(255), line);
    }
    let mut desks = DesksAnswer {
        refusal: 24,
        turns: 25,
        ..DesksAnswer::default()
    };
    (desks.seats[0], desks.seats[7]) = (run, RunAnswer { refusal: 9, ..run });
    assert_eq!(
        Reply::Desks(desks).line(255),
        format!(
            "desks 24 25 1 2 3 4 5 6 7 {}9 2 3 4 5 6 7 00000000000000ff",
            "0 ".repeat(6 * 7)
        )
    );
}

/// Every refusal by every call that can give it, every outcome, every ending.
#[test]
fn the_list_has_everything() {
    let mut player = Player::default();
    let mut refusals: HashSet<(&str, u8)> = HashSet::new();
    let (mut outcomes, mut endings) = ([0; 3], [0; 4]);
    let (mut doubled, mut longest, mut dearest) = (0, 0, 0);
    for call in cases::all() {
        let reply = player.play(&Second, &call);
        refusals.insert((call.kind.word(), reply.refusal()));
        match reply {
            Reply::Pass(answer) => {
                outcomes[usize::from(answer.outcome)] += 1;
                // More than a loading can add.
                doubled += usize::from(answer.outcome == MOVED && answer.share > call.share + 64);
                dearest = dearest.max(answer.cost);
            }
            Reply::Run(answer) => {
                endings[usize::from(answer.ending)] += 1;
                longest = longest.max(answer.judged);
            }
            _ => {}
        }
    }
    for (kind, more) in [
        (Kind::Check, [].as_slice()),
        (Kind::Pack, &[17]),
        (Kind::Start, &[12]),
        (Kind::Pass, &[12, 14, 15, 16, 20]),
        (Kind::Run, &[12, 13]),
        (Kind::Audit, &[12, 14, 15, 16, 20]),
        (Kind::Page, &[12, 14, 15, 16, 20, 18]),
        (Kind::TakeBack, &[12, 14, 15, 16, 20, 21, 22]),
    ] {
        for number in (0..=11).chain([19, 23]).chain(more.iter().copied()) {
            assert!(
                refusals.contains(&(kind.word(), number)),
                "{kind:?} {number}"
            );
        }
    }
    assert!(outcomes.iter().all(|&count| count >= 20), "{outcomes:?}");
    assert!(endings.iter().all(|&count| count >= 20), "{endings:?}");
    assert!(doubled > 0 && longest > 100, "{doubled} {longest}");
    assert!(dearest > i64::MAX as u64);
}

/// Every call on studies with closed nodes, every outcome and every ending.
#[test]
fn the_list_has_closed_nodes() {
    let mut player = Player::default();
    let mut accepted: HashSet<&str> = HashSet::new();
    let (mut outcomes, mut endings, mut longest) = ([0; 3], [0; 4], 0);
    for call in cases::all().drain(..WITHOUT_DESKS) {
        let reply = player.play(&Second, &call);
        let closed = Study::read(&player.file).is_ok_and(|study| study.closed != 0);
        if !closed {
            continue;
        }
        if reply.refusal() == 0 {
            accepted.insert(call.kind.word());
        }
        match reply {
            Reply::Pass(answer) => outcomes[usize::from(answer.outcome)] += 1,
            Reply::Run(answer) => {
                endings[usize::from(answer.ending)] += 1;
                longest = longest.max(answer.judged);
            }
            _ => {}
        }
    }
    assert_eq!(accepted.len(), WITH_ONE_STUDY);
    assert!(outcomes.iter().all(|&count| count >= 3), "{outcomes:?}");
    assert!(
        endings.iter().skip(1).all(|&count| count >= 3),
        "{endings:?}"
    );
    assert!(longest > 50, "{longest}");
}

/// A call that was made for links past the curve, the table before it, its
/// answer, and what it leaves.
struct Judged {
    call: Call,
    before: Vec<u32>,
    reply: Reply,
    after: Player,
}

/// All those calls, made without the calls before them.
fn made_for_over() -> Vec<Judged> {
    let mut player = player_with_note();
    let mut made = Vec::new();
    for call in cases::all().drain(WITHOUT_OVER..WITHOUT_POWERS) {
        let before = match &call.lent {
            Lent::Table(table) | Lent::Noted(Some(table), _) => table.clone(),
            _ => player.table.clone(),
        };
        let reply = player.play(&Second, &call);
        made.push(Judged {
            call,
            before,
            reply,
            after: player.clone(),
        });
    }
    made
}

/// The calls from this one on are answered alike with the calls before them and
/// without, but for the note that those leave.
fn stands_alone(calls: &[Call], place: usize) -> bool {
    let (before, after) = calls.split_at(place);
    let mut player = Player::default();
    for call in before {
        player.play(&Second, call);
    }
    let mut other = Player {
        note: player.note.clone(),
        ..Player::default()
    };
    after.iter().all(|call| {
        let replies = [&mut player, &mut other].map(|player| {
            let reply = player.play(&Second, call);
            reply.line(player.digest(call.kind))
        });
        replies[0] == replies[1]
    })
}

/// Those calls are answered alike with the calls before them and without.
#[test]
fn calls_for_over_stand_alone() {
    let calls = cases::all();
    let first = &calls[WITHOUT_OVER];
    assert!(first.file.is_some() && matches!(first.lent, Lent::Table(_)));
    assert!(stands_alone(&calls, WITHOUT_OVER));
}

/// Links past the curve in every outcome and with every ending, up to all of
/// them, and none in a refusal.
#[test]
fn the_list_has_links_past_the_curve() {
    let (mut outcomes, mut endings, mut audits, mut largest) = ([0; 3], [0; 4], 0, 0);
    for Judged { reply, .. } in made_for_over() {
        largest = largest.max(reply.over());
        let counts = usize::from(reply.over() > 0);
        match reply {
            Reply::Pass(answer) => outcomes[usize::from(answer.outcome)] += counts,
            Reply::Run(answer) => endings[usize::from(answer.ending)] += counts,
            _ => audits += counts,
        }
        assert!(counts == 0 || reply.refusal() == 0);
    }
    assert!(outcomes[1] >= 10 && outcomes[2] >= 2, "{outcomes:?}");
    assert!(endings[1..].iter().all(|&count| count >= 2), "{endings:?}");
    assert!(audits >= 30 && largest == 512, "{audits} {largest}");
}

/// How many links of a table are on step 256, by its totals.
fn over(study: &Study, table: &[u32], share: u32) -> u32 {
    let on_last_step = |link: &usize| {
        let rows = table[..study.table_length()].chunks_exact(study.links);
        let total = rows.map(|row| u64::from(row[*link])).sum();
        study.roads[*link].step(total, u64::from(share)) == LAST_STEP
    };
    (0..study.links).filter(on_last_step).count() as u32
}

/// Passes whose count tells the judged table from the table after the move, be
/// it with fewer links or with more, and the shares from each other; among them
/// passes that double.
#[test]
fn the_list_has_counts_that_a_pass_changes() {
    let (mut fewer, mut more, mut mixed, mut doubled) = (0, 0, [0; 2], [0; 2]);
    for judged in made_for_over() {
        let Reply::Pass(answer) = judged.reply else {
            continue;
        };
        let Ok(study) = Study::read(&judged.after.file) else {
            continue;
        };
        if answer.refusal != 0 {
            continue;
        }
        let (old, new) = (judged.call.share, answer.share);
        let (before, after) = (&judged.before, &judged.after.table);
        assert_eq!(answer.over, over(&study, before, old));
        fewer += usize::from(over(&study, after, new) < answer.over);
        more += usize::from(over(&study, after, new) > answer.over);
        let mixtures = [over(&study, after, old), over(&study, before, new)];
        let twice = *after == before.iter().map(|flow| 2 * flow).collect::<Vec<_>>();
        for place in 0..2 {
            let apart = usize::from(mixtures[place] != answer.over);
            mixed[place] += apart;
            doubled[place] += apart * usize::from(twice);
        }
    }
    assert!(fewer >= 5 && more >= 3, "{fewer} {more}");
    assert!(mixed.iter().all(|&count| count >= 5), "{mixed:?}");
    assert!(doubled.iter().all(|&count| count >= 2), "{doubled:?}");
}

/// Calls made for powers are answered alike with the calls before them and
/// without.
#[test]
fn calls_for_powers_stand_alone() {
    let calls = cases::all();
    let first = &calls[WITHOUT_POWERS];
    assert!(first.file.is_some() && matches!(first.lent, Lent::Table(_)));
    assert!(stands_alone(&calls, WITHOUT_POWERS));
}

/// An accepted file of version 3 with this power on every link.
fn with_power(file: &[u8], power: u8) -> Vec<u8> {
    let mut other = file.to_vec();
    let (offset, links) = (usize::from(u16_at(file, 8)), usize::from(u16_at(file, 4)));
    for link in 0..links {
        other[offset + 12 * link + 10] = power;
    }
    other
}

/// Every call on studies of version 3, with every refusal of a file, every
/// outcome and every ending, with closed nodes and with links past the curve.
#[test]
fn the_list_has_powers() {
    let mut player = player_with_note();
    let mut accepted: HashSet<&str> = HashSet::new();
    let mut refusals: HashSet<u8> = HashSet::new();
    let (mut outcomes, mut endings, mut closed, mut over) = ([0; 3], [0; 4], 0, 0);
    for call in &cases::all()[WITHOUT_POWERS..WITHOUT_DESKS] {
        let reply = player.play(&Second, call);
        if !player.file.starts_with(&[3, 0]) {
            continue;
        }
        refusals.insert(reply.refusal());
        over += usize::from(reply.over() > 0);
        if reply.refusal() == 0 {
            accepted.insert(call.kind.word());
            let study = Study::read(&player.file);
            closed += usize::from(study.is_ok_and(|study| study.closed != 0));
        }
        match reply {
            Reply::Pass(answer) => outcomes[usize::from(answer.outcome)] += 1,
            Reply::Run(answer) => endings[usize::from(answer.ending)] += 1,
            _ => {}
        }
    }
    assert_eq!(accepted.len(), WITH_ONE_STUDY);
    for number in [0, 1, 3, 4, 5, 6, 7, 8, 19, 9, 10, 11, 15, 16, 17, 18, 20] {
        assert!(refusals.contains(&number), "{number}");
    }
    assert!(outcomes.iter().all(|&count| count >= 5), "{outcomes:?}");
    assert!(endings.iter().all(|&count| count >= 5), "{endings:?}");
    assert!(closed >= 50 && over >= 50, "{closed} {over}");
}

/// For many of these calls the powers matter: with one power for all links,
/// whichever, the same call answers or leaves something else.
#[test]
fn the_list_tells_powers_apart() {
    let mut player = player_with_note();
    let mut apart = [0; 8];
    for call in &cases::all()[WITHOUT_POWERS..WITHOUT_DESKS] {
        let before = player.clone();
        let reply = player.play(&Second, call);
        if reply.refusal() != 0 || !player.file.starts_with(&[3, 0]) {
            continue;
        }
        let others = [1, 2, 3, 4].map(|power| {
            let mut other = before.clone();
            let file = Some(with_power(&player.file, power));
            let call = Call {
                file,
                ..call.clone()
            };
            let reply = other.play(&Second, &call);
            (reply, other.table, other.page, other.note)
        });
        let (table, page, note) = (&player.table, &player.page, &player.note);
        let own = (reply, table.clone(), page.clone(), note.clone());
        if others.iter().all(|other| *other != own) {
            let place = Kind::ALL.iter().position(|kind| *kind == call.kind);
            apart[place.expect("a kind of call")] += 1;
        }
    }
    // Kinds in their order: check, pack, start, pass, run, audit, page, take
    // back. Taking back has nothing to do with times.
    let least = [0, 0, 0, 40, 25, 50, 25, 0];
    assert!(
        apart
            .iter()
            .zip(least)
            .all(|(count, least)| *count >= least),
        "{apart:?}"
    );
}

/// A call that was made for taking back, with its file, table and note before
/// it, its answer, and what it leaves.
struct Noted {
    call: Call,
    before: Player,
    reply: Reply,
    after: Player,
}

/// All those calls, made without the calls before them.
fn made_for_taking_back() -> Vec<Noted> {
    let mut player = Player::default();
    let mut made = Vec::new();
    for call in cases::all().drain(WITHOUT_TAKING_BACK..WITHOUT_LORRIES) {
        let mut before = player.clone();
        let reply = player.play(&Second, &call);
        before.file.clone_from(&player.file);
        match &call.lent {
            Lent::Table(table) | Lent::Page(Some(table), _) => before.table.clone_from(table),
            Lent::Noted(table, note) => {
                before.table = table.clone().unwrap_or(before.table);
                before.note = note.clone().unwrap_or(before.note);
            }
            _ => {}
        }
        let after = player.clone();
        made.push(Noted {
            call,
            before,
            reply,
            after,
        });
    }
    made
}

/// The first of these calls is lent a file, a table and a note of its own.
fn starts_afresh(calls: &[Call]) -> bool {
    calls[0].file.is_some() && matches!(calls[0].lent, Lent::Noted(Some(_), Some(_)))
}

/// Those calls are answered alike with the calls before them and without, and
/// are few enough.
#[test]
fn calls_for_taking_back_stand_alone() {
    let calls = &cases::all()[..WITHOUT_LORRIES];
    let new = &calls[WITHOUT_TAKING_BACK..];
    assert!(starts_afresh(new));
    assert!(answers(&Second, calls).ends_with(&answers(&Second, new)));
    assert!((400..=700).contains(&new.len()));
    assert!(write_calls(new).len() < 600_000);
}

/// Passes leave the note where they do not move, and taking back always.
#[test]
fn the_list_has_notes_that_stay() {
    let (mut refused, mut finest, mut taken_back) = (0, 0, 0);
    for noted in made_for_taking_back() {
        let same = noted.before.note == noted.after.note;
        match noted.reply {
            Reply::Pass(answer) if answer.outcome != MOVED => {
                assert!(same);
                finest += usize::from(answer.outcome == FINEST);
                refused += usize::from(answer.refusal != 0);
            }
            Reply::TakeBack(answer) => {
                assert!(same);
                assert!(answer.refusal == 0 || noted.before.table == noted.after.table);
                taken_back += usize::from(answer.refusal == 0);
            }
            _ => {}
        }
    }
    assert!(refused >= 15 && finest >= 1, "{refused} {finest}");
    assert!(taken_back >= 200, "{taken_back}");
}

/// Moves by loadings and doublings, with longer notes and tables than they need,
/// in every version; and moves that are taken back by the next call but for
/// audits.
#[test]
fn the_list_has_moves_taken_back() {
    let mut moves: HashSet<(u16, bool)> = HashSet::new();
    let (mut longer, mut restored, mut steps) = ([0; 2], [0; 2], [u16::MAX, 0]);
    let mut last: Option<Noted> = None;
    for noted in made_for_taking_back() {
        let file = &noted.after.file;
        match noted.reply {
            Reply::Pass(answer) if answer.outcome == MOVED => {
                let Ok(study) = Study::read(file) else {
                    unreachable!("the study was moved");
                };
                let step = noted.after.note[0];
                moves.insert((u16_at(file, 0), step > 0));
                longer[0] += usize::from(noted.after.note.len() > study.note_length());
                longer[1] += usize::from(noted.after.table.len() > study.table_length());
                if step > 0 {
                    steps = [steps[0].min(step), steps[1].max(step)];
                }
                last = Some(noted);
            }
            Reply::TakeBack(answer) if answer.refusal == 0 => {
                if let Some(pass) = last.take()
                    && pass.after.file == *file
                    && pass.after.table == noted.before.table
                    && pass.after.note == noted.before.note
                {
                    assert_eq!(answer.share, pass.call.share);
                    assert!(noted.after.table == pass.before.table);
                    restored[usize::from(noted.after.note[0] > 0)] += 1;
                }
            }
            Reply::Audit(_) => {}
            _ => last = None,
        }
    }
    assert_eq!(moves.len(), 6, "{moves:?}");
    assert!(longer.iter().all(|&count| count >= 10), "{longer:?}");
    assert!(restored[0] >= 8 && restored[1] >= 30, "{restored:?}");
    assert_eq!(steps, [1, 64]);
}

/// Notes with next links to destinations without trips, in whole groups of
/// eight, and with nodes that have no path.
#[test]
fn the_list_has_destinations_without_trips() {
    let (mut idle, mut groups, mut pathless) = (0, 0, 0);
    for noted in made_for_taking_back() {
        let moved = matches!(noted.reply, Reply::Pass(answer) if answer.outcome == MOVED);
        let note = &noted.after.note;
        if !moved || note[0] == 0 {
            continue;
        }
        let Ok(study) = Study::read(&noted.after.file) else {
            unreachable!("the study was moved");
        };
        let rows = note[1..].chunks(study.nodes);
        let mut without_trips = 0;
        for ((_, trips), row) in study.rows().zip(rows) {
            without_trips += usize::from(trips.iter().all(|&count| count == 0));
            let none = row.iter().filter(|&&link| link == 65_535).count();
            pathless += usize::from((2..study.nodes).contains(&none));
        }
        idle += usize::from(without_trips > 0);
        groups += usize::from(without_trips >= 8);
    }
    assert!(idle >= 20 && groups >= 8, "{idle} {groups}");
    assert!(pathless >= 20, "{pathless}");
}

/// Refusals 12, 21 and 22 in every version, and 21 by closed nodes alone.
#[test]
fn the_list_has_notes_that_are_refused() {
    let mut refusals: HashSet<(u16, u8)> = HashSet::new();
    let mut forbidden = 0;
    for noted in made_for_taking_back() {
        let Reply::TakeBack(answer) = noted.reply else {
            continue;
        };
        let Ok(study) = Study::read(&noted.after.file) else {
            continue;
        };
        refusals.insert((u16_at(&noted.after.file, 0), answer.refusal));
        if answer.refusal == 21 && study.closed != 0 {
            // The same with all nodes open: the closed bytes stand at the end.
            let mut file = noted.after.file.clone();
            let end = file.len() - study.nodes;
            file[end..].fill(0);
            let mut player = noted.before.clone();
            let call = Call {
                file: Some(file),
                lent: Lent::Noted(None, None),
                ..noted.call
            };
            forbidden += usize::from(player.play(&Second, &call).refusal() != 21);
        }
    }
    for version in 1..=3 {
        for number in [0, 12, 21, 22] {
            assert!(refusals.contains(&(version, number)), "{version} {number}");
        }
    }
    assert!(forbidden >= 5, "{forbidden}");
}

/// Calls made for lorries are answered alike with the calls before them and
/// without, and are few enough.
#[test]
fn calls_for_lorries_stand_alone() {
    let calls = &cases::all()[..WITHOUT_DESKS];
    let new = &calls[WITHOUT_LORRIES..];
    assert!(starts_afresh(new));
    assert!(answers(&Second, calls).ends_with(&answers(&Second, new)));
    assert!((400..=1_500).contains(&new.len()));
    assert!(write_calls(new).len() < 800_000);
}

/// Every call on studies with lorries, with every refusal, every outcome and
/// every ending, with closed nodes, powers and links past the curve; and the
/// longest table and note that a study needs.
#[test]
fn the_list_has_lorries() {
    let mut player = Player::default();
    let mut accepted: HashSet<(&str, bool)> = HashSet::new();
    let mut refusals: HashSet<u8> = HashSet::new();
    let (mut outcomes, mut endings, mut over) = ([0; 3], [0; 4], 0);
    let (mut table, mut note) = (0, 0);
    for call in &cases::all()[WITHOUT_LORRIES..WITHOUT_DESKS] {
        let reply = player.play(&Second, call);
        if !player.file.starts_with(&[4, 0]) {
            continue;
        }
        refusals.insert(reply.refusal());
        over += usize::from(reply.over() > 0);
        if reply.refusal() == 0
            && let Ok(study) = Study::read(&player.file)
        {
            accepted.insert((call.kind.word(), study.has_barred_links()));
            table = table.max(study.table_length());
            note = note.max(study.note_length());
        }
        match reply {
            Reply::Pass(answer) => outcomes[usize::from(answer.outcome)] += 1,
            Reply::Run(answer) => endings[usize::from(answer.ending)] += 1,
            _ => {}
        }
    }
    assert_eq!(accepted.len(), 2 * WITH_ONE_STUDY);
    // Version 4 is never refused 2.
    let all: HashSet<u8> = (0..=23).filter(|&number| number != 2).collect();
    assert_eq!(refusals, all);
    assert!(outcomes.iter().all(|&count| count >= 3), "{outcomes:?}");
    assert!(endings.iter().all(|&count| count >= 10), "{endings:?}");
    assert!(over >= 100, "{over}");
    assert_eq!((table, note), (32_768, 8_193));
}

/// A file of version 4 with no link barred, and with the trips of the classes
/// exchanged.
fn with_other_classes(file: &[u8], sections: &Sections<'_>) -> [Vec<u8>; 2] {
    let offset = |section: usize| u32_at(file, 8 + 8 * section) as usize;
    let (mut unbarred, mut exchanged) = (file.to_vec(), file.to_vec());
    unbarred[offset(5)..][..sections.links].fill(0);
    for (section, part) in [(2, sections.lorry_part), (4, sections.trip_part)] {
        exchanged[offset(section)..][..part.len()].copy_from_slice(part);
    }
    [unbarred, exchanged]
}

/// For many of these calls it matters which links are barred and who makes which
/// trips: with the other files the same call answers or leaves something else.
#[test]
fn the_list_tells_classes_apart() {
    let mut player = Player::default();
    let mut apart = [[0; 8]; 2];
    for call in &cases::all()[WITHOUT_LORRIES..WITHOUT_DESKS] {
        let before = player.clone();
        let reply = player.play(&Second, call);
        let Ok(sections) = Sections::find(&player.file) else {
            continue;
        };
        if sections.layout.classes < 2 || call.kind == Kind::Pack {
            continue;
        }
        let files = with_other_classes(&player.file, &sections);
        for (apart, file) in apart.iter_mut().zip(files) {
            let mut other = before.clone();
            let file = Some(file);
            let call = Call {
                file,
                ..call.clone()
            };
            let other_reply = other.play(&Second, &call);
            other.file.clone_from(&player.file);
            apart[call.kind as usize - 1] += usize::from(other_reply != reply || other != player);
        }
    }
    // Kinds in their order: check, pack, start, pass, run, audit, page, take
    // back.
    for (apart, least) in apart.iter().zip([
        [20, 0, 10, 50, 50, 20, 15, 20],
        [1, 0, 10, 100, 40, 80, 30, 60],
    ]) {
        let mut counts = apart.iter().zip(least);
        assert!(counts.all(|(count, least)| *count >= least), "{apart:?}");
    }
}

/// Moves of both classes by loadings and doublings, that are taken back by the
/// next call.
#[test]
fn the_list_has_moves_of_lorries_taken_back() {
    let mut player = Player::default();
    let mut last: Option<(Player, u32)> = None;
    let (mut restored, mut both) = ([0; 2], 0);
    for call in &cases::all()[WITHOUT_LORRIES..WITHOUT_DESKS] {
        let mut before = player.clone();
        let reply = player.play(&Second, call);
        if let Lent::Noted(Some(table), _) = &call.lent {
            before.table.clone_from(table);
        }
        match reply {
            Reply::Pass(answer) if answer.outcome == MOVED => last = Some((before, call.share)),
            Reply::TakeBack(answer) if answer.refusal == 0 && call.file.is_none() => {
                if let Some((judged, share)) = last.take()
                    && matches!(call.lent, Lent::Noted(None, None))
                {
                    assert!(judged.table == player.table && answer.share == share);
                    restored[usize::from(player.note[0] > 0)] += 1;
                    let study = Study::read(&player.file);
                    both += usize::from(study.is_ok_and(|study| study.class_count == 2));
                }
            }
            _ => last = None,
        }
    }
    assert!(restored.iter().all(|&count| count >= 10), "{restored:?}");
    assert!(both >= 30, "{both}");
}

/// Calls made for desks are answered alike with the calls before them and
/// without, and are few enough.
#[test]
fn calls_for_desks_stand_alone() {
    let calls = cases::all();
    let new = &calls[WITHOUT_DESKS..];
    let Lent::Desks(first) = &new[0].lent else {
        unreachable!("the first of them is for desks");
    };
    let mut seats = first.seats.iter();
    assert!(seats.all(|seat| seat.file.is_some() && seat.table.is_some()));
    assert!(answers(&Second, &calls).ends_with(&answers(&Second, new)));
    assert!((250..=450).contains(&new.len()));
    assert!(write_calls(new).len() < 700_000);
}

/// A call that was made for desks, the seats before it, its answer, and what it
/// leaves.
struct Seated {
    lent: LentDesks,
    before: Player,
    answer: DesksAnswer,
    after: Player,
}

/// All those calls, but for those of other kinds among them.
fn made_for_desks() -> Vec<Seated> {
    let mut player = Player::default();
    let mut made = Vec::new();
    for call in cases::all().drain(WITHOUT_DESKS..) {
        let mut before = player.clone();
        let reply = player.play(&Second, &call);
        let (Lent::Desks(lent), Reply::Desks(answer)) = (call.lent, reply) else {
            continue;
        };
        for (seat, lent) in before.seats.iter_mut().zip(&lent.seats) {
            seat.file = lent.file.clone().unwrap_or(seat.file.clone());
            seat.table = lent.table.clone().unwrap_or(seat.table.clone());
        }
        made.push(Seated {
            lent: *lent,
            before,
            answer,
            after: player.clone(),
        });
    }
    made
}

/// Every number of desks, every refusal and ending in every version, allowances
/// that are used up and such that are not, and tables longer than needed.
#[test]
fn the_list_has_desks() {
    let mut refusals: HashSet<u8> = HashSet::new();
    let mut own_refusals: HashSet<u8> = HashSet::new();
    let mut endings: HashSet<(u16, u8)> = HashSet::new();
    let mut numbers: HashSet<(u32, bool)> = HashSet::new();
    let (mut without_turn, mut longer, mut over, mut longest) = (0, 0, 0, 0);
    for Seated {
        lent,
        answer,
        after,
        ..
    } in made_for_desks()
    {
        refusals.insert(answer.refusal);
        if answer.refusal != 0 {
            continue;
        }
        let waiting = answer.seats.iter().any(|own| own.ending == WAITING);
        numbers.insert((lent.desks, waiting));
        let desks = after.seats.iter().zip(&answer.seats);
        for (seat, own) in desks.take(lent.desks as usize) {
            own_refusals.insert(own.refusal);
            let Ok(study) = Study::read(&seat.file) else {
                continue;
            };
            endings.insert((u16_at(&seat.file, 0), own.ending));
            without_turn += usize::from(own.ending == WAITING && own.judged == 0);
            longer += usize::from(own.refusal == 0 && seat.table.len() > study.table_length());
            over += usize::from(own.over > 0);
            longest = longest.max(seat.table.len());
        }
    }
    assert_eq!(refusals, HashSet::from([0, 24, 25]));
    let all: HashSet<u8> = (0..=13).chain([19, 23]).collect();
    assert_eq!(own_refusals, all);
    assert_eq!(numbers.len(), 16, "{numbers:?}");
    assert_eq!(endings.len(), 20, "{endings:?}");
    assert!(without_turn >= 100 && longer >= 500 && over >= 100);
    assert!(longest > 32_768, "{longest}");
}

/// Seats without a desk are lent files that are refused and such that are not,
/// and keep their tables; so do all in a refusal.
#[test]
fn the_list_has_tables_that_stay() {
    let (mut good, mut bad, mut refused) = (0, 0, 0);
    for made in made_for_desks() {
        let first = match made.answer.refusal {
            0 => made.lent.desks as usize,
            _ => 0,
        };
        refused += usize::from(first == 0);
        let seats = made.before.seats.iter().zip(&made.after.seats);
        for (number, (before, after)) in seats.enumerate().skip(first) {
            assert_eq!(before, after);
            assert_eq!(made.answer.seats[number], RunAnswer::default());
            if first > 0 && !before.table.is_empty() {
                match Study::read(&before.file) {
                    Ok(_) => good += 1,
                    Err(_) => bad += 1,
                }
            }
        }
    }
    assert!(good >= 100 && bad >= 20 && refused >= 30, "{good} {bad}");
}

/// For many of these calls the order of the turns matters: with all turns of one
/// desk before those of the next, or from the last seat to the first, the
/// allowance would be shared out in another way.
#[test]
fn the_list_tells_turns_apart() {
    let (mut desk_by_desk, mut from_the_last) = (0, 0);
    for made in made_for_desks() {
        let desks = made.lent.desks as usize;
        if made.answer.refusal != 0 || made.answer.turns < made.lent.allowance {
            continue;
        }
        let lent = made.lent.seats.iter().zip(&made.before.seats).take(desks);
        let tables: Vec<u32> = lent
            .map(|(lent, seat)| {
                let mut table = seat.table.clone();
                run(&seat.file, &mut table, lent.budget, lent.excess).judged
            })
            .collect();
        let judged: Vec<u32> = made.answer.seats.iter().map(|own| own.judged).collect();
        let mut left = made.lent.allowance;
        let one_by_one = tables.iter().map(|&tables| {
            let own = tables.min(left);
            left -= own;
            own
        });
        desk_by_desk += usize::from(one_by_one.ne(judged[..desks].iter().copied()));
        // A round that is cut short leaves its last desks one turn behind.
        let unfinished: Vec<u32> = judged
            .iter()
            .zip(&tables)
            .filter(|(judged, tables)| judged < tables)
            .map(|(&judged, _)| judged)
            .collect();
        let first = unfinished.first();
        from_the_last += usize::from(unfinished.iter().any(|judged| Some(judged) != first));
    }
    assert!(desk_by_desk >= 80, "{desk_by_desk}");
    assert!(from_the_last >= 40, "{from_the_last}");
}
