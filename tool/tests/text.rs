//! `study from-text` and `study show`.

mod common;

use common::{
    Folder, LORRIES, LORRIES_FILE, POWERS, POWERS_FILE, TOWN, TOWN_FILE, ZONE, ZONE_FILE, with,
};

const COMMAND: [&str; 4] = ["from-text", "town.txt", "--out", "out"];

fn folder(name: &str, text: &str) -> Folder {
    let folder = Folder::new(&format!("text-{name}"));
    folder.put("town.txt", text);
    folder
}

#[track_caller]
fn bad(name: &str, from: &str, to: &str, message: &str) {
    let folder = folder(name, &with(TOWN, from, to));
    folder.fails(&COMMAND, &format!("town.txt: {message}"));
}

/// The town with a zone, and a fault.
#[track_caller]
fn bad_zone(name: &str, from: &str, to: &str, message: &str) {
    let folder = folder(&format!("zone-{name}"), &with(ZONE, from, to));
    folder.fails(&COMMAND, &format!("town.txt: {message}"));
}

/// The town with powers, and a fault.
#[track_caller]
fn bad_powers(name: &str, from: &str, to: &str, message: &str) {
    let folder = folder(&format!("powers-{name}"), &with(POWERS, from, to));
    folder.fails(&COMMAND, &format!("town.txt: {message}"));
}

/// The town with lorries, and a fault.
#[track_caller]
fn bad_lorries(name: &str, from: &str, to: &str, message: &str) {
    let folder = folder(&format!("lorries-{name}"), &with(LORRIES, from, to));
    folder.fails(&COMMAND, &format!("town.txt: {message}"));
}

/// The town with a change: from-text writes a file, check answers so, and
/// show prints the text again.
#[track_caller]
fn refused(name: &str, edits: &[(&str, &str)], answer: &str, culprit: &str) {
    refused_of(TOWN, name, edits, answer, culprit);
}

/// The same of any accepted text.
#[track_caller]
fn refused_of(town: &str, name: &str, edits: &[(&str, &str)], answer: &str, culprit: &str) {
    let text = edits
        .iter()
        .fold(town.to_owned(), |text, (from, to)| with(&text, from, to));
    let text = with(
        &text,
        "check: accepted\n",
        &format!("check: refused {answer}\n# {culprit}\n"),
    );
    let folder = folder(&format!("refused-{name}"), &text);
    let outcome = folder.study(&COMMAND);
    assert_eq!(outcome.stderr, "");
    let said = outcome.ok();
    assert!(
        said.ends_with(&format!("\ncheck: refused {answer}\n{culprit}\n")),
        "{said}"
    );
    assert_eq!(folder.study(&["show", "out"]).ok(), text);
}

#[test]
fn the_town_of_two_roads() {
    let folder = folder("town", TOWN);
    let outcome = folder.study(&COMMAND);
    assert_eq!(outcome.stderr, "");
    assert_eq!(
        outcome.ok(),
        "out: 58 bytes, 2 nodes, 2 links, 1 destination, 2 trips\ncheck: accepted\n"
    );
    assert_eq!(folder.bytes("out"), TOWN_FILE);
    assert_eq!(folder.study(&["show", "out"]).ok(), TOWN);
}

/// From text to this file and back; what from-text says of it.
#[track_caller]
fn goes_round(name: &str, text: &str, file: &[u8]) -> String {
    let folder = folder(name, text);
    let outcome = folder.study(&COMMAND);
    assert_eq!(outcome.stderr, "");
    assert_eq!(folder.bytes("out"), file);
    assert_eq!(folder.study(&["show", "out"]).ok(), text);
    outcome.ok()
}

#[test]
fn the_town_with_a_zone() {
    assert_eq!(
        goes_round("zone", ZONE, &ZONE_FILE),
        "out: 94 bytes, 4 nodes (1 closed), 4 links, 1 destination, 3 trips\ncheck: accepted\n"
    );
}

/// Version 2 without a closed node stays version 2.
#[test]
fn a_zone_that_is_open() {
    let mut file = ZONE_FILE;
    file[91] = 0;
    assert_eq!(
        goes_round("zone-open", &with(ZONE, "closed 1\n\n", ""), &file),
        "out: 94 bytes, 4 nodes, 4 links, 1 destination, 3 trips\ncheck: accepted\n"
    );
    let mut file = TOWN_FILE[..8].to_vec();
    file[0] = 2;
    file.extend([40, 0, 0, 0, 20, 0, 0, 0, 60, 0, 0, 0, 2, 0, 0, 0]);
    file.extend([62, 0, 0, 0, 4, 0, 0, 0, 66, 0, 0, 0, 2, 0, 0, 0]);
    file.extend(&TOWN_FILE[32..]);
    file.extend([0, 0]);
    goes_round("town-2", &with(TOWN, "study 1", "study 2"), &file);
}

#[test]
fn the_town_with_powers() {
    assert_eq!(
        goes_round("powers", POWERS, &POWERS_FILE),
        "out: 102 bytes, 4 nodes (1 closed), 4 links, 1 destination, 3 trips\ncheck: accepted\n"
    );
    // With all nodes open.
    let mut file = POWERS_FILE;
    file[99] = 0;
    goes_round("powers-open", &with(POWERS, "closed 1\n\n", ""), &file);
}

/// Version 3 with power 4 on every link stays version 3.
#[test]
fn powers_that_are_all_4() {
    let mut file = TOWN_FILE[..8].to_vec();
    file[0] = 3;
    file.extend([40, 0, 0, 0, 24, 0, 0, 0, 64, 0, 0, 0, 2, 0, 0, 0]);
    file.extend([66, 0, 0, 0, 4, 0, 0, 0, 70, 0, 0, 0, 2, 0, 0, 0]);
    for link in TOWN_FILE[32..52].chunks(10) {
        file.extend(link);
        file.extend([4, 0]);
    }
    file.extend(&TOWN_FILE[52..]);
    file.extend([0, 0]);
    let edits = [
        ("study 1", "study 3"),
        ("  capacity\n", "  capacity  power\n"),
        ("     10         2\n", "     10         2      4\n"),
        ("      0         1\n", "      0         1      4\n"),
    ];
    let text = edits
        .iter()
        .fold(TOWN.to_owned(), |text, (from, to)| with(&text, from, to));
    goes_round("town-3", &text, &file);
}

#[test]
fn the_town_with_lorries() {
    assert_eq!(
        goes_round("lorries", LORRIES, &LORRIES_FILE),
        "out: 143 bytes, 4 nodes (1 closed), 5 links (1 barred to lorries), 1 destination, \
         8 trips (5 lorry trips)\ncheck: accepted\n"
    );
    // With no link barred.
    let mut file = LORRIES_FILE;
    file[140] = 0;
    goes_round("lorries-free", &with(LORRIES, "barred 2\n\n", ""), &file);
    // With lorries alone.
    let text = with(LORRIES, "  from 0: 2\n  from 1: 1\n", "");
    let text = text.replace("8 trips (5", "5 trips (5");
    file = LORRIES_FILE;
    file[118..126].fill(0);
    goes_round("lorries-alone", &text, &file);
}

/// Version 4 without lorry trips and barred links stays version 4.
#[test]
fn lorries_that_make_no_trips() {
    let text = with(LORRIES, "  lorries from 0: 4\n  lorries from 3: 1\n", "");
    let text = text.replace("8 trips (5 lorry trips)", "3 trips");
    let mut file = LORRIES_FILE;
    file[130..138].fill(0);
    goes_round("lorries-none", &text, &file);
    file[140] = 0;
    let said = goes_round("lorries-nothing", &with(&text, "barred 2\n\n", ""), &file);
    assert_eq!(
        said,
        "out: 143 bytes, 4 nodes (1 closed), 5 links, 1 destination, 3 trips\ncheck: accepted\n"
    );
}

#[test]
fn forms_of_lorry_lines_that_make_no_difference() {
    let lines = "  from 0: 2\n  from 1: 1\n  lorries from 0: 4\n  lorries from 3: 1\n";
    for (name, from, to) in [
        ("byte", "barred 2", "barred 2:1"),
        ("zeros", "barred 2", "barred 0:0\t002:01   4:0 # narrow"),
        ("lines", "barred 2", "barred 3:0\n\n  barred 2\r"),
        (
            "order",
            lines,
            "lorries from 3: 1\nfrom 1: 1\nlorries from 0: 4\nfrom 0: 2\n",
        ),
        (
            "blanks",
            lines,
            "from 0:2\nlorries\t from  0 : 4\nlorries from 1:0\nlorries from 3:1\nfrom 1:1\n",
        ),
    ] {
        let folder = folder(&format!("lorries-form-{name}"), &with(LORRIES, from, to));
        folder.study(&COMMAND).ok();
        assert_eq!(folder.bytes("out"), LORRIES_FILE, "{name}");
        assert_eq!(folder.study(&["show", "out"]).ok(), LORRIES, "{name}");
    }
}

/// Lines of 16 nodes.
#[test]
fn many_closed_nodes() {
    let list = |nodes: std::ops::Range<u16>| {
        let nodes: Vec<String> = nodes.map(|node| node.to_string()).collect();
        format!("closed {}\n", nodes.join(" "))
    };
    let text = with(ZONE, "nodes 4", "nodes 35");
    let lines = [list(0..16), list(16..32), list(32..35)].concat();
    let text = with(&text, "closed 1\n", &lines);
    let text = with(
        &text,
        "  from 0: 2\n  from 1: 1\n",
        "  from 1: 1\n  from 3: 2\n",
    );
    let folder = folder("zone-many", &text);
    let said = folder.study(&COMMAND).ok();
    assert!(said.contains("35 nodes (35 closed), "), "{said}");
    let file = folder.bytes("out");
    assert_eq!(file[file.len() - 35..], [1; 35]);
    assert_eq!(folder.study(&["show", "out"]).ok(), text);
}

#[test]
fn forms_of_closed_lines_that_make_no_difference() {
    for (name, lines) in [
        ("bare", "closed 1"),
        ("byte", "closed 1:1"),
        ("zeros", "closed 0:0\t001:01   3:0 # the zone"),
        ("lines", "closed 2:0\n\n  closed 1\r"),
    ] {
        let folder = folder(&format!("zone-{name}"), &with(ZONE, "closed 1", lines));
        folder.study(&COMMAND).ok();
        assert_eq!(folder.bytes("out"), ZONE_FILE, "{name}");
        assert_eq!(folder.study(&["show", "out"]).ok(), ZONE, "{name}");
    }
}

#[test]
fn forms_of_text_that_make_no_difference() {
    let bare = "study 1\nnodes 2\nlinks 2\ndestinations 1\n\
                link 0 0 1 10 10 2\nlink 1 0 1 15 0 1\ndestination 1\nfrom 0: 2\n";
    let loose = "\u{feff}# a town\r\n\r\n  study  1 # version\r\nnodes\t2\r\nlinks 2\r\n\
                 destinations 1\r\n#link 0 9 9 9 9 9\r\nlink 0 0 1 10 010 2\r\n\r\n\
                 link 1 0 1 15 0 1#\r\n destination 1\r\nfrom 1 : 0\r\n\r\nfrom 0:2";
    for (name, text) in [("bare", bare), ("loose", loose)] {
        let folder = folder(name, text);
        folder.study(&COMMAND).ok();
        assert_eq!(folder.bytes("out"), TOWN_FILE, "{name}");
        assert_eq!(folder.study(&["show", "out"]).ok(), TOWN, "{name}");
    }
}

#[test]
fn lines_that_no_longer_hold_are_reported() {
    let folder = folder("stale", &with(TOWN, "from 0: 2", "from 0: 3\n  from 1: 1"));
    let outcome = folder.study(&COMMAND);
    assert_eq!(
        outcome.stderr,
        "town.txt: line 16: says `total: 2 trips`, but now it is `total: 4 trips`\n\
         town.txt: line 17: says `check: accepted`, but now it is \
         `check: refused 9: a destination has trips to itself`\n"
    );
    assert_eq!(
        outcome.ok(),
        "out: 58 bytes, 2 nodes, 2 links, 1 destination, 4 trips\n\
         check: refused 9: a destination has trips to itself\n\
         destination 1 has 1 trip to itself\n"
    );
}

// Studies that check refuses.

#[test]
fn refused_6() {
    let answer = "6: a link's tail or head is not a node, or both are the same node";
    refused(
        "6-head",
        &[(
            "link      1     0     1     15",
            "link      1     0     2     15",
        )],
        answer,
        "link 1: head 2, limit 0 to 1",
    );
    refused(
        "6-loop",
        &[(
            "link      1     0     1     15",
            "link      1     1     1     15",
        )],
        answer,
        "link 1: tail and head are both 1",
    );
}

const ANSWER_7: &str = "7: a link's free time is not 1 to 16,383, its rise not 0 to 16,383, its \
                        capacity is 0, or its power is not 1 to 4";

#[test]
fn refused_7() {
    let answer = ANSWER_7;
    refused(
        "7-free",
        &[("     15      0         1", "      0      0         1")],
        answer,
        "link 1: free time 0, limit 1 to 16,383",
    );
    refused(
        "7-rise",
        &[("     15      0         1", "     15  16384         1")],
        answer,
        "link 1: rise 16384, limit 0 to 16,383",
    );
    refused(
        "7-capacity",
        &[("     15      0         1", "     15      0         0")],
        answer,
        "link 1: capacity 0, limit 1 to 65,535",
    );
}

#[test]
fn refused_7_for_a_power() {
    for power in ["0", "5", "65535"] {
        refused_of(
            POWERS,
            &format!("7-power-{power}"),
            &[("1      2\n", &format!("1 {power:>6}\n"))],
            ANSWER_7,
            &format!("link 2: power {power}, limit 1 to 4"),
        );
    }
    // The first link at fault is named; of its figures, the first at fault.
    let edits = [("3      3\n", "3      0\n"), ("2      1\n", "0      9\n")];
    let culprit = "link 0: capacity 0, limit 1 to 65,535";
    refused_of(POWERS, "7-power-links", &edits, ANSWER_7, culprit);
    // Asked after 6, of whichever link, and before 8.
    refused_of(
        POWERS,
        "7-power-after-6",
        &[
            ("2      1\n", "2      0\n"),
            ("3     3     2", "3     2     2"),
        ],
        "6: a link's tail or head is not a node, or both are the same node",
        "link 3: tail and head are both 2",
    );
    refused_of(
        POWERS,
        "7-power-before-8",
        &[
            ("2      1\n", "2      0\n"),
            ("destination 2 ", "destination 4 "),
        ],
        ANSWER_7,
        "link 0: power 0, limit 1 to 4",
    );
}

#[test]
fn refused_8() {
    let answer = "8: a destination is not a node, or the destinations are not strictly ascending";
    refused(
        "8-node",
        &[("destination 1 ", "destination 65535 ")],
        answer,
        "destination 65535, limit 0 to 1",
    );
    refused(
        "8-order",
        &[
            ("destinations 1", "destinations 2"),
            ("total", "destination 1  # 0 trips\n\ntotal"),
        ],
        answer,
        "destination 1 comes after destination 1",
    );
}

#[test]
fn refused_9() {
    refused(
        "9",
        &[("from 0: 2", "from 1: 2")],
        "9: a destination has trips to itself",
        "destination 1 has 2 trips to itself",
    );
}

#[test]
fn refused_9_for_lorries() {
    let edit = ("  lorries from 3: 1", "  lorries from 2: 1");
    let answer = "9: a destination has trips to itself";
    refused_of(
        LORRIES,
        "9-lorries",
        &[edit],
        answer,
        "destination 2 has 1 lorry trip to itself",
    );
    // Cars come first.
    refused_of(
        LORRIES,
        "9-both",
        &[edit, ("  from 1: 1", "  from 2: 1")],
        answer,
        "destination 2 has 1 trip to itself",
    );
}

#[test]
fn refused_10() {
    refused(
        "10",
        &[
            ("destinations 1", "destinations 2"),
            (
                "destination 1  # 2 trips\n  from 0: 2",
                "destination 0  # 1 trip\n  from 1: 1\n\n\
                 destination 1  # 65,535 trips\n  from 0: 65535",
            ),
            ("total: 2 trips", "total: 65536 trips"),
        ],
        "10: the trips add up to more than 65,535",
        "65,536 trips, limit 65,535",
    );
}

/// The limit is one of both classes together.
#[test]
fn refused_10_for_the_sum() {
    let with_lorries = |lorries: u32| {
        [
            ("lorries from 0: 4", format!("lorries from 0: {lorries}")),
            (
                "destination 2  # 8 trips (5 lorry trips)",
                format!(
                    "destination 2  # 65,{} trips (65,{} lorry trips)",
                    lorries + 4 - 65_000,
                    lorries + 1 - 65_000
                ),
            ),
            (
                "total: 8 trips (5 lorry trips)",
                format!("total: {} trips ({} lorry trips)", lorries + 4, lorries + 1),
            ),
        ]
    };
    let edits = with_lorries(65_532);
    let edits = edits.each_ref().map(|(from, to)| (*from, to.as_str()));
    refused_of(
        LORRIES,
        "10-sum",
        &edits,
        "10: the trips add up to more than 65,535",
        "65,536 trips (65,533 lorry trips), limit 65,535",
    );
    let text = with_lorries(65_531)
        .iter()
        .fold(LORRIES.to_owned(), |text, (from, to)| with(&text, from, to));
    let mut file = LORRIES_FILE;
    file[130..132].copy_from_slice(&65_531u16.to_le_bytes());
    goes_round("lorries-10", &text, &file);
}

#[test]
fn refused_11() {
    refused(
        "11",
        &[
            ("destination 1 ", "destination 0 "),
            ("from 0: 2", "from 1: 2"),
        ],
        NO_PATH,
        "node 1 has 2 trips to destination 0 and no path to it",
    );
}

/// Refusal 11.
const NO_PATH: &str = "11: a node with trips to a destination has no path to it that leads through \
                       no closed node and, for lorry trips, over no barred link";

/// Links 0 and 1 of the town with a zone alone, which lead through the zone.
const THROUGH: [(&str, &str); 3] = [
    ("links 4", "links 2"),
    ("link      2     0     3     10      0         1\n", ""),
    ("link      3     3     2     10      0         1\n", ""),
];

#[test]
fn refused_11_because_a_zone_is_closed() {
    let culprit = "node 0 has 2 trips to destination 2 and no path to it but through closed nodes";
    refused_of(ZONE, "11-zone", &THROUGH, NO_PATH, culprit);
    // A second closed node plays no part, and neither do closed ends.
    let others = [&THROUGH[..], &[("closed 1", "closed 0 1 2 3")]].concat();
    refused_of(ZONE, "11-zones", &others, NO_PATH, culprit);

    // Open, it is accepted, in either version.
    let open = |name: &str, version: &str| {
        let edits = [&THROUGH[..], &[("closed 1\n\n", ""), ("study 2", version)]].concat();
        let text = edits
            .iter()
            .fold(ZONE.to_owned(), |text, (from, to)| with(&text, from, to));
        let folder = folder(name, &text);
        let said = folder.study(&COMMAND).ok();
        assert!(said.ends_with("check: accepted\n"), "{said}");
        assert_eq!(folder.study(&["show", "out"]).ok(), text);
    };
    open("open-2", "study 2");
    open("open-1", "study 1");
}

#[test]
fn refused_11_with_no_path_at_all() {
    refused_of(
        ZONE,
        "11-none",
        &[
            ("     3     2     10", "     2     3     10"),
            ("     1     2      5", "     2     1      5"),
        ],
        NO_PATH,
        "node 0 has 2 trips to destination 2 and no path to it",
    );
}

#[test]
fn refused_11_because_links_are_barred() {
    let lorries = "node 0 has 4 lorry trips to destination 2 and no path to it";
    let refused = |name: &str, edits: &[(&str, &str)], but: &str| {
        let culprit = format!("{lorries}{but}");
        refused_of(LORRIES, &format!("11-{name}"), edits, NO_PATH, &culprit);
    };
    let (closed, barred) = (" but through closed nodes", " but over barred links");
    let either = " but through closed nodes or over barred links";
    refused("barred", &[("barred 2", "barred 1 2 4")], barred);
    // The way through the zone is not barred.
    refused("either", &[("barred 2", "barred 2 4")], either);
    // Both ways of the lorries lead through closed nodes, and not the cars'.
    let zones = ("closed 1", "closed 1 3");
    let cars = ("  from 0: 2\n  from 1: 1\n", "  from 1: 1\n  from 3: 2\n");
    refused("closed", &[zones, cars], closed);
    // And all are barred as well.
    let all = ("barred 2", "barred 0 2 4");
    refused("both", &[zones, cars, all], either);
}

/// Cars may use barred links, and theirs come first.
#[test]
fn refused_11_of_cars_and_lorries() {
    let reversed = [
        ("     3     2     10", "     2     3     10"),
        ("     1     2      5", "     2     1      5"),
    ];
    refused_of(
        LORRIES,
        "11-cars-first",
        &reversed,
        NO_PATH,
        "node 0 has 2 trips to destination 2 and no path to it",
    );
    let lorries_alone = [
        ("  from 0: 2\n  from 1: 1\n", ""),
        ("destination 2  # 8 trips", "destination 2  # 5 trips"),
        ("total: 8 trips", "total: 5 trips"),
    ];
    refused_of(
        LORRIES,
        "11-no-links",
        &[&reversed[..], &lorries_alone].concat(),
        NO_PATH,
        "node 0 has 4 lorry trips to destination 2 and no path to it",
    );
}

#[test]
fn refused_19() {
    let answer = "19: a node's closed byte is neither 0 nor 1";
    refused_of(
        ZONE,
        "19",
        &[("closed 1", "closed 1:2")],
        answer,
        "node 1: closed byte 2, limit 0 to 1",
    );
    refused_of(
        ZONE,
        "19-last",
        &[("closed 1", "closed 0 1 3:255")],
        answer,
        "node 3: closed byte 255, limit 0 to 1",
    );
    // Asked before 9, and after 8.
    let edits = [("closed 1", "closed 1:2"), ("  from 1: 1", "  from 2: 1")];
    let culprit = "node 1: closed byte 2, limit 0 to 1";
    refused_of(ZONE, "19-before-9", &edits, answer, culprit);
    refused_of(
        ZONE,
        "19-after-8",
        &[
            ("closed 1", "closed 1:2"),
            ("destination 2", "destination 4"),
        ],
        "8: a destination is not a node, or the destinations are not strictly ascending",
        "destination 4, limit 0 to 3",
    );
}

#[test]
fn refused_23() {
    let answer = "23: a link's barred byte is neither 0 nor 1";
    let refused = |name: &str, edits: &[(&str, &str)], answer: &str, culprit: &str| {
        refused_of(LORRIES, &format!("23-{name}"), edits, answer, culprit);
    };
    let wrong = ("barred 2", "barred 1:2");
    let culprit = "link 1: barred byte 2, limit 0 to 1";
    refused("byte", &[wrong], answer, culprit);
    refused(
        "last",
        &[("barred 2", "barred 0 2 4:255")],
        answer,
        "link 4: barred byte 255, limit 0 to 1",
    );
    // Asked before 9, and after 19.
    let own = ("  lorries from 3: 1", "  lorries from 2: 1");
    refused("before-9", &[wrong, own], answer, culprit);
    refused(
        "after-19",
        &[wrong, ("closed 1", "closed 1:2")],
        "19: a node's closed byte is neither 0 nor 1",
        "node 1: closed byte 2, limit 0 to 1",
    );
}

// Bad texts.

#[test]
fn wrong_field_count() {
    let fields = "must be 6: number, tail, head, free time, rise, capacity";
    bad(
        "fields-5",
        "     10         2",
        "     10",
        &format!("line 9: 5 fields after `link`, {fields}"),
    );
    bad(
        "fields-7",
        "     10         2",
        "     10         2  4",
        &format!("line 9: 7 fields after `link`, {fields}"),
    );
    bad(
        "fields-from",
        "from 0: 2",
        "from 0 2",
        "line 13: `from 0 2`, must be `from NODE: TRIPS`",
    );
    bad(
        "fields-destination",
        "destination 1 ",
        "destination 1 2 ",
        "line 12: destination `1 2` is not a whole number, limit 0 to 65,535",
    );
}

/// Powers belong to version 3, and there to every link.
#[test]
fn powers_at_fault() {
    let seven = "must be 7: number, tail, head, free time, rise, capacity, power";
    bad_powers(
        "missing",
        "1      2\n",
        "1\n",
        &format!("line 13: 6 fields after `link`, {seven}"),
    );
    bad_powers(
        "twice",
        "1      2\n",
        "1      2      2\n",
        &format!("line 13: 8 fields after `link`, {seven}"),
    );
    bad_powers(
        "version",
        "study 3",
        "study 2",
        "line 11: 7 fields after `link`, must be 6: number, tail, head, free time, rise, capacity",
    );
    for (name, power, message) in [
        ("u16", "65536", "65536, limit 0 to 65,535"),
        (
            "point",
            "2.0",
            "`2.0` is not a whole number, limit 0 to 65,535",
        ),
        (
            "minus",
            "-1",
            "`-1` is not a whole number, limit 0 to 65,535",
        ),
        (
            "word",
            "four",
            "`four` is not a whole number, limit 0 to 65,535",
        ),
    ] {
        bad_powers(
            name,
            "1      2\n",
            &format!("1 {power}\n"),
            &format!("line 13: link power {message}"),
        );
    }
}

#[test]
fn number_of_more_than_16_bits() {
    bad(
        "u16-capacity",
        "     10         2",
        "     10     65536",
        "line 9: link capacity 65536, limit 0 to 65,535",
    );
    bad(
        "u16-trips",
        "from 0: 2",
        "from 0: 70000",
        "line 13: trips 70000, limit 0 to 65,535",
    );
    bad(
        "u16-destination",
        "destination 1 ",
        "destination 99999999999999999999 ",
        "line 12: destination 99999999999999999999, limit 0 to 65,535",
    );
}

#[test]
fn not_a_whole_number() {
    bad(
        "negative",
        "     10         2",
        "     10        -2",
        "line 9: link capacity `-2` is not a whole number, limit 0 to 65,535",
    );
    bad(
        "decimal",
        "from 0: 2",
        "from 0: 2.5",
        "line 13: trips `2.5` is not a whole number, limit 0 to 65,535",
    );
    bad(
        "plus",
        "from 0: 2",
        "from 0: +2",
        "line 13: trips `+2` is not a whole number, limit 0 to 65,535",
    );
    bad(
        "nothing",
        "nodes 2",
        "nodes",
        "line 4: nodes `` is not a whole number, limit 2 to 128",
    );
}

#[test]
fn counts_out_of_range() {
    for version in [0, 5] {
        bad(
            &format!("version-{version}"),
            "study 1",
            &format!("study {version}"),
            &format!("line 3: study {version}, limit 1 to 4"),
        );
    }
    bad(
        "nodes",
        "nodes 2",
        "nodes 129",
        "line 4: nodes 129, limit 2 to 128",
    );
    bad(
        "links",
        "links 2",
        "links 0",
        "line 5: links 0, limit 1 to 512",
    );
    bad(
        "destinations",
        "destinations 1",
        "destinations 3",
        "line 6: destinations 3, limit 1 to 2",
    );
}

#[test]
fn counts_that_disagree_with_the_lines() {
    bad(
        "links-few",
        "links 2",
        "links 3",
        "line 12: found `destination 1` where link 2 of 3 (they count from 0) is due",
    );
    bad(
        "links-many",
        "links 2",
        "links 1",
        "line 10: a link beyond the header's `links 1`",
    );
    bad(
        "destinations-few",
        "destinations 1",
        "destinations 2",
        "line 15: found `total: 2 trips` where the line `destination` number 2 of 2 is due",
    );
    bad(
        "destinations-many",
        "total",
        "destination 1\ntotal",
        "line 15: a destination beyond the header's `destinations 1`",
    );
    bad(
        "link-order",
        "link      1 ",
        "link      2 ",
        "line 10: link number 2, must be 1: links stand in order",
    );
}

#[test]
fn lines_out_of_place() {
    bad(
        "header",
        "nodes 2\nlinks 2\n",
        "links 2\nnodes 2\n",
        "line 4: found `links 2` where the line `nodes` of the header is due",
    );
    bad(
        "word",
        "total",
        "totals 5\ntotal",
        "line 15: found `totals 5` where `from`, `total:`, `check:` or the end is due",
    );
    bad(
        "from-node",
        "from 0: 2",
        "from 2: 2",
        "line 13: from node 2, limit 0 to 1",
    );
    bad(
        "from-twice",
        "from 0: 2",
        "from 0: 2\n  from 0: 2",
        "line 14: a second line `from 0` for destination 1",
    );
    let folder = folder("cut", "study 1\nnodes 2\n\n# no more\n");
    folder.fails(
        &COMMAND,
        "town.txt: line 4: the text ends where the line `links` of the header is due",
    );
}

#[test]
fn closed_lines_at_fault() {
    bad_zone(
        "version",
        "study 2",
        "study 1",
        "line 8: closed nodes in a study of version 1, must be 2 or later",
    );
    bad_zone(
        "node",
        "closed 1",
        "closed 1 4",
        "line 8: closed node 4, limit 0 to 3",
    );
    bad_zone(
        "word",
        "closed 1",
        "closed one",
        "line 8: closed node `one` is not a whole number, limit 0 to 3",
    );
    bad_zone(
        "comma",
        "closed 1",
        "closed 1, 2",
        "line 8: closed node `1,` is not a whole number, limit 0 to 3",
    );
    bad_zone(
        "blank",
        "closed 1",
        "closed 1: 1",
        "line 8: closed byte `` is not a whole number, limit 0 to 255",
    );
    bad_zone(
        "byte",
        "closed 1",
        "closed 1:256",
        "line 8: closed byte 256, limit 0 to 255",
    );
    bad_zone(
        "twice",
        "closed 1",
        "closed 1\nclosed 0 1:0",
        "line 9: closed node 1 for the second time",
    );
    bad_zone(
        "empty",
        "closed 1",
        "closed",
        "line 8: `closed`, must be `closed NODE NODE ...`",
    );
    bad_zone(
        "place",
        "closed 1\n\n",
        "link 0 0 1 5 20 2\nclosed 1\n",
        "line 9: found `closed 1` where link 1 of 4 (they count from 0) is due",
    );
    bad_zone(
        "end",
        "total",
        "closed 1\ntotal",
        "line 20: found `closed 1` where `from`, `total:`, `check:` or the end is due",
    );
}

#[test]
fn barred_lines_at_fault() {
    bad_lorries(
        "link",
        "barred 2",
        "barred 2 5",
        "line 11: barred link 5, limit 0 to 4",
    );
    bad_lorries(
        "word",
        "barred 2",
        "barred 0-1",
        "line 11: barred link `0-1` is not a whole number, limit 0 to 4",
    );
    bad_lorries(
        "byte",
        "barred 2",
        "barred 2:256",
        "line 11: barred byte 256, limit 0 to 255",
    );
    bad_lorries(
        "twice",
        "barred 2",
        "barred 2\nbarred 0 2",
        "line 12: barred link 2 for the second time",
    );
    bad_lorries(
        "empty",
        "barred 2",
        "barred",
        "line 11: `barred`, must be `barred LINK LINK ...`",
    );
    bad_lorries(
        "before-closed",
        "closed 1\n\nbarred 2\n",
        "barred 2\nclosed 1\n",
        "line 10: found `closed 1` where link 0 of 5 (they count from 0) is due",
    );
    bad_powers(
        "barred",
        "closed 1\n",
        "closed 1\nbarred 2\n",
        "line 9: barred links in a study of version 3, must be 4 or later",
    );
}

#[test]
fn lorry_lines_at_fault() {
    bad_powers(
        "lorries",
        "  from 0: 2\n",
        "  from 0: 2\n  lorries from 0: 1\n",
        "line 18: lorry trips in a study of version 3, must be 4 or later",
    );
    bad_lorries(
        "colon",
        "lorries from 0: 4",
        "lorries from 0 4",
        "line 23: `lorries from 0 4`, must be `lorries from NODE: TRIPS`",
    );
    bad_lorries(
        "node",
        "lorries from 0: 4",
        "lorries from 4: 4",
        "line 23: lorries from node 4, limit 0 to 3",
    );
    bad_lorries(
        "trips",
        "lorries from 0: 4",
        "lorries from 0: 65536",
        "line 23: lorry trips 65536, limit 0 to 65,535",
    );
    bad_lorries(
        "second",
        "lorries from 3: 1",
        "lorries from 0: 1",
        "line 24: a second line `lorries from 0` for destination 2",
    );
    for (name, line) in [("to", "lorries to 0: 4"), ("lorry", "lorry from 0: 4")] {
        bad_lorries(
            name,
            "lorries from 0: 4",
            line,
            &format!(
                "line 23: found `{line}` where `from`, `lorries from`, `total:`, `check:` or the \
                 end is due"
            ),
        );
    }
}

#[test]
fn lorry_totals_that_no_longer_hold_are_reported() {
    let text = with(LORRIES, "lorries from 0: 4", "lorries from 0: 6");
    let outcome = folder("lorries-stale", &text).study(&COMMAND);
    assert_eq!(
        outcome.stderr,
        "town.txt: line 26: says `total: 8 trips (5 lorry trips)`, but now it is \
         `total: 10 trips (7 lorry trips)`\n"
    );
    outcome.ok();
}

#[test]
fn not_text() {
    let folder = Folder::new("text-binary");
    folder.put("town.txt", b"study 1\nnodes \xff\n");
    folder.fails(&COMMAND, "town.txt: line 2: not a text file (not UTF-8)");
}

// Files that questions 1 to 5 refuse.

/// Show says this of a file and nothing else.
#[track_caller]
fn shows_only(name: &str, file: &[u8], shown: &str) {
    let folder = Folder::new(&format!("show-{name}"));
    folder.put("file", file);
    let outcome = folder.study(&["show", "file"]);
    assert_eq!(outcome.stdout, shown);
    assert_eq!(outcome.stderr, "");
    assert_eq!(outcome.status, 1);
}

fn edited(file: &[u8], place: usize, bytes: &[u8]) -> Vec<u8> {
    let mut file = file.to_vec();
    file[place..place + bytes.len()].copy_from_slice(bytes);
    file
}

fn town_with(place: usize, bytes: &[u8]) -> Vec<u8> {
    edited(&TOWN_FILE, place, bytes)
}

fn zone_with(place: usize, bytes: &[u8]) -> Vec<u8> {
    edited(&ZONE_FILE, place, bytes)
}

fn powers_with(place: usize, bytes: &[u8]) -> Vec<u8> {
    edited(&POWERS_FILE, place, bytes)
}

fn lorries_with(place: usize, bytes: &[u8]) -> Vec<u8> {
    edited(&LORRIES_FILE, place, bytes)
}

#[test]
fn refused_1() {
    let answer = "check: refused 1: the file is not 32 to 65,536 bytes long\n";
    shows_only(
        "1-short",
        &TOWN_FILE[..31],
        &format!("{answer}found: 31 bytes, limit 32 to 65,536\n"),
    );
    shows_only(
        "1-empty",
        &[],
        &format!("{answer}found: 0 bytes, limit 32 to 65,536\n"),
    );
    shows_only(
        "1-long",
        &[0; 65_537],
        &format!("{answer}found: 65,537 bytes, limit 32 to 65,536\n"),
    );
}

#[test]
fn refused_2() {
    for version in [0, 5] {
        shows_only(
            &format!("2-{version}"),
            &town_with(0, &[version]),
            &format!(
                "check: refused 2: the version is not 1, 2, 3 or 4\n\
                 found: version {version}, limit 1 to 4\n"
            ),
        );
    }
}

#[test]
fn refused_3() {
    let answer = "check: refused 3: nodes are not 2 to 128, links not 1 to 512, destinations not \
                  1 to 32, or there are more destinations than nodes\n";
    shows_only(
        "3-nodes",
        &town_with(2, &[0, 2, 0, 0]),
        &format!("{answer}found: nodes 512, limit 2 to 128; links 0, limit 1 to 512\n"),
    );
    shows_only(
        "3-more",
        &town_with(6, &[3]),
        &format!("{answer}found: destinations 3, more than nodes 2\n"),
    );
}

const ANSWER_4: &str = "check: refused 4: a section begins inside the header, runs into the next \
                        one or past the end of the file, or the file is shorter than its version's \
                        header (32 bytes, 40 in versions 2 and 3, 56 in version 4)\n";

#[test]
fn refused_4_in_version_2() {
    let answer = ANSWER_4;
    shows_only(
        "4-39",
        &ZONE_FILE[..39],
        &format!("{answer}found: 39 bytes, but the header of version 2 has 40\n"),
    );
    shows_only(
        "4-32",
        &ZONE_FILE[..32],
        &format!("{answer}found: 32 bytes, but the header of version 2 has 40\n"),
    );
    shows_only(
        "4-links",
        &zone_with(8, &[39]),
        &format!("{answer}found: links begin at byte 39, must be 40 or later\n"),
    );
    shows_only(
        "4-closed",
        &zone_with(32, &[89]),
        &format!(
            "{answer}found: trips begin at byte 82 and have 8 bytes, so they end at 90, \
             limit 89, where closed bytes begin\n"
        ),
    );
    shows_only(
        "4-closed-end",
        &ZONE_FILE[..93],
        &format!(
            "{answer}found: closed bytes begin at byte 90 and have 4 bytes, so they end at 94, \
             limit 93, the end of the file\n"
        ),
    );
    // The town of two roads has no place for a fourth pair.
    let shown = "found: links begin at byte 32, must be 40 or later";
    let folder = Folder::new("show-4-town");
    folder.put("file", town_with(0, &[2]));
    let outcome = folder.study(&["show", "file"]);
    assert!(outcome.stdout.starts_with(&format!("{answer}{shown}")));
}

#[test]
fn refused_4_in_version_3() {
    let answer = ANSWER_4;
    shows_only(
        "4-powers-39",
        &POWERS_FILE[..39],
        &format!("{answer}found: 39 bytes, but the header of version 3 has 40\n"),
    );
    shows_only(
        "4-powers-links",
        &powers_with(8, &[39]),
        &format!("{answer}found: links begin at byte 39, must be 40 or later\n"),
    );
    shows_only(
        "4-powers-end",
        &POWERS_FILE[..101],
        &format!(
            "{answer}found: closed bytes begin at byte 98 and have 4 bytes, so they end at 102, \
             limit 101, the end of the file\n"
        ),
    );
}

#[test]
fn refused_4_in_version_4() {
    let answer = ANSWER_4;
    for bytes in [32, 40, 55] {
        shows_only(
            &format!("4-lorries-{bytes}"),
            &LORRIES_FILE[..bytes],
            &format!("{answer}found: {bytes} bytes, but the header of version 4 has 56\n"),
        );
    }
    shows_only(
        "4-lorries-links",
        &lorries_with(8, &[55]),
        &format!("{answer}found: links begin at byte 55, must be 56 or later\n"),
    );
    shows_only(
        "4-lorries-trips",
        &lorries_with(40, &[129]),
        &format!(
            "{answer}found: closed bytes begin at byte 126 and have 4 bytes, so they end at 130, \
             limit 129, where lorry trips begin\n"
        ),
    );
    shows_only(
        "4-lorries-barred",
        &lorries_with(48, &[137]),
        &format!(
            "{answer}found: lorry trips begin at byte 130 and have 8 bytes, so they end at 138, \
             limit 137, where barred bytes begin\n"
        ),
    );
    shows_only(
        "4-lorries-end",
        &LORRIES_FILE[..142],
        &format!(
            "{answer}found: barred bytes begin at byte 138 and have 5 bytes, so they end at 143, \
             limit 142, the end of the file\n"
        ),
    );
}

#[test]
fn refused_4() {
    let answer = ANSWER_4;
    shows_only(
        "4-header",
        &town_with(8, &[31]),
        &format!("{answer}found: links begin at byte 31, must be 32 or later\n"),
    );
    shows_only(
        "4-next",
        &town_with(16, &[51]),
        &format!(
            "{answer}found: links begin at byte 32 and have 20 bytes, so they end at 52, \
             limit 51, where destinations begin\n"
        ),
    );
    shows_only(
        "4-end",
        &TOWN_FILE[..57],
        &format!(
            "{answer}found: trips begin at byte 54 and have 4 bytes, so they end at 58, \
             limit 57, the end of the file\n"
        ),
    );
    shows_only(
        "4-far",
        &town_with(24, &[255; 8]),
        &format!(
            "{answer}found: trips begin at byte 4,294,967,295 and have 4,294,967,295 bytes, \
             so they end at 8,589,934,590, limit 58, the end of the file\n"
        ),
    );
}

#[test]
fn refused_5() {
    let answer = "check: refused 5: the length of a section does not fit the counts: 10 bytes a \
                  link (12 from version 3 on), 2 a destination, 2 for each destination and node, \
                  from version 2 on 1 a node and, in version 4, again 2 for each destination and \
                  node, and 1 a link\n";
    for (name, file, found) in [
        (
            "5",
            town_with(28, &[2]),
            "trips have 2 bytes, must have 4 = 2 × 1 destination × 2 nodes",
        ),
        (
            "5-closed",
            zone_with(36, &[3]),
            "closed bytes have 3 bytes, must have 4 = 1 × 4 nodes",
        ),
        // Links of each version in the other one.
        (
            "5-links",
            zone_with(0, &[3]),
            "links have 40 bytes, must have 48 = 12 × 4 links",
        ),
        (
            "5-powers",
            powers_with(0, &[2]),
            "links have 48 bytes, must have 40 = 10 × 4 links",
        ),
        (
            "5-powers-closed",
            powers_with(36, &[3]),
            "closed bytes have 3 bytes, must have 4 = 1 × 4 nodes",
        ),
        (
            "5-lorries-trips",
            lorries_with(44, &[7]),
            "lorry trips have 7 bytes, must have 8 = 2 × 1 destination × 4 nodes",
        ),
        (
            "5-lorries-barred",
            lorries_with(52, &[4]),
            "barred bytes have 4 bytes, must have 5 = 1 × 5 links",
        ),
    ] {
        shows_only(name, &file, &format!("{answer}found: {found}\n"));
    }
}

#[test]
fn missing_file() {
    let folder = Folder::new("show-missing");
    let outcome = folder.study(&["show", "file"]);
    assert_eq!(outcome.status, 1);
    assert_eq!(outcome.stdout, "");
    assert!(
        outcome.stderr.starts_with("study: file: cannot be read: "),
        "{}",
        outcome.stderr
    );
}

#[test]
fn gaps_are_left_out() {
    // Three bytes after the header, one after each section.
    let mut file = TOWN_FILE[..32].to_vec();
    for (place, offset) in [(8, 35), (16, 56), (24, 59)] {
        file[place] = offset;
    }
    file.extend([7, 7, 7]);
    file.extend(&TOWN_FILE[32..52]);
    file.push(7);
    file.extend(&TOWN_FILE[52..54]);
    file.push(7);
    file.extend(&TOWN_FILE[54..]);
    file.push(7);

    shown_and_packed("gaps", &file, TOWN, &TOWN_FILE);

    // A byte more before the closed bytes of the zone, and one at the end.
    let mut file = zone_with(32, &[91]);
    file.insert(90, 7);
    file.push(7);
    shown_and_packed("zone-gaps", &file, ZONE, &ZONE_FILE);

    // A byte more after the links with powers, and one at the end.
    let mut file = POWERS_FILE.to_vec();
    for place in [16, 24, 32] {
        file[place] += 1;
    }
    file.insert(88, 7);
    file.push(7);
    shown_and_packed("powers-gaps", &file, POWERS, &POWERS_FILE);

    // A byte more before the barred bytes, and one at the end.
    let mut file = lorries_with(48, &[139]);
    file.insert(138, 7);
    file.push(7);
    shown_and_packed("lorries-gaps", &file, LORRIES, &LORRIES_FILE);
}

/// Show prints this text of a file, and from-text makes the packed file of it.
#[track_caller]
fn shown_and_packed(name: &str, file: &[u8], text: &str, packed: &[u8]) {
    let folder = Folder::new(&format!("show-{name}"));
    folder.put("file", file);
    let shown = folder.study(&["show", "file"]).ok();
    assert_eq!(shown, text);
    folder.put("town.txt", shown);
    folder.study(&COMMAND).ok();
    assert_eq!(folder.bytes("out"), packed);
}
