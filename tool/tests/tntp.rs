//! `study from-tntp`.

mod common;

use common::{Folder, with};
use std::fs;
use std::path::Path;
use study_tool::format::{Class, Link, Study};

/// A triangle with the first link on line 7.
const NET: &str = "\
<NUMBER OF ZONES> 3
<NUMBER OF NODES> 3
<FIRST THRU NODE> 1
<NUMBER OF LINKS> 3
<END OF METADATA>
~\tinit\tterm\tcapacity\tlength\tfree\tb\tpower\tspeed\ttoll\ttype\t;
\t1\t2\t120\t6\t6\t0.15\t4\t0\t0\t1\t;
\t2\t3\t80.5\t4\t4\t0.25\t4\t0\t0\t1\t;
\t3\t1\t60\t5\t5\t0\t1\t0\t0\t1\t;
";

/// Trips in the triangle, the first ones on line 6.
const TRIPS: &str = "\
<NUMBER OF ZONES> 3
<TOTAL OD FLOW> 35.5
<END OF METADATA>

Origin 1
    1 :    0.0;     2 :   10.0;     3 :   20.0;
Origin 3
    1 :    5.5;
";

const COMMAND: [&str; 5] = ["from-tntp", "net.tntp", "trips.tntp", "--out", "out"];

fn folder(name: &str, net: &str, trips: &str) -> Folder {
    let folder = Folder::new(&format!("tntp-{name}"));
    folder.put("net.tntp", net);
    folder.put("trips.tntp", trips);
    folder
}

fn bad_net(name: &str, from: &str, to: &str, message: &str) {
    let folder = folder(name, &with(NET, from, to), TRIPS);
    folder.fails(&COMMAND, &format!("net.tntp: {message}"));
}

fn bad_trips(name: &str, from: &str, to: &str, message: &str) {
    let folder = folder(name, NET, &with(TRIPS, from, to));
    folder.fails(&COMMAND, &format!("trips.tntp: {message}"));
}

/// A file of the test data.
fn data(name: &str) -> String {
    let data = Path::new(env!("CARGO_MANIFEST_DIR")).join("tests/data");
    fs::read_to_string(data.join(name)).expect(name)
}

#[test]
fn sioux_falls() {
    let folder = folder(
        "sioux-falls",
        &data("SiouxFalls_net.tntp"),
        &data("SiouxFalls_trips.tntp"),
    );
    let outcome = folder.study(&[&COMMAND[..], &["--vehicles-per-trip", "10"]].concat());
    assert_eq!(outcome.status, 0, "{outcome:?}");
    assert_eq!(
        outcome.stdout,
        "out: 1,992 bytes, 24 nodes, 76 links, 24 destinations, 36,060 trips\n\
         check: accepted\n"
    );
    assert_eq!(
        outcome.stderr,
        "rounded to the nearest whole number, halves up:\n  \
         free times: 0 of 76\n  \
         rises: 0 of 76\n  \
         capacities: 70 of 76, by 0.4917717 trips at most \
         (net.tntp: line 37: capacity 4854.917717 became 485)\n  \
         trips: 0 of 576\n"
    );

    let file = folder.bytes("out");
    assert_eq!(second::check(&file), 0);
    let study = Study::read(&file).expect("a study");
    assert_eq!(study.packed(), file);
    assert_eq!(study.nodes, 24);
    assert_eq!(study.links.len(), 76);
    assert_eq!(study.total(), 36_060);
    let first = Link {
        tail: 0,
        head: 1,
        free: 600,
        rise: 90,
        capacity: 2_590,
        power: 4,
    };
    let last = Link {
        tail: 23,
        head: 22,
        free: 200,
        rise: 30,
        capacity: 508,
        power: 4,
    };
    assert_eq!((study.links[0], study.links[75]), (first, last));
    assert!(
        (0..24).eq(study
            .destinations
            .iter()
            .map(|destination| destination.node))
    );
    // Origin 1 sends 1,300 vehicles to node 10, origin 24 sends 1,100 to node 22.
    assert_eq!(study.destinations[9].trips[0], 130);
    assert_eq!(study.destinations[21].trips[23], 110);

    let shown = folder.study(&["show", "out"]).ok();
    folder.put("text", &shown);
    folder.study(&["from-text", "text", "--out", "again"]).ok();
    assert_eq!(folder.bytes("again"), file);
    assert_eq!(folder.study(&["show", "again"]).ok(), shown);
}

#[test]
fn the_triangle() {
    let folder = folder("triangle", NET, TRIPS);
    let outcome = folder.study(&COMMAND);
    assert_eq!(
        outcome.stdout,
        "out: 86 bytes, 3 nodes, 3 links, 3 destinations, 36 trips\ncheck: accepted\n"
    );
    assert_eq!(
        outcome.stderr,
        "rounded to the nearest whole number, halves up:\n  \
         free times: 0 of 3\n  \
         rises: 0 of 3\n  \
         capacities: 1 of 3, by 0.5 trips at most (net.tntp: line 8: capacity 80.5 became 81)\n  \
         trips: 1 of 4, by 0.5 trips at most (trips.tntp: line 8: origin 3 to 1: flow 5.5 became 6)\n\
         trips in all: 35.5, with rounding 36\n"
    );
    let shown = folder.study(&["show", "out"]).ok();
    for line in [
        "link      0     0     1    600     90       120",
        "link      1     1     2    400    100        81",
        "link      2     2     0    500      0        60",
        "destination 0  # 6 trips\n  from 2: 6",
        "destination 1  # 10 trips\n  from 0: 10",
        "destination 2  # 20 trips\n  from 0: 20",
    ] {
        assert!(shown.contains(line), "{line} in {shown}");
    }
}

#[test]
fn nothing_to_round() {
    let folder = folder("exact", NET, TRIPS);
    let outcome = folder.study(&[&COMMAND[..], &["--vehicles-per-trip=0.5"]].concat());
    assert_eq!(outcome.stderr, "no figure was rounded\n");
    let study = Study::read(&folder.bytes("out")).expect("a study");
    assert_eq!(study.links[1].capacity, 161);
    assert_eq!(study.total(), 71);
}

#[test]
fn units_of_time() {
    for (unit, free, rise) in [
        ("minutes", 600, 90),
        ("seconds", 10, 2), // 1.5 goes up
        ("hours", 36_000, 5_400),
        ("hundredths", 6, 1), // 0.9
    ] {
        let folder = folder(&format!("unit-{unit}"), NET, TRIPS);
        let outcome = folder.study(&[&COMMAND[..], &["--time-unit", unit]].concat());
        if unit == "hours" {
            assert_eq!(outcome.status, 1);
            assert_eq!(
                outcome.stderr,
                "study: net.tntp: line 7: free flow time 6 is 36,000 hundredths of a minute, \
                 limit 1 to 16,383\n"
            );
            continue;
        }
        let study = Study::read(&folder.bytes("out")).expect("a study");
        assert_eq!((study.links[0].free, study.links[0].rise), (free, rise));
    }
}

#[test]
fn trips_that_round_to_0_are_reported() {
    let folder = folder("vanished", NET, TRIPS);
    let outcome = folder.study(&[&COMMAND[..], &["--vehicles-per-trip", "12"]].concat());
    assert_eq!(outcome.status, 0, "{outcome:?}");
    let report = "not 0 but rounded to 0, trips: 1 figure\n  \
                  trips.tntp: line 8: origin 3 to 1: flow 5.5\n\
                  trips in all: 2.958333333…, with rounding 3\n";
    assert!(outcome.stderr.ends_with(report), "{}", outcome.stderr);
    let study = Study::read(&folder.bytes("out")).expect("a study");
    assert_eq!(study.destinations.len(), 2);
}

#[test]
fn what_a_study_has_no_place_for_is_reported() {
    let net = with(NET, "0.15\t4\t0\t0\t1", "0.15\t4\t0\t2.5\t1");
    let net = with(
        &net,
        "<END OF METADATA>",
        "<DISTANCE FACTOR> 0.04\n<END OF METADATA>",
    );
    let outcome = folder("left-out", &net, TRIPS).study(&COMMAND);
    assert_eq!(outcome.status, 0, "{outcome:?}");
    assert!(
        outcome.stderr.starts_with(
            "net.tntp: line 5: <DISTANCE FACTOR> 0.04 is left out: \
             a link's time is its free time and rise\n\
             net.tntp: 1 link with a toll: tolls are left out, a study has none\n\
             rounded"
        ),
        "{}",
        outcome.stderr
    );
}

// Closed nodes.

/// Zones 1 and 2 in the middle of streets 3 to 6, and zone 1 with a straight
/// link to zone 2.
const ZONED_NET: &str = "\
<NUMBER OF ZONES> 2
<NUMBER OF NODES> 6
<FIRST THRU NODE> 3
<NUMBER OF LINKS> 9
<END OF METADATA>
\t1\t3\t10\t1\t1\t0\t4\t0\t0\t1\t;
\t3\t4\t10\t1\t1\t0\t4\t0\t0\t1\t;
\t4\t5\t10\t1\t1\t0\t4\t0\t0\t1\t;
\t5\t6\t10\t1\t1\t0\t4\t0\t0\t1\t;
\t6\t2\t10\t1\t1\t0\t4\t0\t0\t1\t;
\t2\t3\t10\t1\t1\t0\t4\t0\t0\t1\t;
\t3\t1\t10\t1\t1\t0\t4\t0\t0\t1\t;
\t1\t6\t10\t1\t1\t0\t4\t0\t0\t1\t;
\t1\t2\t10\t1\t9\t0\t4\t0\t0\t1\t;
";

/// Trips between the zones, both ways.
const ZONED_TRIPS: &str = "\
<NUMBER OF ZONES> 2
<TOTAL OD FLOW> 7.0
<END OF METADATA>
Origin 1
2 : 4.0;
Origin 2
1 : 3.0;
";

/// The closed bytes of what a net with this first thru node becomes; none in a
/// version without them.
#[track_caller]
fn closed_from(name: &str, net: &str, trips: &str) -> (Option<Vec<u8>>, Folder) {
    let folder = folder(name, net, trips);
    folder.study(&COMMAND).ok();
    let file = folder.bytes("out");
    assert_eq!(second::check(&file), 0);
    let study = Study::read(&file).expect("a study");
    assert_eq!(study.packed(), file);

    let shown = folder.study(&["show", "out"]).ok();
    folder.put("text", &shown);
    folder.study(&["from-text", "text", "--out", "again"]).ok();
    assert_eq!(folder.bytes("again"), file);
    let closed = study.version.has_closed().then_some(study.closed);
    (closed, folder)
}

#[test]
fn closed_zones() {
    let (closed, folder) = closed_from("zoned", ZONED_NET, ZONED_TRIPS);
    assert_eq!(closed, Some(vec![1, 1, 0, 0, 0, 0]));
    let outcome = folder.study(&COMMAND);
    assert_eq!(
        outcome.stderr,
        "net.tntp: line 3: <FIRST THRU NODE> 3: nodes 1 to 2 are closed, which makes a version 2 \
         study\nno figure was rounded\n"
    );
    assert_eq!(
        outcome.stdout,
        "out: 164 bytes, 6 nodes (2 closed), 9 links, 2 destinations, 7 trips\n\
         check: accepted\n"
    );
    let shown = folder.study(&["show", "out"]).ok();
    assert!(
        shown.contains("study 2\nnodes 6\nlinks 9\ndestinations 2\n\nclosed 0 1\n\n#"),
        "{shown}"
    );
    // Trips go to a closed zone, and begin at one.
    let file = folder.bytes("out");
    let mut table = [9; 18];
    assert_eq!(second::start(&file, &mut table), 0);
    assert_eq!(table[..9], [0, 0, 0, 0, 0, 3, 3, 0, 0]);
    assert_eq!(table[9..], [0, 0, 0, 0, 4, 0, 0, 4, 0]);
}

#[test]
fn first_thru_nodes() {
    for (first, closed) in [
        (1, None),
        (2, Some(vec![1, 0, 0, 0, 0, 0])),
        (3, Some(vec![1, 1, 0, 0, 0, 0])),
    ] {
        let net = with(ZONED_NET, "THRU NODE> 3", &format!("THRU NODE> {first}"));
        let (found, _) = closed_from(&format!("first-{first}"), &net, ZONED_TRIPS);
        assert_eq!(found, closed, "{first}");
    }
    // Beyond the zones node 3 is closed as well, and trips to 1 come by it.
    let net = with(ZONED_NET, "THRU NODE> 3", "THRU NODE> 4");
    folder("first-4", &net, ZONED_TRIPS).fails(
        &COMMAND,
        "trips.tntp: line 7: origin 2 has trips to 1, but every path there leads through a node \
         below <FIRST THRU NODE> 4",
    );
    // All nodes closed: each trip has a link of its own.
    let net = with(NET, "THRU NODE> 1", "THRU NODE> 4");
    let trips = "<END OF METADATA>\nOrigin 1\n2 : 1;\nOrigin 2\n3 : 1;\nOrigin 3\n1 : 1;\n";
    let (closed, _) = closed_from("first-all", &net, trips);
    assert_eq!(closed, Some(vec![1; 3]));
}

#[test]
fn one_closed_node() {
    let net = with(NET, "THRU NODE> 1", "THRU NODE> 2");
    let outcome = folder("first-one", &net, TRIPS).study(&COMMAND);
    assert!(
        outcome.stderr.starts_with(
            "net.tntp: line 3: <FIRST THRU NODE> 2: node 1 is closed, which makes a version 2 \
             study\nrounded"
        ),
        "{}",
        outcome.stderr
    );
    assert!(outcome.stdout.contains(" 3 nodes (1 closed), "));
}

#[test]
fn no_first_thru_node() {
    let net = with(NET, "<FIRST THRU NODE> 1\n", "");
    let (closed, without) = closed_from("first-none", &net, TRIPS);
    assert_eq!(closed, None);
    let (_, stated) = closed_from("first-stated", NET, TRIPS);
    assert_eq!(without.bytes("out"), stated.bytes("out"));
}

#[test]
fn first_thru_node_at_fault() {
    for (name, value, message) in [
        ("0", "0", "0, limit 1 to 4"),
        ("5", "5", "5, limit 1 to 4"),
        ("65536", "65536", "65536, limit 1 to 4"),
        ("word", "none", "`none` is not a whole number, limit 1 to 4"),
        ("part", "1.5", "`1.5` is not a whole number, limit 1 to 4"),
        ("minus", "-1", "`-1` is not a whole number, limit 1 to 4"),
        ("nothing", "", "`` is not a whole number, limit 1 to 4"),
    ] {
        bad_net(
            &format!("first-{name}"),
            "<FIRST THRU NODE> 1",
            &format!("<FIRST THRU NODE> {value}"),
            &format!("line 3: <FIRST THRU NODE> {message}"),
        );
    }
    bad_net(
        "first-twice",
        "<FIRST THRU NODE> 1\n",
        "<FIRST THRU NODE> 1\n<first thru node> 1\n",
        "line 4: <FIRST THRU NODE> for the second time, first on line 3",
    );
}

/// In the triangle, trips from 1 to 3 go through 2.
#[test]
fn trips_without_a_path_but_through_zones() {
    let net = with(NET, "THRU NODE> 1", "THRU NODE> 3");
    folder("shut", &net, TRIPS).fails(
        &COMMAND,
        "trips.tntp: line 6: origin 1 has trips to 3, but every path there leads through a node \
         below <FIRST THRU NODE> 3",
    );
    folder("opened", NET, TRIPS).study(&COMMAND).ok();
    // No path at all is said so, whatever is closed.
    let net = with(&net, "\t3\t1\t60", "\t1\t3\t60");
    folder("shut-none", &net, TRIPS).fails(
        &COMMAND,
        "trips.tntp: line 8: origin 3 has trips to 1, but no path of links leads there",
    );
}

// Powers.

/// The triangle with this power on line 8, where b is 0.25.
fn net_with_power(power: &str) -> String {
    with(NET, "0.25\t4", &format!("0.25\t{power}"))
}

/// The study that a net and trips become, which goes round as text, and what
/// standard error told of it.
#[track_caller]
fn converted(name: &str, net: &str, trips: &str) -> (Study, String) {
    let (_, folder) = closed_from(name, net, trips);
    let study = Study::read(&folder.bytes("out")).expect("a study");
    (study, folder.study(&COMMAND).stderr)
}

fn powers(study: &Study) -> Vec<u16> {
    study.links.iter().map(|link| link.power).collect()
}

#[test]
fn forms_of_power_4() {
    let folder = folder("power-4", NET, TRIPS);
    folder.study(&COMMAND).ok();
    let expected = folder.bytes("out");
    assert_eq!(expected[0], 1);
    for power in ["4.0", "4.000", "4.", "+4", "04", "4e0", "40E-1", "0.4e+1"] {
        folder.put("net.tntp", net_with_power(power));
        folder.study(&COMMAND).ok();
        assert_eq!(folder.bytes("out"), expected, "{power}");
    }
}

#[test]
fn powers_make_version_3() {
    let (plain, _) = converted("power-plain", NET, TRIPS);
    for (name, text, power) in [
        ("1", "1", 1),
        ("2", "2.0", 2),
        ("3", "3", 3),
        ("exponent", "20e-1", 2),
    ] {
        let net = net_with_power(text);
        let (study, told) = converted(&format!("power-{name}"), &net, TRIPS);
        // The power of line 9, where b is 0, comes along.
        assert_eq!(powers(&study), [4, power, 1]);
        assert_eq!(study.version.to_string(), "3");
        assert_eq!(study.closed, [0; 3]);
        let note = format!("net.tntp: line 8: power {power}, which makes a version 3 study\n");
        assert!(told.starts_with(&format!("{note}rounded to")), "{told}");

        // Nothing else is different.
        let mut study = study;
        study.version = plain.version;
        study.links.iter_mut().for_each(|link| link.power = 4);
        assert_eq!(study, plain);
    }
}

/// The bytes of a version 3 study.
#[test]
fn powers_in_the_file() {
    let folder = folder("power-bytes", &net_with_power("3"), TRIPS);
    let said = folder.study(&COMMAND).ok();
    assert!(said.starts_with("out: 103 bytes, 3 nodes, 3 links, "));
    let file = folder.bytes("out");
    assert_eq!(file[..8], [3, 0, 3, 0, 3, 0, 3, 0]);
    assert_eq!(file[8..16], [40, 0, 0, 0, 36, 0, 0, 0]);
    // Tail 1, head 2, free time 400, rise 100, capacity 81, power 3.
    assert_eq!(file[52..64], [1, 0, 2, 0, 144, 1, 100, 0, 81, 0, 3, 0]);
    assert_eq!(file[100..], [0; 3]);
    let shown = folder.study(&["show", "out"]).ok();
    for line in [
        "\nstudy 3\n",
        "\n#    number  tail  head   free   rise  capacity  power\n",
        "\nlink      0     0     1    600     90       120      4\n",
        "\nlink      1     1     2    400    100        81      3\n",
        "\nlink      2     2     0    500      0        60      1\n",
    ] {
        assert!(shown.contains(line), "{line} in {shown}");
    }
}

/// One power on every link that is not 4.
#[test]
fn sioux_falls_with_powers() {
    let net = data("SiouxFalls_net.tntp");
    let trips = data("SiouxFalls_trips.tntp");
    let told = |power: u16, net: &str| {
        let folder = folder(&format!("sioux-falls-{power}"), net, &trips);
        let outcome = folder.study(&[&COMMAND[..], &["--vehicles-per-trip", "10"]].concat());
        assert!(outcome.stdout.ends_with("check: accepted\n"));
        (folder.bytes("out"), outcome.stderr)
    };
    let (plain, report) = told(4, &net);
    let plain = Study::read(&plain).expect("a study");
    for power in 1..4 {
        let net = net.replace("\t0.15\t4\t", &format!("\t0.15\t{power}\t"));
        let (file, told) = told(power, &net);
        assert_eq!(file.len(), 40 + 76 * 12 + 24 * 2 + 24 * 24 * 2 + 24);
        assert_eq!(
            told,
            format!("net.tntp: line 9: power {power}, which makes a version 3 study\n{report}")
        );
        let mut study = Study::read(&file).expect("a study");
        assert_eq!(powers(&study), [power; 76]);
        study.version = plain.version;
        study.links.iter_mut().for_each(|link| link.power = 4);
        assert_eq!(study, plain);
    }
}

#[test]
fn powers_and_closed_zones() {
    let net = with(
        ZONED_NET,
        "\t4\t5\t10\t1\t1\t0\t4",
        "\t4\t5\t10\t1\t1\t0.5\t2",
    );
    let (study, told) = converted("power-zoned", &net, ZONED_TRIPS);
    assert_eq!(study.version.to_string(), "3");
    assert_eq!(study.closed, [1, 1, 0, 0, 0, 0]);
    assert_eq!(powers(&study), [4, 4, 2, 4, 4, 4, 4, 4, 4]);
    assert_eq!(
        told,
        "net.tntp: line 3: <FIRST THRU NODE> 3: nodes 1 to 2 are closed\n\
         net.tntp: line 8: power 2, which makes a version 3 study\n\
         no figure was rounded\n"
    );
}

/// Where b is 0 the power makes no difference, and no version 3.
#[test]
fn powers_where_b_is_0() {
    let with_last =
        |net: &str, power: &str| with(net, "\t0\t1\t0\t0", &format!("\t0\t{power}\t0\t0"));
    let (plain, told) = converted("power-b-0", NET, TRIPS);
    for (number, power) in ["0", "2", "4", "4.5", "5", "1e30"].into_iter().enumerate() {
        let net = with_last(NET, power);
        let found = converted(&format!("power-b-0-{number}"), &net, TRIPS);
        assert_eq!(found, (plain.clone(), told.clone()), "{power}");
    }
    // Beside a power that makes version 3, what fits is kept.
    for (number, (power, kept)) in [("0", 4), ("2.0", 2), ("4.5", 4), ("5", 4)]
        .into_iter()
        .enumerate()
    {
        let net = with_last(&net_with_power("3"), power);
        let (study, _) = converted(&format!("power-b-0-kept-{number}"), &net, TRIPS);
        assert_eq!(powers(&study), [4, 3, kept], "{power}");
    }
    // A rise that only rounds to 0 is one.
    let net = with(NET, "0.25\t4", "0.000001\t2");
    let (study, _) = converted("power-b-small", &net, TRIPS);
    assert_eq!((powers(&study), study.links[1].rise), (vec![4, 2, 1], 0));
    // It must be a figure all the same.
    for (name, power, message) in [
        ("word", "none", "power `none` is not a figure"),
        ("minus", "-1", "power -1, limit 0 or more"),
    ] {
        let folder = folder(&format!("power-b-0-{name}"), &with_last(NET, power), TRIPS);
        folder.fails(&COMMAND, &format!("net.tntp: line 9: {message}"));
    }
}

#[test]
fn powers_at_fault() {
    let not_whole = "is not a whole number, limit 1 to 4";
    for (number, (power, message)) in [
        ("0", "power 0, limit 1 to 4".to_owned()),
        ("0.0", "power 0.0, limit 1 to 4".to_owned()),
        ("5", "power 5, limit 1 to 4".to_owned()),
        ("5.00", "power 5.00, limit 1 to 4".to_owned()),
        ("65540", "power 65540, limit 1 to 4".to_owned()),
        ("4e1", "power 4e1, limit 1 to 4".to_owned()),
        ("-1", "power -1, limit 1 to 4".to_owned()),
        ("-4.5", "power -4.5, limit 1 to 4".to_owned()),
        ("4.5", format!("power `4.5` {not_whole}")),
        ("0.9", format!("power `0.9` {not_whole}")),
        (
            "3.9999999999999999",
            format!("power `3.9999999999999999` {not_whole}"),
        ),
        ("4e-1", format!("power `4e-1` {not_whole}")),
        ("four", format!("power `four` {not_whole}")),
        ("4,0", format!("power `4,0` {not_whole}")),
        (
            "1e40",
            "power 1e40 cannot be kept exactly, limit about 37 digits".to_owned(),
        ),
    ]
    .into_iter()
    .enumerate()
    {
        let folder = folder(
            &format!("power-bad-{number}"),
            &net_with_power(power),
            TRIPS,
        );
        folder.fails(&COMMAND, &format!("net.tntp: line 8: {message}"));
    }
    bad_net(
        "power-missing",
        "0.25\t4",
        "0.25",
        "line 8: 9 columns, a row has 10: init node, term node, capacity, length, free flow time, \
         b, power, speed, toll, link type",
    );
}

// Lorries.

/// Lorry trips in the triangle, the first ones on line 5.
const LORRY_TRIPS: &str = "\
<NUMBER OF ZONES> 3
<TOTAL OD FLOW> 6.5
<END OF METADATA>
Origin 1
    3 :    4.0;
Origin 2
    3 :    2.5;     1 :    0.0;
";

const LORRY_COMMAND: [&str; 7] = [
    "from-tntp",
    "net.tntp",
    "trips.tntp",
    "--out",
    "out",
    "--lorry-trips",
    "lorries.tntp",
];

fn lorry_folder(name: &str, lorries: &str, barred: &str) -> Folder {
    let folder = folder(&format!("lorries-{name}"), NET, TRIPS);
    folder.put("lorries.tntp", lorries);
    folder.put("barred.txt", barred);
    folder
}

/// The command with options more.
fn lorry_command<'a>(options: &[&'a str]) -> Vec<&'a str> {
    [&LORRY_COMMAND[..], options].concat()
}

fn bad_lorries(name: &str, from: &str, to: &str, message: &str) {
    let folder = lorry_folder(name, &with(LORRY_TRIPS, from, to), "");
    folder.fails(&LORRY_COMMAND, &format!("lorries.tntp: {message}"));
}

fn bad_list(name: &str, list: &str, message: &str) {
    let folder = lorry_folder(&format!("list-{name}"), LORRY_TRIPS, list);
    let command = lorry_command(&["--barred-links", "barred.txt"]);
    folder.fails(&command, &format!("barred.txt: {message}"));
}

/// The study that the command makes in a folder, which goes round as text.
#[track_caller]
fn lorry_study(folder: &Folder, options: &[&str]) -> Study {
    folder.study(&lorry_command(options)).ok();
    let file = folder.bytes("out");
    assert_eq!(second::check(&file), 0);
    let shown = folder.study(&["show", "out"]).ok();
    folder.put("text", &shown);
    folder.study(&["from-text", "text", "--out", "again"]).ok();
    assert_eq!(folder.bytes("again"), file);
    Study::read(&file).expect("a study")
}

#[test]
fn lorries_in_the_triangle() {
    let folder = lorry_folder("triangle", LORRY_TRIPS, "~ narrow\n3 1 ;\n");
    let options = ["--car-units-per-lorry=1.8", "--barred-links", "barred.txt"];
    let outcome = folder.study(&lorry_command(&options));
    assert_eq!(
        outcome.stderr,
        "lorries.tntp: lorries, which make a version 4 study\n\
         barred.txt: 1 link is barred to lorries\n\
         rounded to the nearest whole number, halves up:\n  \
         free times: 0 of 3\n  \
         rises: 0 of 3\n  \
         capacities: 1 of 3, by 0.5 trips at most (net.tntp: line 8: capacity 80.5 became 81)\n  \
         trips: 1 of 4, by 0.5 trips at most (trips.tntp: line 8: origin 3 to 1: flow 5.5 became 6)\n  \
         lorry trips: 2 of 3, by 0.5 trips at most (lorries.tntp: line 7: origin 2 to 3: flow 2.5 \
         became 5)\n\
         trips in all: 35.5, with rounding 36\n\
         lorry trips in all: 11.7, with rounding 12\n"
    );
    assert_eq!(
        outcome.ok(),
        "out: 140 bytes, 3 nodes, 3 links (1 barred to lorries), 3 destinations, \
         48 trips (12 lorry trips)\ncheck: accepted\n"
    );
    let study = lorry_study(&folder, &options);
    assert_eq!(study.version.to_string(), "4");
    assert_eq!(study.barred, [0, 0, 1]);
    // Flow 4 makes 7.2 trips, and 2.5 makes 4.5.
    let lorry_trips = |node: usize| study.destinations[node].lorry_trips.clone();
    assert_eq!(lorry_trips(2), [7, 5, 0]);
    assert_eq!((lorry_trips(0), lorry_trips(1)), (vec![0; 3], vec![0; 3]));
    // Powers come along, also where b is 0.
    assert_eq!(powers(&study), [4, 4, 1]);

    // Cars are as they are without lorries.
    let (_, plain) = closed_from("lorries-plain", NET, TRIPS);
    let plain = Study::read(&plain.bytes("out")).expect("a study");
    let cars = |study: &Study| -> Vec<Vec<u16>> {
        let destinations = study.destinations.iter();
        destinations
            .map(|destination| destination.trips.clone())
            .collect()
    };
    assert_eq!(cars(&study), cars(&plain));
}

/// Lorry trips are flow × car units ÷ vehicles per trip, rounded once.
#[test]
fn car_units_are_exact() {
    for (name, options, trips, rounded) in [
        ("one", &[][..], [4, 3, 0], true),
        ("two", &["--car-units-per-lorry", "2"], [8, 5, 0], true),
        (
            "ratio",
            &["--car-units-per-lorry", "1.6", "--vehicles-per-trip", "0.1"],
            [64, 40, 0],
            false,
        ),
        (
            "part",
            &[
                "--car-units-per-lorry",
                "0.3",
                "--vehicles-per-trip",
                "0.15",
            ],
            [8, 5, 0],
            true,
        ),
    ] {
        let folder = lorry_folder(&format!("units-{name}"), LORRY_TRIPS, "");
        let study = lorry_study(&folder, options);
        assert_eq!(study.destinations[2].lorry_trips, trips, "{name}");
        let told = folder.study(&lorry_command(options)).stderr;
        assert_eq!(told.contains("rounded to the nearest"), rounded, "{told}");
    }
    let digits = "1.00000000000000000000000000000000001";
    let folder = lorry_folder("units-long", &with(LORRY_TRIPS, "4.0", "4.01"), "");
    folder.fails(
        &lorry_command(&["--car-units-per-lorry", digits]),
        "lorries.tntp: line 5: origin 1 to 3: flow 4.01 cannot be kept exactly, limit about 37 \
         digits",
    );
}

#[test]
fn lorry_trips_that_round_to_0_are_reported() {
    let folder = lorry_folder("vanished", LORRY_TRIPS, "");
    let outcome = folder.study(&lorry_command(&["--car-units-per-lorry", "0.1"]));
    let report = "not 0 but rounded to 0, lorry trips: 2 figures\n  \
                  lorries.tntp: line 5: origin 1 to 3: flow 4.0\n  \
                  lorries.tntp: line 7: origin 2 to 3: flow 2.5\n\
                  trips in all: 35.5, with rounding 36\n\
                  lorry trips in all: 0.65, with rounding 0\n";
    assert!(outcome.stderr.ends_with(report), "{}", outcome.stderr);
    // It is a version 4 study all the same.
    let study = lorry_study(&folder, &["--car-units-per-lorry", "0.1"]);
    assert_eq!(study.version.to_string(), "4");
}

/// Nodes that receive trips of either class.
#[test]
fn destinations_of_lorries() {
    let lorries = "<END OF METADATA>\nOrigin 3\n2 : 7;\n";
    let folder = lorry_folder("destinations", lorries, "");
    folder.put("trips.tntp", "<END OF METADATA>\nOrigin 1\n3 : 5;\n");
    let study = lorry_study(&folder, &[]);
    let found: Vec<_> = study
        .destinations
        .iter()
        .map(|to| (to.node, to.trips.clone(), to.lorry_trips.clone()))
        .collect();
    assert_eq!(
        found,
        [
            (1, vec![0, 0, 0], vec![0, 0, 7]),
            (2, vec![5, 0, 0], vec![0, 0, 0]),
        ]
    );
    // Lorries alone.
    folder.put("trips.tntp", "<END OF METADATA>\nOrigin 1\n3 : 0;\n");
    let study = lorry_study(&folder, &[]);
    assert_eq!((study.destinations.len(), study.total()), (1, 7));
    // Neither.
    folder.put("lorries.tntp", "<END OF METADATA>\nOrigin 3\n2 : 0;\n");
    fs::remove_file(folder.path("out")).expect("it was written");
    folder.fails(
        &LORRY_COMMAND,
        "lorries.tntp: line 3: 0 trips in all, limit 1 or more: a study has a destination",
    );
}

#[test]
fn too_many_destinations_with_lorries() {
    let mut net = "<NUMBER OF NODES> 40\n<NUMBER OF LINKS> 39\n<END OF METADATA>\n".to_owned();
    let mut cars = "<END OF METADATA>\nOrigin 1\n".to_owned();
    let mut lorries = cars.clone();
    for node in 2..=40 {
        net += &format!("1 {node} 100 1 1 0 4 0 0 1 ;\n");
        let row = format!("{node} : 1.0;\n");
        if node <= 30 { &mut cars } else { &mut lorries }.push_str(&row);
    }
    let folder = folder("lorries-too-many", &net, &cars);
    folder.put("lorries.tntp", lorries);
    folder.fails(
        &LORRY_COMMAND,
        "lorries.tntp: line 6: destination 34 is number 33 to receive trips, limit 32 destinations",
    );
}

/// The limit is one of both classes together.
#[test]
fn too_many_trips_with_lorries() {
    let lorries = |flow: &str, total: &str| {
        let lorries = with(LORRY_TRIPS, "   4.0", flow);
        with(&lorries, "FLOW> 6.5", &format!("FLOW> {total}"))
    };
    // 36 of cars and 3 of lorries leave 65,496.
    let full = lorry_folder("full", &lorries("65496", "65498.5"), "");
    assert_eq!(lorry_study(&full, &[]).total(), 65_535);
    lorry_folder("over", &lorries("65497", "65499.5"), "").fails(
        &LORRY_COMMAND,
        "lorries.tntp: line 7: 65,536 trips in all, 36 of them in the trips file, passing the limit \
         65,535 here (more vehicles a trip make fewer)",
    );
    // Without lorries the trips would fit.
    let folder = lorry_folder("over-cell", &lorries("40000", "40002.5"), "");
    folder.fails(
        &lorry_command(&["--car-units-per-lorry", "2"]),
        "lorries.tntp: line 5: origin 1 to 3: flow 40000 is 80,000 trips, limit 0 to 65,535",
    );
    // Cars alone are told of the trips file.
    let trips = with(TRIPS, "   20.0", "65520.5");
    folder.put("trips.tntp", with(&trips, "FLOW> 35.5", "FLOW> 65536.0"));
    folder.fails(
        &LORRY_COMMAND,
        "trips.tntp: line 8: 65,537 trips in all, passing the limit 65,535 here \
         (more vehicles a trip make fewer)",
    );
}

#[test]
fn lorry_files_at_fault() {
    bad_lorries(
        "zones",
        "ZONES> 3",
        "ZONES> 2",
        "line 1: <NUMBER OF ZONES> 2, but the net file has 3",
    );
    bad_lorries(
        "total",
        "FLOW> 6.5",
        "FLOW> 13.0",
        "line 2: <TOTAL OD FLOW> 13, but the flows add up to 6.5",
    );
    bad_lorries(
        "own",
        "3 :    4.0",
        "1 :    4.0",
        "line 5: origin 1 has a flow of 4.0 to itself, must be 0",
    );
    bad_lorries(
        "zone",
        "3 :    4.0",
        "4 :    4.0",
        "line 5: destination 4, limit 1 to 3",
    );
    bad_lorries(
        "negative",
        "3 :    4.0",
        "3 :   -4.0",
        "line 5: origin 1 to 3: flow -4.0, limit 0 or more",
    );
    bad_lorries(
        "twice",
        "1 :    0.0",
        "3 :    0.0",
        "line 7: origin 2 to 3 for the second time, first on line 7",
    );
}

/// Where the net file has no number of zones, the trips file's counts.
#[test]
fn zones_of_the_trips_file() {
    let net = with(NET, "<NUMBER OF ZONES> 3\n", "");
    let folder = lorry_folder(
        "zones-trips",
        &with(LORRY_TRIPS, "ZONES> 3", "ZONES> 2"),
        "",
    );
    folder.put("net.tntp", &net);
    folder.fails(
        &LORRY_COMMAND,
        "lorries.tntp: line 1: <NUMBER OF ZONES> 2, but the trips file has 3",
    );
    folder.put(
        "lorries.tntp",
        with(LORRY_TRIPS, "<NUMBER OF ZONES> 3\n", ""),
    );
    lorry_study(&folder, &[]);
}

#[test]
fn lorries_with_closed_zones_and_powers() {
    let net = with(
        ZONED_NET,
        "\t4\t5\t10\t1\t1\t0\t4",
        "\t4\t5\t10\t1\t1\t0.5\t2",
    );
    let folder = folder("lorries-zoned", &net, ZONED_TRIPS);
    folder.put("lorries.tntp", "<END OF METADATA>\nOrigin 1\n2 : 1;\n");
    // From 1 to 2 by way of 6 or straight.
    folder.put("barred.txt", "1 6\n1 2\n");
    let options = ["--barred-links", "barred.txt"];
    let outcome = folder.study(&lorry_command(&options));
    assert_eq!(
        outcome.stderr,
        "net.tntp: line 3: <FIRST THRU NODE> 3: nodes 1 to 2 are closed\n\
         lorries.tntp: lorries, which make a version 4 study\n\
         barred.txt: 2 links are barred to lorries\n\
         no figure was rounded\n"
    );
    let study = lorry_study(&folder, &options);
    assert_eq!(study.closed, [1, 1, 0, 0, 0, 0]);
    assert_eq!(study.barred, [0, 0, 0, 0, 0, 0, 0, 1, 1]);
    assert_eq!(powers(&study), [4, 4, 2, 4, 4, 4, 4, 4, 4]);
}

/// The triangle with a fourth link, straight from 1 to 3.
fn net_with_shortcut() -> String {
    with(NET, "LINKS> 3", "LINKS> 4") + "\t1\t3\t60\t5\t5\t0\t1\t0\t0\t1\t;\n"
}

#[test]
fn lorries_without_a_path() {
    let barred = "but every path there leads over a barred link";
    let command = lorry_command(&["--barred-links", "barred.txt"]);
    let folder = lorry_folder("path", LORRY_TRIPS, "2 3\n");
    folder.fails(
        &command,
        &format!("lorries.tntp: line 5: origin 1 has lorry trips to 3, {barred}"),
    );
    folder.put("net.tntp", net_with_shortcut());
    folder.fails(
        &command,
        &format!("lorries.tntp: line 7: origin 2 has lorry trips to 3, {barred}"),
    );
    // No path at all is said so, whatever is barred.
    folder.put("net.tntp", with(NET, "\t3\t1\t60", "\t1\t3\t60"));
    folder.put("trips.tntp", "<END OF METADATA>\nOrigin 1\n3 : 5;\n");
    folder.put("lorries.tntp", "<END OF METADATA>\nOrigin 3\n1 : 5;\n");
    folder.fails(
        &command,
        "lorries.tntp: line 3: origin 3 has lorry trips to 1, but no path of links leads there",
    );
}

/// Cars go from 1 to 3 straight; lorries may not.
#[test]
fn lorries_without_a_path_but_through_zones() {
    let net = with(&net_with_shortcut(), "THRU NODE> 1", "THRU NODE> 3");
    let fails = |name: &str, list: &str, but: &str| {
        let folder = lorry_folder(&format!("shut-{name}"), LORRY_TRIPS, list);
        folder.put("net.tntp", &net);
        folder.fails(
            &lorry_command(&["--barred-links", "barred.txt"]),
            &format!(
                "lorries.tntp: line 5: origin 1 has lorry trips to 3, but every path there {but}"
            ),
        );
    };
    let either = "leads through a node below <FIRST THRU NODE> 3 or over a barred link";
    fails("either", "1 3\n", either);
    fails("barred", "1 3\n1 2\n", "leads over a barred link");
}

#[test]
fn barred_lists() {
    let parallel = with(NET, "LINKS> 3", "LINKS> 5")
        + "\t1\t2\t60\t5\t7\t0\t4\t0\t0\t1\t;\n\t1\t2\t60\t5\t8\t0\t4\t0\t0\t1\t;\n";
    for (name, list, barred) in [
        ("one", "3 1", [0, 0, 1, 0, 0]),
        ("none", "~ nothing yet\n", [0, 0, 0, 0, 0]),
        ("which", "1 2 1\n1 2 3 ;\n", [1, 0, 0, 0, 1]),
        (
            "second",
            "~ init\tterm\r\n1\t2\t02;\r\n3 1 1;\r\n",
            [0, 0, 1, 1, 0],
        ),
    ] {
        let folder = lorry_folder(&format!("barred-{name}"), LORRY_TRIPS, list);
        folder.put("net.tntp", &parallel);
        let study = lorry_study(&folder, &["--barred-links", "barred.txt"]);
        assert_eq!(study.barred, barred, "{name}");
    }
    for (name, list, message) in [
        (
            "which",
            "3 1\n1 2\n",
            "line 2: 3 links lead from 1 to 2, a third column, 1 to 3, must tell which is barred",
        ),
        (
            "4",
            "1 2 4",
            "line 1: link from 1 to 2, number 4, limit 1 to 3",
        ),
        (
            "twice",
            "1 2 3\n1 2 2\n1 2 3\n",
            "line 3: link from 1 to 2 for the second time, first on line 1",
        ),
    ] {
        let folder = lorry_folder(&format!("parallel-{name}"), LORRY_TRIPS, list);
        folder.put("net.tntp", &parallel);
        let command = lorry_command(&["--barred-links", "barred.txt"]);
        folder.fails(&command, &format!("barred.txt: {message}"));
    }
}

#[test]
fn barred_lists_at_fault() {
    let columns = "a row has 2: init node, term node; and a third where several links lead there";
    bad_list("no-link", "3 1\n1 3\n", "line 2: no link leads from 1 to 3");
    bad_list("loop", "1 1\n", "line 1: no link leads from 1 to 1");
    bad_list(
        "twice",
        "3 1\n\n3 1 1 ;\n",
        "line 3: link from 3 to 1 for the second time, first on line 1",
    );
    bad_list("init", "0 1\n", "line 1: init node 0, limit 1 to 3");
    bad_list("term", "3 4\n", "line 1: term node 4, limit 1 to 3");
    bad_list(
        "word",
        "3 one\n",
        "line 1: term node `one` is not a whole number, limit 1 to 3",
    );
    bad_list(
        "which",
        "3 1 2\n",
        "line 1: link from 3 to 1, number 2, limit 1",
    );
    bad_list("short", "3\n", &format!("line 1: 1 column, {columns}"));
    bad_list(
        "long",
        "3 1 1 1\n",
        &format!("line 1: 4 columns, {columns}"),
    );
    bad_list(
        "empty",
        "3 1\n;\n",
        &format!("line 2: 0 columns, {columns}"),
    );
}

#[test]
fn sioux_falls_with_lorries() {
    let folder = folder(
        "sioux-falls-lorries",
        &data("SiouxFalls_net.tntp"),
        &data("SiouxFalls_trips.tntp"),
    );
    folder.put("lorries.tntp", data("SiouxFalls_trips.tntp"));
    folder.put("barred.txt", "1 2 ;\n10 16 ;\n");
    let options = [
        "--vehicles-per-trip=10",
        "--car-units-per-lorry=0.2",
        "--barred-links=barred.txt",
    ];
    let study = lorry_study(&folder, &options);
    assert_eq!(
        (study.total_of(Class::Cars), study.total()),
        (36_060, 43_272)
    );
    for destination in &study.destinations {
        let lorries = destination.trips.iter().map(|trips| trips / 5);
        assert!(lorries.eq(destination.lorry_trips.iter().copied()));
    }
    let said = folder.study(&lorry_command(&options)).ok();
    let links = "76 links (2 barred to lorries), 24 destinations, 43,272 trips (7,212 lorry trips)";
    assert!(said.contains(links), "{said}");
}

#[test]
fn forms_of_text_that_make_no_difference() {
    let folder = folder("forms", NET, TRIPS);
    folder.study(&COMMAND).ok();
    let expected = folder.bytes("out");

    let net = NET
        .replace('\t', "  ")
        .replace(" ;", ";")
        .replace('\n', "\r\n");
    let net = with(&net, "<NUMBER OF NODES> 3", "<number of nodes>\t3 ~ three");
    let net = with(&net, "0.25", "2.50e-1");
    folder.put("net.tntp", format!("\u{feff}{net}"));
    folder.put(
        "trips.tntp",
        "<END OF METADATA>\norigin 3\n1:5.5;\nOrigin 1\n 3 : 20 ; 2 : 1e1;\n~ the end\n",
    );
    folder.study(&COMMAND).ok();
    assert_eq!(folder.bytes("out"), expected);
}

#[test]
fn the_stated_total_counts_to_its_places() {
    // 35.5 is written 36 without places; 35.52 would be something else.
    let trips = with(TRIPS, "FLOW> 35.5", "FLOW> 36");
    folder("total-36", NET, &trips).study(&COMMAND).ok();
    bad_trips(
        "total-35.56",
        "FLOW> 35.5",
        "FLOW> 35.52",
        "line 2: <TOTAL OD FLOW> 35.52, but the flows add up to 35.5",
    );
}

// Bad net files.

#[test]
fn capacity_0() {
    bad_net(
        "capacity-0",
        "\t120\t",
        "\t0\t",
        "line 7: capacity 0 is 0 trips, limit 1 to 65,535",
    );
}

#[test]
fn capacity_that_rounds_to_0() {
    bad_net(
        "capacity-small",
        "\t120\t",
        "\t0.49\t",
        "line 7: capacity 0.49 is 0.49 trips, limit 1 to 65,535",
    );
}

#[test]
fn capacity_too_large() {
    bad_net(
        "capacity-large",
        "\t120\t",
        "\t65535.5\t",
        "line 7: capacity 65535.5 is 65,535.5 trips, limit 1 to 65,535",
    );
}

#[test]
fn free_time_0() {
    bad_net(
        "free-0",
        "\t6\t0.15",
        "\t0.004\t0.15",
        "line 7: free flow time 0.004 is 0.4 hundredths of a minute, limit 1 to 16,383",
    );
}

#[test]
fn rise_too_large() {
    bad_net(
        "rise",
        "\t6\t0.15",
        "\t6\t27.31",
        "line 7: rise 6 × 27.31 is 16,386 hundredths of a minute, limit 0 to 16,383",
    );
}

#[test]
fn too_many_nodes() {
    bad_net(
        "nodes",
        "NODES> 3",
        "NODES> 129",
        "line 2: <NUMBER OF NODES> 129, limit 2 to 128",
    );
}

#[test]
fn too_many_links() {
    bad_net(
        "links",
        "LINKS> 3",
        "LINKS> 513",
        "line 4: <NUMBER OF LINKS> 513, limit 1 to 512",
    );
}

#[test]
fn node_0() {
    bad_net(
        "node-0",
        "\t1\t2\t120",
        "\t0\t2\t120",
        "line 7: init node 0, limit 1 to 3",
    );
}

#[test]
fn node_beyond_the_last() {
    bad_net(
        "node-4",
        "\t1\t2\t120",
        "\t1\t4\t120",
        "line 7: term node 4, limit 1 to 3",
    );
}

#[test]
fn link_from_a_node_to_itself() {
    bad_net(
        "loop",
        "\t1\t2\t120",
        "\t2\t2\t120",
        "line 7: init node and term node are both 2, must be different",
    );
}

#[test]
fn row_cut_short() {
    let columns = "a row has 10: init node, term node, capacity, length, free flow time, b, power, \
                   speed, toll, link type";
    bad_net(
        "row-short",
        "\t80.5\t4\t4\t0.25\t4\t0\t0\t1\t;",
        "\t80.5\t4\t4",
        &format!("line 8: 5 columns, {columns}"),
    );
    bad_net(
        "row-long",
        "\t80.5\t4",
        "\t80.5\t4\t4",
        &format!("line 8: 11 columns, {columns}"),
    );
    bad_net(
        "row-open",
        "\t120\t6\t6\t0.15\t4\t0\t0\t1\t;",
        "\t120\t6\t6\t0.15\t4\t0\t0\t1",
        "line 7: the row does not end with `;`",
    );
    bad_net(
        "row-tail",
        "\t120\t6\t6\t0.15\t4\t0\t0\t1\t;",
        "\t120\t6\t6\t0.15\t4\t0\t0\t1\t; 7",
        "line 7: found `7` after the row's `;`",
    );
}

#[test]
fn wrong_number_of_links() {
    bad_net(
        "link-count",
        "LINKS> 3",
        "LINKS> 4",
        "line 4: <NUMBER OF LINKS> 4, but the file has 3 rows",
    );
}

#[test]
fn metadata_missing() {
    bad_net(
        "no-nodes",
        "<NUMBER OF NODES> 3\n",
        "",
        "line 4: the metadata end without <NUMBER OF NODES>",
    );
    bad_net(
        "no-end",
        "<END OF METADATA>\n",
        "",
        "line 6: found `1\t2\t120\t6\t6\t0.15\t4\t0\t0\t1\t;` before <END OF METADATA>",
    );
    bad_net(
        "twice",
        "<NUMBER OF NODES> 3\n",
        "<NUMBER OF NODES> 3\n<NUMBER OF NODES> 4\n",
        "line 3: <NUMBER OF NODES> for the second time, first on line 2",
    );
    let folder = folder("empty", "", TRIPS);
    folder.fails(
        &COMMAND,
        "net.tntp: line 1: the file ends without <END OF METADATA>",
    );
}

#[test]
fn negative_figure() {
    bad_net(
        "negative",
        "\t80.5\t",
        "\t-80.5\t",
        "line 8: capacity -80.5, limit 0 or more",
    );
}

#[test]
fn not_a_figure() {
    bad_net(
        "letters",
        "\t80.5\t",
        "\t80,5\t",
        "line 8: capacity `80,5` is not a figure",
    );
    bad_net(
        "letters-unused",
        "\t4\t0\t0\t1\t;\n\t3",
        "\t4\tfast\t0\t1\t;\n\t3",
        "line 8: speed `fast` is not a figure",
    );
    bad_net(
        "node-letters",
        "\t1\t2\t120",
        "\t1\t2.5\t120",
        "line 7: term node `2.5` is not a whole number, limit 1 to 3",
    );
}

#[test]
fn figure_too_long() {
    let figure = "80.123456789012345678901234567890123456789";
    bad_net(
        "long",
        "80.5",
        figure,
        &format!("line 8: capacity {figure} cannot be kept exactly, limit about 37 digits"),
    );
}

#[test]
fn missing_file() {
    let folder = folder("missing", NET, TRIPS);
    fs::remove_file(folder.path("net.tntp")).expect("it was there");
    let outcome = folder.study(&COMMAND);
    assert_eq!(outcome.status, 1);
    assert!(
        outcome
            .stderr
            .starts_with("study: net.tntp: cannot be read: "),
        "{}",
        outcome.stderr
    );
    assert!(!folder.path("out").exists());
}

// Bad trips files.

#[test]
fn too_many_trips() {
    let trips = with(TRIPS, "   20.0", "65520.5");
    let trips = with(&trips, "FLOW> 35.5", "FLOW> 65536.0");
    folder("total", NET, &trips).fails(
        &COMMAND,
        "trips.tntp: line 8: 65,537 trips in all, passing the limit 65,535 here \
         (more vehicles a trip make fewer)",
    );
}

#[test]
fn too_many_trips_between_two_nodes() {
    bad_trips(
        "trips",
        "   20.0",
        "65536.0",
        "line 6: origin 1 to 3: flow 65536.0 is 65,536 trips, limit 0 to 65,535",
    );
}

#[test]
fn too_many_destinations() {
    let mut net = "<NUMBER OF NODES> 40\n<NUMBER OF LINKS> 39\n<END OF METADATA>\n".to_owned();
    let mut trips = "<END OF METADATA>\nOrigin 1\n".to_owned();
    for node in 2..=40 {
        net += &format!("1 {node} 100 1 1 0 4 0 0 1 ;\n");
        trips += &format!("{node} : 1.0;\n");
    }
    folder("destinations", &net, &trips).fails(
        &COMMAND,
        "trips.tntp: line 35: destination 34 is number 33 to receive trips, limit 32 destinations",
    );
}

#[test]
fn diagonal_flow() {
    bad_trips(
        "diagonal",
        "1 :    0.0",
        "1 :    0.25",
        "line 6: origin 1 has a flow of 0.25 to itself, must be 0",
    );
}

#[test]
fn wrong_total_flow() {
    bad_trips(
        "flow",
        "FLOW> 35.5",
        "FLOW> 360.5",
        "line 2: <TOTAL OD FLOW> 360.5, but the flows add up to 35.5",
    );
}

#[test]
fn wrong_number_of_zones() {
    bad_trips(
        "zones",
        "ZONES> 3",
        "ZONES> 2",
        "line 1: <NUMBER OF ZONES> 2, but the net file has 3",
    );
}

#[test]
fn zone_out_of_range() {
    bad_trips(
        "origin",
        "Origin 3",
        "Origin 0",
        "line 7: origin 0, limit 1 to 3",
    );
    bad_trips(
        "destination",
        "3 :   20.0",
        "4 :   20.0",
        "line 6: destination 4, limit 1 to 3",
    );
}

#[test]
fn negative_flow() {
    bad_trips(
        "negative-flow",
        "   20.0",
        "  -20.0",
        "line 6: origin 1 to 3: flow -20.0, limit 0 or more",
    );
}

#[test]
fn malformed_pairs() {
    bad_trips(
        "pair-cut",
        "5.5;",
        "5.5",
        "line 8: found `1 :    5.5`, must be `destination : flow;`",
    );
    bad_trips(
        "pair-colon",
        "1 :    5.5;",
        "1 5.5;",
        "line 8: found `1 5.5;`, must be `destination : flow;`",
    );
    bad_trips(
        "pair-twice",
        "2 :   10.0;",
        "2 :   10.0; 2 : 1.0;",
        "line 6: origin 1 to 2 for the second time, first on line 6",
    );
    bad_trips(
        "no-origin",
        "Origin 1\n",
        "",
        "line 5: found `1 :    0.0;     2 :   10.0;     3 :   20.0;` before the first `Origin`",
    );
}

#[test]
fn no_trips() {
    let trips = "<END OF METADATA>\nOrigin 1\n2 : 0.0;\n";
    folder("none", NET, trips).fails(
        &COMMAND,
        "trips.tntp: line 3: 0 trips in all, limit 1 or more: a study has a destination",
    );
}

#[test]
fn trips_without_a_path() {
    let net = with(NET, "\t3\t1\t60", "\t1\t3\t60");
    folder("stranded", &net, TRIPS).fails(
        &COMMAND,
        "trips.tntp: line 8: origin 3 has trips to 1, but no path of links leads there",
    );
}

// The command line.

#[test]
fn command_lines_that_make_no_sense() {
    let folder = folder("usage", NET, TRIPS);
    for (arguments, message) in [
        (&COMMAND[..3], "--out FILE is missing"),
        (&COMMAND[..2], "TRIPS is missing"),
        (&COMMAND[..4], "option `--out` has no value"),
        (
            &["from-tntp", "a", "b", "c", "--out", "out"],
            "unexpected `c`",
        ),
        (
            &["from-tntp", "a", "b", "--out=out", "--out", "out"],
            "option `--out` for the second time",
        ),
        (
            &["from-tntp", "a", "b", "--into", "out"],
            "unknown option `--into`",
        ),
        (
            &["from-tntp", "a", "b", "--out=out", "--vehicles-per-trip=0"],
            "--vehicles-per-trip `0`, must be a figure above 0",
        ),
        (
            &["from-tntp", "a", "b", "--out=out", "--time-unit", "days"],
            "--time-unit `days`, must be one of minutes, seconds, hours, hundredths",
        ),
        (
            &lorry_command(&["--car-units-per-lorry", "none"]),
            "--car-units-per-lorry `none`, must be a figure above 0",
        ),
        (
            &[&COMMAND[..], &["--car-units-per-lorry", "2"]].concat(),
            "--car-units-per-lorry is for lorries, but --lorry-trips is missing",
        ),
        (
            &[&COMMAND[..], &["--barred-links", "barred.txt"]].concat(),
            "--barred-links is for lorries, but --lorry-trips is missing",
        ),
    ] {
        let outcome = folder.study(arguments);
        assert_eq!(
            outcome.stderr,
            format!("study: {message}\nsee `study from-tntp --help`\n")
        );
        assert_eq!(outcome.status, 2);
        assert!(!folder.path("out").exists());
    }
}

#[test]
fn inputs_are_never_overwritten() {
    let folder = folder("overwrite", NET, TRIPS);
    let outcome = folder.study(&["from-tntp", "net.tntp", "trips.tntp", "--out", "./net.tntp"]);
    assert_eq!(outcome.status, 1);
    assert_eq!(
        outcome.stderr,
        "study: ./net.tntp: cannot be written: it is an input\n"
    );
    assert_eq!(folder.bytes("net.tntp"), NET.as_bytes());
    folder.put("lorries.tntp", LORRY_TRIPS);
    folder.put("barred.txt", "3 1\n");
    for input in ["lorries.tntp", "barred.txt"] {
        let outcome = folder.study(&[
            "from-tntp",
            "net.tntp",
            "trips.tntp",
            "--lorry-trips=lorries.tntp",
            "--barred-links=barred.txt",
            "--out",
            input,
        ]);
        assert_eq!(
            outcome.stderr,
            format!("study: {input}: cannot be written: it is an input\n")
        );
        assert_eq!(outcome.status, 1);
    }

    let outcome = folder.study(&["from-tntp", "net.tntp", "trips.tntp", "--out", "no/out"]);
    assert_eq!(outcome.status, 1);
    assert!(
        outcome
            .stderr
            .starts_with("study: no/out: cannot be written: "),
        "{}",
        outcome.stderr
    );
}
