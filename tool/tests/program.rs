//! Help, refusals and what else belongs to no command.

mod common;

use common::{Folder, TOWN};
use study_tool::words;

#[test]
fn refusals() {
    let folder = Folder::new("program-refusals");
    let table = folder.study(&["refusals"]).ok();
    let lines: Vec<&str> = table.lines().collect();
    assert_eq!(lines.len(), 23);
    for (number, line) in (1..).zip(&lines) {
        let meaning = words::refusal(number).expect("one of the table's");
        assert_eq!(*line, format!("{number:2}  {meaning}"));
    }
    assert_eq!(
        lines[10],
        "11  a node with trips to a destination has no path to it that leads through no closed node \
         and, for lorry trips, over no barred link"
    );
    assert_eq!(lines[1], " 2  the version is not 1, 2, 3 or 4");
    assert_eq!(
        lines[6],
        " 7  a link's free time is not 1 to 16,383, its rise not 0 to 16,383, its capacity is 0, or \
         its power is not 1 to 4"
    );
    assert_eq!(words::refusal(0), None);
    assert_eq!(words::refusal(24), None);
    assert_eq!(words::answer(0), "accepted");
    assert_eq!(
        words::answer(18),
        "refused 18: the page slice is shorter than 30 bytes a link"
    );
    assert_eq!(
        words::answer(19),
        "refused 19: a node's closed byte is neither 0 nor 1"
    );
    assert_eq!(
        words::answer(20),
        "refused 20: the flow table has flow on a link into a closed node that is not flow to \
         that node, or lorries on a barred link"
    );
    assert_eq!(
        words::answer(23),
        "refused 23: a link's barred byte is neither 0 nor 1"
    );
    assert_eq!(words::answer(24), "refused 24");
}

#[test]
fn help() {
    let folder = Folder::new("program-help");
    let tool = folder.study(&["--help"]).ok();
    assert_eq!(folder.study(&["help"]).ok(), tool);
    assert_eq!(folder.study(&["-h"]).ok(), tool);
    for command in ["from-tntp", "from-text", "show", "refusals"] {
        assert!(tool.contains(&format!("\n  {command} ")), "{tool}");
        let help = folder.study(&[command, "--help"]).ok();
        assert!(
            help.contains(&format!("\nUsage: study {command}")),
            "{help}"
        );
        assert_eq!(folder.study(&[command, "-h"]).ok(), help);
    }
}

#[test]
fn help_shows_a_text_that_is_read() {
    let folder = Folder::new("program-example");
    let help = folder.study(&["from-text", "--help"]).ok();
    let begin = help.find("  study 1\n").expect("the example begins");
    let end = help.find("- The four lines").expect("the example ends");
    folder.put("town.txt", &help[begin..end]);
    let outcome = folder.study(&["from-text", "town.txt", "--out", "out"]);
    assert_eq!(outcome.stderr, "");
    outcome.ok();
    assert_eq!(folder.study(&["show", "out"]).ok(), TOWN);
}

/// What help says of closed nodes is so.
#[test]
fn help_on_closed_nodes() {
    let folder = Folder::new("program-closed");
    let help = folder.study(&["from-text", "--help"]).ok();
    assert!(help.contains("`closed 0 1 2`") && help.contains("`closed 0 1:7`"));
    let town = TOWN.replace("study 1\n", "study 2\n");
    let text = town.replace("destinations 1\n", "destinations 1\nclosed 0 1:7\n");
    folder.put("town.txt", text);
    let said = folder
        .study(&["from-text", "town.txt", "--out", "out"])
        .ok();
    let answer = format!("check: {}\n", words::answer(19));
    assert!(said.contains(&answer), "{said}");
    assert_eq!(folder.bytes("out")[66..], [1, 7]);
}

/// What help says of powers is so.
#[test]
fn help_on_powers() {
    let folder = Folder::new("program-powers");
    let help = folder.study(&["from-text", "--help"]).ok();
    assert!(help.contains("`link 0 0 1 10 10 2 3`"), "{help}");
    folder.put(
        "town.txt",
        "study 3\nnodes 2\nlinks 1\ndestinations 1\nlink 0 0 1 10 10 2 3\n\
         destination 1\nfrom 0: 2\n",
    );
    let said = folder
        .study(&["from-text", "town.txt", "--out", "out"])
        .ok();
    assert!(said.ends_with("check: accepted\n"), "{said}");
    let link = [0, 0, 1, 0, 10, 0, 10, 0, 2, 0, 3, 0];
    assert_eq!(folder.bytes("out")[40..52], link);

    let help = folder.study(&["from-tntp", "--help"]).ok();
    let row = "\n  power                     power, 1 to 4 (any figure where b is 0)\n";
    assert!(help.contains(row), "{help}");
}

/// What help says of lorries is so.
#[test]
fn help_on_lorries() {
    let folder = Folder::new("program-lorries");
    let help = folder.study(&["from-text", "--help"]).ok();
    for said in ["`barred 0 1`", "`barred 0 1:7`", "`lorries from 0: 2`"] {
        assert!(help.contains(said), "{help}");
    }
    folder.put(
        "town.txt",
        "study 4\nnodes 2\nlinks 2\ndestinations 1\nbarred 0 1:7\nlink 0 0 1 10 10 2 3\n\
         link 1 0 1 15 0 1 4\ndestination 1\nlorries from 0: 2\n",
    );
    let said = folder
        .study(&["from-text", "town.txt", "--out", "out"])
        .ok();
    let answer = format!("check: {}\n", words::answer(23));
    assert!(said.contains(&answer), "{said}");
    assert_eq!(folder.bytes("out")[88..], [2, 0, 0, 0, 1, 7]);

    let help = folder.study(&["from-tntp", "--help"]).ok();
    for option in ["lorry-trips", "car-units-per-lorry", "barred-links"] {
        assert!(help.contains(&format!("\n  --{option} ")), "{help}");
    }
}

/// No line of help is wider than 80 columns.
#[test]
fn help_is_narrow() {
    let folder = Folder::new("program-narrow");
    for arguments in [
        &["--help"][..],
        &["from-tntp", "--help"],
        &["from-text", "--help"],
        &["show", "--help"],
        &["refusals", "--help"],
    ] {
        for line in folder.study(arguments).ok().lines() {
            assert!(line.chars().count() <= 80, "{line}");
        }
    }
}

#[test]
fn command_lines_that_make_no_sense() {
    let folder = Folder::new("program-usage");
    let outcome = folder.study(&["listing"]);
    assert_eq!(outcome.status, 2);
    assert_eq!(
        outcome.stderr,
        "study: unknown command `listing`\nsee `study --help`\n"
    );
    let outcome = folder.study(&[]);
    assert_eq!(outcome.status, 2);
    assert_eq!(outcome.stderr, folder.study(&["--help"]).ok());
    let outcome = folder.study(&["show"]);
    assert_eq!(outcome.status, 2);
    assert_eq!(
        outcome.stderr,
        "study: FILE is missing\nsee `study show --help`\n"
    );
}
