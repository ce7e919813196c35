//! A C program over the header and the static library, compiled, run and
//! compared with the second implementation.

mod zone;

use std::fmt::Write;
use std::path::Path;
use std::process::Command;

use second::draft::{Draft, Versioned};
use second::{AuditAnswer, Desk, DesksAnswer, PassAnswer, RunAnswer, SEATS};
use zone::zone;

#[test]
fn town() {
    let package = Path::new(env!("CARGO_MANIFEST_DIR"));
    let program = Path::new(env!("CARGO_TARGET_TMPDIR")).join("town");
    let compiled = Command::new("cc")
        .args([
            "-std=c99",
            "-Wall",
            "-Wextra",
            "-Wpedantic",
            "-Werror",
            "-O1",
        ])
        .arg("-I")
        .arg(package.join("../include"))
        .arg(package.join("tests/town.c"))
        .arg(env!("ILSTROVAN_ARCHIVE"))
        .arg("-o")
        .arg(&program)
        .output()
        .expect("a C compiler, cc, is needed");
    let said = String::from_utf8_lossy(&compiled.stderr);
    assert!(
        compiled.status.success(),
        "cc refused tests/town.c:\n{said}"
    );

    let ran = Command::new(&program).output().expect("the program runs");
    assert!(ran.status.success(), "{ran:?}");
    let expected = [
        expected(),
        expected_of_taking_back(),
        expected_of_the_zone(),
        expected_of_powers(),
        expected_of_lorries(),
        expected_of_two_desks(),
        expected_of_eight_desks(),
    ];
    assert_eq!(String::from_utf8_lossy(&ran.stdout), expected.concat());
}

fn table_words(table: &[u32]) -> String {
    let numbers: Vec<String> = table.iter().map(u32::to_string).collect();
    format!("table {}", numbers.join(" "))
}

fn note_words(note: &[u16]) -> String {
    let numbers: Vec<String> = note.iter().map(u16::to_string).collect();
    format!("note {}", numbers.join(" "))
}

fn audit_words(a: AuditAnswer) -> String {
    format!("audit {} {} {} {}", a.refusal, a.gap, a.cost, a.over)
}

fn pass_words(a: PassAnswer) -> String {
    let PassAnswer {
        refusal,
        outcome,
        gap,
        cost,
        share,
        over,
    } = a;
    format!("pass {refusal} {outcome} {gap} {cost} {share} {over}")
}

fn run_words(a: RunAnswer) -> String {
    format!("run {}", run_numbers(a))
}

fn run_numbers(a: RunAnswer) -> String {
    let RunAnswer {
        refusal,
        ending,
        judged,
        share,
        gap,
        cost,
        over,
    } = a;
    format!("{refusal} {ending} {judged} {share} {gap} {cost} {over}")
}

fn desks_words(a: DesksAnswer) -> String {
    let seats = a.seats.map(run_numbers).join(" ");
    format!("desks {} {} {seats}", a.refusal, a.turns)
}

/// What the program is to print of the town of two roads, by the second
/// implementation.
fn expected() -> String {
    let file = Draft::town().file();
    let mut lines = String::new();
    let mut line = |words: String| writeln!(lines, "{words}").expect("text grows");

    line(format!("check {}", second::check(&file)));
    line(format!("check {}", second::check(&file[..57])));

    let mut output = [0xEE; 60];
    line(format!("pack {}", second::pack(&file, &mut output[..57])));
    line(format!("pack {}", second::pack(&file, &mut output)));
    let same = u8::from(output[..58] == file);
    line(format!(
        "same {same}, after it {} {}",
        output[58], output[59]
    ));

    let mut table = [7, 8, 9];
    line(format!("start {}", second::start(&file, &mut table[..1])));
    line(format!("start {}", second::start(&file, &mut table)));
    line(table_words(&table));
    line(audit_words(second::audit(&file, &table, 1)));
    line(audit_words(second::audit(&file, &table, 2)));

    for (budget, excess) in [(10, 0), (0, 65_535), (3, 0)] {
        line(run_words(second::run(&file, &mut table, budget, excess)));
        line(table_words(&table));
    }

    table[..2].copy_from_slice(&[16, 0]);
    let mut note = [6, 5, 4];
    for share in [8, 1_025] {
        line(pass_words(second::pass(
            &file, &mut table, share, &mut note,
        )));
        line(table_words(&table));
    }
    line(note_words(&note));

    // A page slice a byte too short, then one just long enough.
    assert_eq!(table[..2], [16, 2]);
    for (length, shown) in [(59, "same 0, blank 64"), (60, "same 1, blank 4")] {
        let refusal = second::page(&file, &table, 9, &mut vec![0; length]);
        line(format!("page {refusal}"));
        line(format!("{shown}, around it 238 238 238 238"));
    }
    line(table_words(&table));

    let mut busy = file;
    busy[54] = 8;
    let mut table = [8, 0, 9];
    let audited = second::audit(&busy, &table, 1);
    assert_eq!(audited.over, 1);
    line(audit_words(audited));
    let mut note = [6, 5, 4, 3];
    line(pass_words(second::pass(&busy, &mut table, 1, &mut note)));
    line(table_words(&table));
    line(note_words(&note));
    line(run_words(second::run(&busy, &mut table, 1, 0)));
    line(table_words(&table));
    lines
}

/// What the program is to print of moves taken back and of notes that are
/// refused: the cases that the request's text settles.
fn expected_of_taking_back() -> String {
    let lines = [
        // One loading by link 1, and back.
        "pass 0 1 80 11904 9 0",
        "table 16 2 9",
        "note 1 1 65535 3",
        "take back 0 8",
        "table 16 0 9",
        "note 1 1 65535 3",
        "take back 22 0",
        "table 16 0 9",
        "note 1 1 65535 3",
        // A doubling, and back.
        "pass 0 1 10 1488 2 0",
        "table 4 0 9",
        "note 0 65535 65535 3",
        "take back 0 1",
        "table 2 0 9",
        "note 0 65535 65535 3",
        "take back 22 0",
        "table 2 0 9",
        "note 0 65535 65535 3",
        // Notes that are too short.
        "pass 12 0 0 0 0 0",
        "pass 12 0 0 0 0 0",
        "table 16 2 9",
        "note 6 5 4 3",
    ];
    let mut text = lines.map(|line| format!("{line}\n")).concat();
    for (number, flows, j, link) in [
        (12, "16 2", 1, 1),
        (12, "16 2", 1, 1),
        (21, "16 2", 1, 65_535),
        (21, "16 2", 9, 2),
        (22, "16 2", 9, 0),
        (22, "16 2", 2, 1),
        (22, "16 2", 0, 65_535),
        (22, "17 3", 0, 65_535),
    ] {
        text += &format!("take back {number} 0\ntable {flows} 9\nnote {j} {link} 65535\n");
    }
    text + "take back 0 1\ntable 0 2 9\nnote 8 0 65535\n"
}

/// What the program is to print of the town with a zone: the figures of the
/// model's table of cases, and for a run the second implementation's.
fn expected_of_the_zone() -> String {
    let closed: Versioned = zone().closing(&[1]);
    assert_eq!(closed.packed_length(), 94);
    let mut lines = vec!["check 0", "check 1"];
    lines.extend(["check 4"; 10]);
    lines.extend([
        "start 0",
        "table 0 1 2 2 9",
        "audit 0 0 2880 0",
        "start 0",
        "table 2 3 0 0 9",
        "audit 0 20 2048 0",
        // Through the closed zone.
        "audit 20 0 0 0",
        "pass 20 0 0 0 0 0",
        "take back 20 0",
        "page 20",
        "page 20",
        "table 2 3 0 0 9",
        "note 6 5 4 3 2 1",
        "blank 120",
        // A part of a trip lost in the zone.
        "audit 16 0 0 0",
        "pass 16 0 0 0 0 0",
        "take back 16 0",
        "page 16",
        "page 16",
        "table 2 2 0 0 9",
        "note 6 5 4 3 2 1",
        "blank 120",
    ]);
    let mut table = [9; 5];
    let run = run_words(second::run(&closed.file(), &mut table, 10, 0));
    let left = table_words(&table);
    lines.extend([run.as_str(), &left]);
    lines.extend([
        "check 19", "start 19", "check 19", "check 9", "check 11", "check 0",
    ]);
    lines.extend([
        "pack 17",
        "first 238",
        "pack 0",
        "same 1, after it 238 238",
        "",
    ]);
    lines.join("\n")
}

/// What the program is to print of the town with powers, by the second
/// implementation.
fn expected_of_powers() -> String {
    let mut lines = String::new();
    let mut line = |words: String| writeln!(lines, "{words}").expect("a string takes all");
    let mut note = [6, 5, 4];
    for power in 0..=5 {
        let file = Draft::town().with_powers(vec![power, 4]).file();
        let mut table = [16, 2, 9];
        line(format!("check {}", second::check(&file)));
        line(audit_words(second::audit(&file, &table, 9)));
        line(pass_words(second::pass(&file, &mut table, 9, &mut note)));
        line(table_words(&table));
        line(note_words(&note));
        line(run_words(second::run(&file, &mut table, 10, 0)));
        line(table_words(&table));
    }
    lines + "pack 17\npack 0\nsame 1, after it 238\n"
}

/// What the program is to print of the town with lorries, by the definitions.
fn expected_of_lorries() -> String {
    let mut lines = vec!["check 0"];
    lines.extend(["check 4"; 4]);
    lines.extend([
        "start 12",
        "start 0",
        "table 2 0 0 1 9",
        "audit 0 10 2448 0",
        // The lorry on the barred road.
        "audit 20 0 0 0",
        "pass 20 0 0 0 0 0",
        "take back 20 0",
        "page 20",
        "page 20",
        "table 2 0 1 0 9",
        "note 6 5 4 3 2 1",
        "blank 120",
        // No lorry.
        "audit 16 0 0 0",
        "pass 16 0 0 0 0 0",
        "take back 16 0",
        "page 16",
        "page 16",
        "table 2 0 0 0 9",
        "note 6 5 4 3 2 1",
        "blank 120",
        "run 0 1 5 9 0 21744 0",
        "table 16 2 0 9 9",
        // A note too short, a loading, and back.
        "pass 12 0 0 0 0 0",
        "pass 0 1 80 19584 9 0",
        "table 16 2 0 9 9",
        "note 1 1 65535 1 65535 1",
        "take back 21 0",
        "take back 0 8",
        "table 16 0 0 8 9",
        "check 23",
        "check 9",
        "pack 17",
        "pack 0",
        "same 1, after it 238 238",
        "",
    ]);
    lines.join("\n")
}

/// What the program is to print of two desks with the town and three turns: the
/// first waits after two of them, the second is reached at its first.
fn expected_of_two_desks() -> String {
    let zeros = |count: usize| " 0".repeat(count);
    let both = "table 4 0 9\ntable 2 0 9\n";
    let mut text = format!(
        "desks 0 3 0 4 2 2 20 2976 0 0 1 1 1 10 1488 0{}\n",
        zeros(42)
    );
    text += both;
    text += &"table 9 9 9\n".repeat(6);
    for number in [24, 24, 25, 25] {
        text += &format!("desks {number}{}\n", zeros(57));
    }
    text + both
}

/// What the program is to print of a study on each seat, by the second
/// implementation.
fn expected_of_eight_desks() -> String {
    let town = Draft::town().file();
    let zone = zone().closing(&[1]).file();
    let curved = Draft::town().with_powers(vec![2, 4]).file();
    let freight = Draft::town().with_lorries(vec![vec![1, 0]]).barring(&[0]);
    let freight = freight.file();
    let orders: [(&[u8], usize, u32, u16); SEATS] = [
        (&town, 3, 10, 0),
        (&zone, 5, 1, 0),
        (&curved, 2, 9, 0),
        (&freight, 4, 8, 0),
        (&town[..57], 5, 7, 0),
        (&zone, 4, 1_025, 0),
        (&curved, 3, 3, 4),
        (&freight, 3, 2, 5),
    ];
    let mut lines = String::new();
    for allowance in (1..=33).step_by(8) {
        let mut tables = [[9; 5]; SEATS];
        let mut lent = orders.iter().zip(&mut tables);
        let mut desks = std::array::from_fn(|_| {
            let (&(file, length, budget, excess), table) = lent.next().expect("eight seats");
            Desk {
                file,
                table: &mut table[..length],
                budget,
                excess,
            }
        });
        let answer = second::desks(&mut desks, 8, allowance);
        let tables = tables.map(|table| table_words(&table) + "\n").concat();
        lines += &format!("{}\n{tables}", desks_words(answer));
    }
    lines
}
