//! The proved calls beside the second implementation's:
//! `cargo run --release --bin benchmark`.
//!
//! Same studies, same process, turn about. Prints Markdown: for each study and
//! call the median processor time of either with its quartiles, and the median
//! of the ratios of neighbouring measurements; then the same of studies with
//! lorries beside their cars alone, and of desks; then the stack that each call
//! needs. Where ILSTROVAN_BEFORE names the static library of an earlier build, its
//! calls are timed in the same turns, but for desks; calls that it lacks and
//! studies that it refuses have a dash.

#[cfg(before)]
#[macro_use]
#[path = "../../declare.rs"]
#[allow(unused_macros, reason = "an earlier build may know no note")]
mod declare;

#[cfg(before)]
mod before;
#[cfg(not(before))]
mod before {
    /// There is no earlier build.
    pub fn accepts(_: &[u8]) -> bool {
        false
    }
}
mod desks;
mod lorries;
mod measure;
mod stack;
mod studies;

use std::cell::RefCell;
use std::hint::black_box;

use ilstrovan::LONGEST_NOTE;
use measure::{Comparison, Way};
use studies::{Moved, Study};

fn main() {
    let studies = studies::all();
    let (names, rules) = if cfg!(before) {
        (" | before, µs | Rattle ÷ before", "---:|---:|")
    } else {
        ("", "")
    };
    println!("| study | n | m | p | T | call | Rattle, µs | Rust, µs | Rattle ÷ Rust{names} |");
    println!("|---|---:|---:|---:|---:|---|---:|---:|---:|{rules}");
    for study in &studies {
        for (call, comparison) in calls(study) {
            // An earlier build without this call, or one that refuses the study.
            let missing = match comparison.ways() {
                2 if cfg!(before) => " | – | –",
                _ => "",
            };
            println!("| {} | {call} | {comparison}{missing} |", study.columns());
        }
    }
    println!();
    println!("Processor time: median, and in brackets the quartiles.");
    println!();
    lorries::print(&studies);
    println!();
    desks::print(&studies);
    println!();
    print_stack(&studies);
}

/// The stack of each call with a study of versions 1 to 3 and with one of version
/// 4.
fn print_stack(studies: &[Study]) {
    let (freight, others): (Vec<_>, Vec<_>) =
        studies.iter().partition(|study| study.cars_alone.is_some());
    println!("| call | stack, bytes | study | with lorries, bytes | study |");
    println!("|---|---:|---|---:|---|");
    let needs = stack::needs(&others).into_iter();
    for ((call, bytes, study), (_, most, other)) in needs.zip(stack::needs(&freight)) {
        println!("| {call} | {bytes} | {study} | {most} | {other} |");
    }
}

/// The calls on one study: a run to its end, a start, a pass over its table, a move
/// taken back, an audit and a page of the start's table, a check, and a packing.
fn calls(study: &Study) -> [(String, Comparison); 8] {
    let file = &study.file;
    let room = vec![0; study.table_length];
    let started = study.started();
    let moved = study.moved();
    let judged = agree(study, &started);
    agree_on_moves(study, &started, &moved);
    // The third way is the earlier build's.
    let compare = |table: &[u32], ways: &mut [Way<'_>]| {
        let known = if before::accepts(file) { ways.len() } else { 2 };
        measure::compare(table, &mut ways[..known])
    };

    let running = compare(
        &room,
        &mut [
            &mut |table| _ = black_box(ilstrovan::run(file, table, 1_024, 0)),
            &mut |table| _ = black_box(second::run(file, table, 1_024, 0)),
            #[cfg(before)]
            &mut |table| before::run(file, table, 1_024, 0),
        ],
    );
    let starting = compare(
        &room,
        &mut [
            &mut |table| _ = black_box(ilstrovan::start(file, table)),
            &mut |table| _ = black_box(second::start(file, table)),
            #[cfg(before)]
            &mut |table| before::start(file, table),
        ],
    );
    // All write to the same place, so that where it lies favours none.
    let note = RefCell::new(vec![0; LONGEST_NOTE]);
    let passing = compare(
        &started,
        &mut [
            &mut |table| _ = black_box(ilstrovan::pass(file, table, 1, &mut note.borrow_mut())),
            &mut |table| _ = black_box(second::pass(file, table, 1, &mut note.borrow_mut())),
            #[cfg(before)]
            &mut |table| before::pass(file, table, 1, &mut note.borrow_mut()),
        ],
    );
    let Moved { table, share, note } = &moved;
    let taking_back = compare(
        table,
        &mut [
            &mut |table| _ = black_box(ilstrovan::take_back(file, table, *share, note)),
            &mut |table| _ = black_box(second::take_back(file, table, *share, note)),
            #[cfg(before_note)]
            &mut |table| before::take_back(file, table, *share, note),
        ],
    );
    let auditing = compare(
        &started,
        &mut [
            &mut |table| _ = black_box(ilstrovan::audit(file, table, 1)),
            &mut |table| _ = black_box(second::audit(file, table, 1)),
            #[cfg(before)]
            &mut |table| before::audit(file, table, 1),
        ],
    );
    let paper = RefCell::new(study.paper());
    let paging = compare(
        &started,
        &mut [
            &mut |table| _ = black_box(ilstrovan::page(file, table, 1, &mut paper.borrow_mut())),
            &mut |table| _ = black_box(second::page(file, table, 1, &mut paper.borrow_mut())),
            #[cfg(before_page)]
            &mut |table| before::page(file, table, 1, &mut paper.borrow_mut()),
        ],
    );
    let checking = compare(
        &[],
        &mut [
            &mut |_| _ = black_box(ilstrovan::check(file)),
            &mut |_| _ = black_box(second::check(file)),
            #[cfg(before)]
            &mut |_| before::check(file),
        ],
    );
    let output = RefCell::new(vec![0; file.len()]);
    let packing = compare(
        &[],
        &mut [
            &mut |_| _ = black_box(ilstrovan::pack(file, &mut output.borrow_mut())),
            &mut |_| _ = black_box(second::pack(file, &mut output.borrow_mut())),
            #[cfg(before)]
            &mut |_| before::pack(file, &mut output.borrow_mut()),
        ],
    );
    [
        (format!("run, {judged} tables"), running),
        ("start".to_string(), starting),
        ("pass".to_string(), passing),
        (format!("take back, {}", moved.words()), taking_back),
        ("audit".to_string(), auditing),
        ("page".to_string(), paging),
        ("check".to_string(), checking),
        ("pack".to_string(), packing),
    ]
}

/// Sees that both answer the same before they are timed. Hands back how many
/// tables a run judges.
fn agree(study: &Study, started: &[u32]) -> u32 {
    let file = &study.file;
    let mut table = vec![0; study.table_length];
    let run = second::run(file, &mut table, 1_024, 0);
    let proved = ilstrovan::run(file, &mut table, 1_024, 0).expect("accepted");
    assert_eq!((proved.judged, proved.gap), (run.judged, run.gap));
    assert_eq!((proved.cost, proved.over), (run.cost, run.over));

    let audit = second::audit(file, started, 1);
    let proved = ilstrovan::audit(file, started, 1).expect("accepted");
    assert_eq!((proved.gap, proved.cost), (audit.gap, audit.cost));
    assert_eq!(proved.over, audit.over);

    let (mut lines, mut proved) = (study.paper(), study.paper());
    assert_eq!(second::page(file, started, 1, &mut lines), 0);
    ilstrovan::page(file, started, 1, &mut proved).expect("accepted");
    assert_eq!(proved, lines);
    run.judged
}

/// The same for a pass of the start's table and for a move taken back.
fn agree_on_moves(study: &Study, started: &[u32], moved: &Moved) {
    let file = &study.file;
    let (mut table, mut other) = (started.to_vec(), started.to_vec());
    let (mut note, mut other_note) = (vec![0; LONGEST_NOTE], vec![0; LONGEST_NOTE]);
    let pass = second::pass(file, &mut table, 1, &mut note);
    let proved = ilstrovan::pass(file, &mut other, 1, &mut other_note).expect("accepted");
    assert_eq!((proved.gap, proved.cost), (pass.gap, pass.cost));
    assert_eq!((proved.share, proved.over), (pass.share, pass.over));
    assert!(other == table && other_note == note);

    let Moved { table, share, note } = moved;
    let (mut table, mut other) = (table.clone(), table.clone());
    let back = second::take_back(file, &mut table, *share, note);
    let proved = ilstrovan::take_back(file, &mut other, *share, note);
    assert_eq!(proved, Ok(back.share));
    assert!(other == table);
}
