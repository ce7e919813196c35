//! Studies with lorries beside their cars alone: version 4 and the same network in
//! version 3, both by the proved calls. With two classes a table has twice the
//! searches and loadings; the limit of a run is 2.1 times the time of its cars.
//!
//! Two runs seldom judge equally many tables. So whole runs are compared with the
//! smaller number of the two as the budget of both, which both then judge; and runs
//! to their own ends are compared by the time of a judged table. A doubling leaves
//! all times as they are and needs no search: how many of the moves are doublings is
//! printed for either.

use std::cell::RefCell;
use std::hint::black_box;

use ilstrovan::LONGEST_NOTE;

use crate::measure::{Comparison, compare};
use crate::studies::Study;

/// Prints the comparison of every study with lorries.
pub fn print(studies: &[Study]) {
    println!("| study | call | lorries too, µs | cars alone, µs | lorries too ÷ cars alone |");
    println!("|---|---|---:|---:|---:|");
    for study in studies {
        let Some(cars) = &study.cars_alone else {
            continue;
        };
        for (call, comparison) in calls(study, cars) {
            println!("| {} | {call} | {comparison} |", study.name());
        }
    }
}

/// Runs with the same number of judged tables, a judged table of runs to their own
/// ends, and a pass over the start's table.
fn calls(study: &Study, cars: &[u8]) -> [(String, Comparison); 3] {
    let file = &study.file;
    let [ends, cars_ends] = [file, cars].map(|file| judged(study, file));
    let budget = ends.min(cars_ends);
    let doublings = [file, cars].map(|file| doublings(study, file, budget));
    // The cars' part of both starts is the same, and so one table serves both.
    let started = study.started();
    let note = RefCell::new(vec![0; LONGEST_NOTE]);
    let passing = compare(
        &started,
        &mut [
            &mut |table| _ = black_box(ilstrovan::pass(file, table, 1, &mut note.borrow_mut())),
            &mut |table| _ = black_box(ilstrovan::pass(cars, table, 1, &mut note.borrow_mut())),
        ],
    );
    let [with, without] = doublings;
    [
        (
            format!("run, {budget} tables each, {with} and {without} doublings"),
            running(study, cars, budget),
        ),
        (
            format!("a table of a run to its end, {ends} and {cars_ends} tables"),
            running(study, cars, 1_024).of_parts([ends, cars_ends]),
        ),
        ("pass".to_string(), passing),
    ]
}

fn running(study: &Study, cars: &[u8], budget: u32) -> Comparison {
    compare(
        &vec![0; study.table_length],
        &mut [
            &mut |table| _ = black_box(ilstrovan::run(&study.file, table, budget, 0)),
            &mut |table| _ = black_box(ilstrovan::run(cars, table, budget, 0)),
        ],
    )
}

/// How many tables a run judges until it ends.
fn judged(study: &Study, file: &[u8]) -> u32 {
    let run = |budget| {
        let mut table = vec![0; study.table_length];
        let run = ilstrovan::run(file, &mut table, budget, 0);
        run.expect("accepted").judged
    };
    let judged = run(1_024);
    assert_eq!(run(judged), judged);
    judged
}

/// How many moves of a run that judges so many tables are doublings.
fn doublings(study: &Study, file: &[u8], tables: u32) -> usize {
    let (mut table, mut note) = (vec![0; study.table_length], vec![0; LONGEST_NOTE]);
    ilstrovan::start(file, &mut table).expect("accepted");
    let mut share = 1;
    let moves = (1..tables).map(|_| {
        let pass = ilstrovan::pass(file, &mut table, share, &mut note);
        share = pass.expect("accepted").share;
        note[0]
    });
    moves.filter(|&step| step == 0).count()
}
