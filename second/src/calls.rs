//! The public calls, but for the one of [`desks`](mod@crate::desks).
//!
//! Where questions 1 to 11 are put, questions 19 and 23 come after 8; where
//! questions 14 to 16 are put, question 20 comes after 16. Question 12 is put to
//! the note too where one is lent.

use crate::assignment::Assignment;
use crate::columns::{LINE_BYTES, Line};
use crate::format::{MOST_LINKS, Sections};
use crate::network::{Adjacencies, Adjacency, ByLink, Study};
use crate::note::{ask_paths, halve, take_out};
use crate::questions::{LARGEST_SHARE, Question};
use crate::staircase::{Gauge, Part};
use crate::tables::{ask_carrying, ask_conservation, ask_length, ask_note_length, ask_totals};
use crate::turns::{Turns, ask_run};

pub use crate::turns::{REACHED, RUN_FINEST, RunAnswer, SPENT, WAITING};

/// A pass moved the table.
pub const MOVED: u8 = 1;
/// A pass found no move.
pub const FINEST: u8 = 2;

/// What a pass answers.
#[derive(Clone, Copy, Debug, Default, PartialEq, Eq)]
pub struct PassAnswer {
    /// The first question answered "no", or 0.
    pub refusal: u8,
    /// 0 refused, 1 moved, 2 finest.
    pub outcome: u8,
    /// Gap of the judged table.
    pub gap: u64,
    /// Cost of the judged table.
    pub cost: u64,
    /// Share after the pass.
    pub share: u32,
    /// Links of the judged table on step 256.
    pub over: u32,
}

/// What an audit answers.
#[derive(Clone, Copy, Debug, Default, PartialEq, Eq)]
pub struct AuditAnswer {
    /// The first question answered "no", or 0.
    pub refusal: u8,
    /// Gap of the table.
    pub gap: u64,
    /// Cost of the table.
    pub cost: u64,
    /// Links of the table on step 256.
    pub over: u32,
}

/// What taking back answers.
#[derive(Clone, Copy, Debug, Default, PartialEq, Eq)]
pub struct TakeBackAnswer {
    /// The first question answered "no", or 0.
    pub refusal: u8,
    /// Share of the table that is left.
    pub share: u32,
}

/// The number that answers a call with nothing else to tell.
fn number(result: Result<(), Question>) -> u8 {
    result.map_or_else(Question::number, |()| 0)
}

/// Is this an accepted study? Questions 1 to 11.
pub fn check(file: &[u8]) -> u8 {
    number(Study::read(file).map(drop))
}

/// Writes an accepted study without gaps. Questions 1 to 11, then 17.
pub fn pack(file: &[u8], output: &mut [u8]) -> u8 {
    number(try_pack(file, output))
}

fn try_pack(file: &[u8], output: &mut [u8]) -> Result<(), Question> {
    let sections = Sections::find(file)?;
    Study::decode(&sections)?;
    Question::OutputLength.ask(output.len() >= sections.packed_length())?;
    sections.write_packed(output);
    Ok(())
}

/// Writes the loading at empty roads. Questions 1 to 12.
pub fn start(file: &[u8], table: &mut [u32]) -> u8 {
    number(try_start(file, table))
}

fn try_start(file: &[u8], table: &mut [u32]) -> Result<(), Question> {
    let study = Study::read(file)?;
    let used = ask_length(&study, table.len())?;
    let adjacencies = Adjacencies::of(&study);
    Assignment::start(&study, &adjacencies, &mut table[..used]);
    Ok(())
}

/// Judges a table and moves it. The note of a move has the number of loadings
/// that were added, j, or 0 for a doubling; then for each class and destination
/// every node's next link, 65,535 where it has none and throughout for a
/// doubling.
/// Questions 1 to 12, then 14 to 16 and 20.
pub fn pass(file: &[u8], table: &mut [u32], share: u32, note: &mut [u16]) -> PassAnswer {
    try_pass(file, table, share, note).unwrap_or_else(|question| PassAnswer {
        refusal: question.number(),
        ..PassAnswer::default()
    })
}

fn try_pass(
    file: &[u8],
    table: &mut [u32],
    share: u32,
    note: &mut [u16],
) -> Result<PassAnswer, Question> {
    let study = Study::read(file)?;
    let used = ask_length(&study, table.len())?;
    let noted = ask_note_length(&study, note.len())?;
    let table = &mut table[..used];
    let adjacencies = Adjacencies::of(&study);
    let totals = accept(&study, &adjacencies.cars, table, share)?;

    let mut assignment = Assignment::new(&study, &adjacencies, share, totals);
    assignment.find_times();
    assignment.find_loading();
    let gap = assignment.gap_from_loading();
    let (cost, over) = assignment.cost_and_over();
    let chosen = assignment.choose_move();
    if let Some(chosen) = chosen {
        assignment.write_note(chosen, &mut note[..noted]);
        assignment.make_move(chosen, table);
    }
    Ok(PassAnswer {
        refusal: 0,
        outcome: if chosen.is_some() { MOVED } else { FINEST },
        gap,
        cost,
        share: assignment.share(),
        over,
    })
}

/// Puts questions 14 to 16 and 20 to a lent table as long as it is used. Hands
/// back each link's total. The lists are of all links.
fn accept(
    study: &Study,
    adjacency: &Adjacency,
    table: &[u32],
    share: u32,
) -> Result<ByLink<u32>, Question> {
    Question::Share.ask((1..=LARGEST_SHARE).contains(&share))?;
    let totals = ask_totals(study, table, share)?;
    ask_conservation(study, adjacency, table, share)?;
    ask_carrying(study, adjacency, table, &totals)?;
    Ok(totals)
}

/// Takes the move that a note tells of back out of a table: so many loadings
/// along the note's links, or a doubling. Questions 1 to 12, then 14 to 16 and
/// 20, then 21 and 22.
pub fn take_back(file: &[u8], table: &mut [u32], share: u32, note: &[u16]) -> TakeBackAnswer {
    match try_take_back(file, table, share, note) {
        Ok(share) => TakeBackAnswer { refusal: 0, share },
        Err(question) => TakeBackAnswer {
            refusal: question.number(),
            share: 0,
        },
    }
}

/// Hands back the share that is left.
fn try_take_back(
    file: &[u8],
    table: &mut [u32],
    share: u32,
    note: &[u16],
) -> Result<u32, Question> {
    let study = Study::read(file)?;
    let used = ask_length(&study, table.len())?;
    let noted = ask_note_length(&study, note.len())?;
    let table = &mut table[..used];
    let adjacency = Adjacency::of(&study);
    accept(&study, &adjacency, table, share)?;

    match u32::from(note[0]) {
        0 => halve(table, share),
        step => {
            let loading = ask_paths(&study, &note[1..noted])?;
            take_out(&loading, step, table, share)
        }
    }
}

/// Starts, then judges and moves until one of the three endings. Questions 1
/// to 13.
pub fn run(file: &[u8], table: &mut [u32], budget: u32, excess: u16) -> RunAnswer {
    try_run(file, table, budget, excess).unwrap_or_else(RunAnswer::refused)
}

fn try_run(
    file: &[u8],
    table: &mut [u32],
    budget: u32,
    excess: u16,
) -> Result<RunAnswer, Question> {
    let study = Study::read(file)?;
    let used = ask_run(&study, table.len(), budget)?;
    let adjacencies = Adjacencies::of(&study);
    let mut run = Turns::start(&study, &adjacencies, &mut table[..used], budget, excess);
    loop {
        if let Some(ending) = run.turn() {
            return Ok(run.answer(ending));
        }
    }
}

/// The gap and cost of a lent table and how many of its links are over.
/// Questions 1 to 12, then 14 to 16 and 20.
pub fn audit(file: &[u8], table: &[u32], share: u32) -> AuditAnswer {
    try_audit(file, table, share).unwrap_or_else(|question| AuditAnswer {
        refusal: question.number(),
        ..AuditAnswer::default()
    })
}

fn try_audit(file: &[u8], table: &[u32], share: u32) -> Result<AuditAnswer, Question> {
    let study = Study::read(file)?;
    let used = ask_length(&study, table.len())?;
    let adjacencies = Adjacencies::of(&study);
    let totals = accept(&study, &adjacencies.cars, &table[..used], share)?;

    let mut assignment = Assignment::new(&study, &adjacencies, share, totals);
    assignment.find_times();
    let (cost, over) = assignment.cost_and_over();
    Ok(AuditAnswer {
        refusal: 0,
        gap: assignment.gap_from_distances(),
        cost,
        over,
    })
}

/// Writes a line of 30 bytes for each link of a lent table, with its volume
/// and its time. Questions 1 to 12, then 14 to 16 and 20, then 18.
pub fn page(file: &[u8], table: &[u32], share: u32, page: &mut [u8]) -> u8 {
    number(try_page(file, table, share, page))
}

fn try_page(file: &[u8], table: &[u32], share: u32, page: &mut [u8]) -> Result<(), Question> {
    let study = Study::read(file)?;
    let used = ask_length(&study, table.len())?;
    let adjacency = Adjacency::of(&study);
    let totals = accept(&study, &adjacency, &table[..used], share)?;
    Question::PageLength.ask(page.len() >= LINE_BYTES * study.links)?;
    write_lines(&study, &totals, share, page);
    Ok(())
}

/// Writes the lines of an accepted table with this share and these totals over
/// the first bytes of `page`, which holds at least 30 for each link.
fn write_lines(study: &Study, totals: &ByLink<u32>, share: u32, page: &mut [u8]) {
    // All volumes and times before any line: so they are found several at once.
    let part = Part::of_trip(share);
    let (mut volumes, mut times) = ([0; MOST_LINKS], [0; MOST_LINKS]);
    let found = volumes.iter_mut().zip(&mut times);
    let roads = &study.roads[..study.links];
    for (((volume, time), &road), &total) in found.zip(roads).zip(totals) {
        *volume = part.volume(total);
        *time = Gauge::of(road).time(total, part);
    }

    let (lines, _) = page.as_chunks_mut::<LINE_BYTES>();
    for (link, line) in lines[..study.links].iter_mut().enumerate() {
        Line {
            link,
            tail: study.tails[link],
            head: study.heads[link],
            volume: volumes[link],
            time: times[link],
        }
        .write(line);
    }
}
