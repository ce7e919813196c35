//! Equilibrium assignment of trips to a road network.
//!
//! The calls are Rattle code, every one of them proved to answer what documents
//! 01 and 02 define, for any bytes, tables and numbers. This package links the
//! static library that holds them (`rt lib` in crates/interface_c) and gives them the
//! types of Rust.
//!
//! ```
//! // The town of two roads: roads of 10 and 15 hundredths of a minute from
//! // node 0 to node 1, and two trips.
//! let numbers: [u16; 29] = [
//!     1, 2, 2, 1, 32, 0, 20, 0, 52, 0, 2, 0, 54, 0, 4, 0, // header
//!     0, 1, 10, 10, 2, 0, 1, 15, 0, 1, // links
//!     1, // destination
//!     2, 0, // trips
//! ];
//! let file: Vec<u8> = numbers.into_iter().flat_map(u16::to_le_bytes).collect();
//! let mut table = [0; 2];
//!
//! let run = ilstrovan::run(&file, &mut table, 10, 0)?;
//! assert_eq!(run.ending, ilstrovan::Ending::Reached);
//! assert_eq!((run.judged, run.share, run.gap, run.cost), (5, 9, 0, 13_104));
//! assert_eq!(run.over, 0); // no link carries four times its capacity
//! assert_eq!(table, [16, 2]);
//!
//! // The page of that table: link, tail, head, volume and minutes.
//! let mut page = [0; 2 * ilstrovan::LINE_BYTES];
//! ilstrovan::page(&file, &table, run.share, &mut page)?;
//! let lines = [
//!     "  0   0   1     1.77     0.15\n",
//!     "  1   0   1     0.22     0.15\n",
//! ];
//! assert_eq!(page, lines.concat().as_bytes());
//!
//! // A pass notes its move: one loading, from node 0 by link 1.
//! let (mut table, mut note) = ([16, 0], [0; 3]);
//! let pass = ilstrovan::pass(&file, &mut table, 8, &mut note)?;
//! assert_eq!((table, pass.share), ([16, 2], 9));
//! assert_eq!(note, [1, 1, ilstrovan::NO_LINK]);
//!
//! // By the note the move is taken back.
//! let share = ilstrovan::take_back(&file, &mut table, pass.share, &note)?;
//! assert_eq!((table, share), ([16, 0], 8));
//! # Ok::<(), ilstrovan::Refusal>(())
//! ```
//!
//! A study has version 1, 2, 3 or 4. From version 2 on nodes can be closed: a link
//! into a closed node carries flow to that node only, so no path leads through
//! it. From version 3 on each link has a power, 1 to 4, with which its time rises;
//! in versions 1 and 2 it is 4. In version 4 there are lorries beside the cars, with
//! trips of their own, in car units, and links can be barred to them; times and
//! all answers go by the flow of both.
//!
//! A flow table has destinations × links numbers, and a note 1 + destinations ×
//! nodes. In version 4 each has as many for the cars and after them as many for
//! the lorries: 2 × destinations × links numbers, and 1 + 2 × destinations ×
//! nodes.
//!
//! An office with several studies runs them together: [`desks`] takes up to eight
//! of them, each with its own budget, excess and flow table, and gives them turns.
//!
//! A call needs at most 512 KiB of stack. It keeps nothing, so calls may run in
//! any number of threads.

#![warn(missing_docs)]

#[macro_use]
mod declare;
mod desks;
mod refusal;
pub mod sys;

pub use desks::{Desk, DesksAnswer, SEATS, desks};
pub use refusal::Refusal;

/// Bytes of a link's line on a page.
pub const LINE_BYTES: usize = 30;

/// In a note, what a node without a next link has.
pub const NO_LINK: u16 = 65_535;

/// Numbers in the longest note, that of cars and lorries, 32 destinations and 128
/// nodes: as many are enough for any study.
pub const LONGEST_NOTE: usize = 1 + 2 * 32 * 128;

/// What a pass did.
#[derive(Clone, Copy, Debug, PartialEq, Eq)]
pub enum Outcome {
    /// It moved the table.
    Moved,
    /// There is no move: the table and the note are as they were.
    Finest,
}

/// How a run ended.
#[derive(Clone, Copy, Debug, PartialEq, Eq)]
pub enum Ending {
    /// The gap is within the excess.
    Reached,
    /// There is no move from the last judged table.
    Finest,
    /// The budget is used up.
    Spent,
    /// The allowance ended before the run; of [`desks`] only.
    Waiting,
}

impl Ending {
    /// The ending with this number.
    fn of(number: u64) -> Self {
        match number {
            1 => Ending::Reached,
            2 => Ending::Finest,
            3 => Ending::Spent,
            _ => Ending::Waiting,
        }
    }
}

/// The answer of a pass.
#[derive(Clone, Copy, Debug, PartialEq, Eq)]
pub struct Pass {
    /// What the pass did.
    pub outcome: Outcome,
    /// Gap of the judged table.
    pub gap: u64,
    /// Cost of the judged table.
    pub cost: u64,
    /// Share of the table as it is now.
    pub share: u32,
    /// Links of the judged table that are past their curves: their total is at
    /// least four times their capacity.
    pub over: u32,
}

/// The answer of a run.
#[derive(Clone, Copy, Debug, PartialEq, Eq)]
pub struct Run {
    /// How the run ended.
    pub ending: Ending,
    /// Tables judged.
    pub judged: u32,
    /// Share of the last judged table.
    pub share: u32,
    /// Gap of the last judged table.
    pub gap: u64,
    /// Cost of the last judged table.
    pub cost: u64,
    /// Links of the last judged table that are past their curves.
    pub over: u32,
}

impl Run {
    /// The answer in these numbers.
    fn of([ending, judged, share, gap, cost, over]: [u64; 6]) -> Self {
        Run {
            ending: Ending::of(ending),
            judged: judged as u32,
            share: share as u32,
            gap,
            cost,
            over: over as u32,
        }
    }
}

/// The answer of an audit.
#[derive(Clone, Copy, Debug, PartialEq, Eq)]
pub struct Audit {
    /// Gap of the table.
    pub gap: u64,
    /// Cost of the table.
    pub cost: u64,
    /// Links of the table that are past their curves.
    pub over: u32,
}

/// Is the file an acceptable study? Refusals 1 to 8, then 19, then 23, then 9 to
/// 11.
pub fn check(file: &[u8]) -> Result<(), Refusal> {
    // SAFETY: the pointer and the length are those of one slice.
    let number = unsafe { sys::ilstrovan_check(file.as_ptr(), file.len()) };
    Refusal::of(number)
}

/// Writes the study to the start of `output` in its own version with no gaps.
/// Refusals as [`check`], then 17.
pub fn pack(file: &[u8], output: &mut [u8]) -> Result<(), Refusal> {
    // SAFETY: each pointer and length are those of one slice, and nothing else
    // refers to what is lent mutably.
    let number = unsafe {
        sys::ilstrovan_pack(file.as_ptr(), file.len(), output.as_mut_ptr(), output.len())
    };
    Refusal::of(number)
}

/// Writes the loading at empty roads to the start of `table`; its share is 1.
/// Refusals as [`check`], then 12.
pub fn start(file: &[u8], table: &mut [u32]) -> Result<(), Refusal> {
    // SAFETY: as in `pack`.
    let number =
        unsafe { sys::ilstrovan_start(file.as_ptr(), file.len(), table.as_mut_ptr(), table.len()) };
    Refusal::of(number)
}

/// Judges a table of this share and moves it towards least times: adds j loadings
/// to it and j to its share, or doubles both. Writes the move to the start of
/// `note`, for [`take_back`]. Refusals as [`start`], 12 of the note too, then 14
/// to 16, then 20.
///
/// A note holds at most [`LONGEST_NOTE`] numbers. First stands j; then, class by
/// class and destination by destination, the next link of each node, or
/// [`NO_LINK`], as at the destination itself and at a node without a path. A
/// doubling has j = 0 and [`NO_LINK`] throughout. Where there is no move the note
/// is as it was.
pub fn pass(file: &[u8], table: &mut [u32], share: u32, note: &mut [u16]) -> Result<Pass, Refusal> {
    let mut answer = [0; 5];
    // SAFETY: as in `pack`, and `answer` is an array of five numbers.
    let number = unsafe {
        sys::ilstrovan_pass(
            file.as_ptr(),
            file.len(),
            table.as_mut_ptr(),
            table.len(),
            share,
            note.as_mut_ptr(),
            note.len(),
            &mut answer,
        )
    };
    Refusal::of(number)?;
    let [outcome, gap, cost, share, over] = answer;
    Ok(Pass {
        outcome: match outcome {
            1 => Outcome::Moved,
            _ => Outcome::Finest,
        },
        gap,
        cost,
        share: share as u32,
        over: over as u32,
    })
}

/// Takes a move back out of a table of this share: lessens the table by j times
/// the loading along the note's links and the share by j, or, with j = 0, halves
/// both. Hands back the share of the table as it is now. Refusals as [`pass`],
/// then 21, then 22.
///
/// Directly after a pass that moved, with the file, the table, the share and the
/// note as that pass left them, this restores exactly the table and the share that
/// it judged. But the note may be anybody's. With j = 0 its links are not read.
///
/// ```
/// # let numbers: [u16; 29] = [
/// #     1, 2, 2, 1, 32, 0, 20, 0, 52, 0, 2, 0, 54, 0, 4, 0, //
/// #     0, 1, 10, 10, 2, 0, 1, 15, 0, 1, 1, 2, 0,
/// # ];
/// # let file: Vec<u8> = numbers.into_iter().flat_map(u16::to_le_bytes).collect();
/// // The first pass over the start of the town of two roads is a doubling.
/// let (mut table, mut note) = ([0; 2], [0; 3]);
/// ilstrovan::start(&file, &mut table)?;
/// let pass = ilstrovan::pass(&file, &mut table, 1, &mut note)?;
/// assert_eq!((table, pass.share, note[0]), ([4, 0], 2, 0));
///
/// assert_eq!(ilstrovan::take_back(&file, &mut table, 2, &note), Ok(1));
/// assert_eq!(table, [2, 0]);
/// // A share of 1 is odd.
/// let refused = ilstrovan::take_back(&file, &mut table, 1, &note).unwrap_err();
/// assert_eq!(refused.number(), 22);
/// # Ok::<(), ilstrovan::Refusal>(())
/// ```
pub fn take_back(file: &[u8], table: &mut [u32], share: u32, note: &[u16]) -> Result<u32, Refusal> {
    let mut answer = [0];
    // SAFETY: as in `pack`, and `answer` is an array of one number.
    let number = unsafe {
        sys::ilstrovan_take_back(
            file.as_ptr(),
            file.len(),
            table.as_mut_ptr(),
            table.len(),
            share,
            note.as_ptr(),
            note.len(),
            &mut answer,
        )
    };
    Refusal::of(number)?;
    let [share] = answer;
    Ok(share as u32)
}

/// Starts, then judges and moves until the gap is within the excess, there is no
/// move, or the budget is used up. Leaves the last judged table. Refusals as
/// [`start`], then 13.
pub fn run(file: &[u8], table: &mut [u32], budget: u32, excess: u16) -> Result<Run, Refusal> {
    let mut answer = [0; 6];
    // SAFETY: as in `pack`, and `answer` is an array of six numbers.
    let number = unsafe {
        sys::ilstrovan_run(
            file.as_ptr(),
            file.len(),
            table.as_mut_ptr(),
            table.len(),
            budget,
            excess,
            &mut answer,
        )
    };
    Refusal::of(number)?;
    Ok(Run::of(answer))
}

/// The gap and cost of a table of this share, whoever made it, and how many of
/// its links are past their curves. Refusals as [`start`], then 14 to 16, then
/// 20.
pub fn audit(file: &[u8], table: &[u32], share: u32) -> Result<Audit, Refusal> {
    let mut answer = [0; 3];
    // SAFETY: as in `pack`, and `answer` is an array of three numbers.
    let number = unsafe {
        sys::ilstrovan_audit(
            file.as_ptr(),
            file.len(),
            table.as_ptr(),
            table.len(),
            share,
            &mut answer,
        )
    };
    Refusal::of(number)?;
    let [gap, cost, over] = answer;
    Ok(Audit {
        gap,
        cost,
        over: over as u32,
    })
}

/// Writes the page of a table of this share, whoever made it, to the start of
/// `page`: a line of [`LINE_BYTES`] for each link, in link order. Refusals as
/// [`audit`], then 18.
///
/// Columns 1 to 3 of a line hold the link, 5 to 7 its tail, 9 to 11 its head, 13
/// to 20 its volume, which is its total flow in trips, rounded down to
/// hundredths, and 22 to 29 its time in minutes, each right-aligned. All else is
/// spaces, and at the end is a line feed.
pub fn page(file: &[u8], table: &[u32], share: u32, page: &mut [u8]) -> Result<(), Refusal> {
    // SAFETY: as in `pack`.
    let number = unsafe {
        sys::ilstrovan_page(
            file.as_ptr(),
            file.len(),
            table.as_ptr(),
            table.len(),
            share,
            page.as_mut_ptr(),
            page.len(),
        )
    };
    Refusal::of(number)
}
