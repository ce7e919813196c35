//! Equilibrium assignment of trips to a road network.
//!
//! The second implementation of document 01, the scope, and of requests A.1,
//! A.2 and A.4 to A.8 of document 02, the page, the closed nodes, the links past
//! the curve, the powers, the note with taking back, lorries, and desks. Its
//! answers are compared with the first implementation's, call by call, and its
//! speed is the yardstick for the first one's.
//!
//! The layers, from the bottom up:
//!
//! | module          | what it knows                                           |
//! |-----------------|---------------------------------------------------------|
//! | [`questions`]   | the 25 questions and their numbers                      |
//! | [`mod@format`]  | the bytes of a study file (questions 1 to 5), versions  |
//! | [`network`]     | the decoded study (questions 6 to 11, 19 and 23)        |
//! | `reach`         | who has a path (question 11)                            |
//! | `adjacency`     | the links at each node, for each class                  |
//! | [`staircase`]   | a link's time and area, and whether it is over          |
//! | [`tables`]      | lent flow tables (questions 12, 15, 16 and 20)          |
//! | [`least_times`] | distances and next links to one destination             |
//! | [`loading`]     | sending trips along next links                          |
//! | [`note`]        | lent notes and taking back (questions 21 and 22)        |
//! | [`assignment`]  | judging a table and moving it                           |
//! | `turns`         | a run, one turn after the other                         |
//! | [`columns`]     | the lines of a page                                     |
//! | [`calls`]       | eight of the nine public calls                          |
//! | [`mod@desks`]   | the ninth: runs whose turns go round (24 and 25)        |
//! | [`mod@listing`] | what the programs `assign` and `page` print             |
//!
//! [`draft`], [`cases`] and [`stream`] make studies, lists of calls and
//! recordings of them for comparison.

#![forbid(unsafe_code)]
#![warn(missing_docs)]

mod adjacency;
pub mod assignment;
pub mod calls;
pub mod cases;
pub mod columns;
pub mod desks;
pub mod draft;
pub mod format;
pub mod least_times;
pub mod listing;
pub mod loading;
pub mod network;
pub mod note;
pub mod questions;
mod reach;
pub mod staircase;
pub mod stream;
pub mod tables;
mod turns;

pub use calls::{
    AuditAnswer, FINEST, MOVED, PassAnswer, REACHED, RUN_FINEST, RunAnswer, SPENT, TakeBackAnswer,
    WAITING, audit, check, pack, page, pass, run, start, take_back,
};
pub use desks::{Desk, DesksAnswer, SEATS, desks};
pub use listing::{listing, page_listing};
