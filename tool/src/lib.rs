//! Study files made from text and shown as text.
//!
//! A study file is binary (documents 01 and 02); nobody writes one by hand. This
//! library and the program `study` on top of it are the way in for a modeller.
//!
//! | module         | what it knows                                            |
//! |----------------|----------------------------------------------------------|
//! | [`exact`]      | decimal text as exact fractions, rounding                |
//! | [`source`]     | text files, and problems with their file and line        |
//! | [`words`]      | the refusal numbers in plain words, numbers for people   |
//! | [`mod@format`] | the bytes of a study file, questions 1 to 5              |
//! | [`culprit`]    | what makes check refuse a study: 6 to 11, 19 and 23      |
//! | [`text`]       | a study as text, both ways                               |
//! | [`tntp`]       | a study from a net file and trips files                  |
//!
//! Whether a study is accepted is not decided here: [`second::check`] does.

#![forbid(unsafe_code)]
#![warn(missing_docs)]

pub mod culprit;
pub mod exact;
pub mod format;
pub mod source;
pub mod text;
pub mod tntp;
pub mod words;
