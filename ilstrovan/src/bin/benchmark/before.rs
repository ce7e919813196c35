//! The calls of an earlier build, whose static library ILSTROVAN_BEFORE names.
//! `build.rs` renames what it exports: its `ilstrovan_run` is linked as
//! `before_run`. A build from before A.4 leaves out the last number of an answer,
//! and the pass of one from before A.6 is lent no note.

use std::hint::black_box;

mod sys {
    declare_calls!("before");
    #[cfg(before_note)]
    declare_noted_calls!("before");

    #[cfg(not(before_note))]
    unsafe extern "C" {
        /// Pass without a note: outcome, gap, cost, share, over.
        #[link_name = "before_pass"]
        pub fn ilstrovan_pass(
            file: *const u8,
            file_length: usize,
            table: *mut u32,
            table_length: usize,
            share: u32,
            answer: *mut [u64; 5],
        ) -> u8;
    }
}

/// Whether it accepts a study: it refuses a version that it does not know.
pub fn accepts(file: &[u8]) -> bool {
    // SAFETY: pointer and length are those of a slice.
    unsafe { sys::ilstrovan_check(file.as_ptr(), file.len()) == 0 }
}

pub fn check(file: &[u8]) {
    black_box(accepts(file));
}

pub fn pack(file: &[u8], output: &mut [u8]) {
    let (bytes, size) = (file.as_ptr(), file.len());
    // SAFETY: pointers and lengths are those of slices.
    black_box(unsafe { sys::ilstrovan_pack(bytes, size, output.as_mut_ptr(), output.len()) });
}

pub fn start(file: &[u8], table: &mut [u32]) {
    let (bytes, size) = (file.as_ptr(), file.len());
    // SAFETY: as in `pack`.
    black_box(unsafe { sys::ilstrovan_start(bytes, size, table.as_mut_ptr(), table.len()) });
}

#[cfg(not(before_note))]
pub fn pass(file: &[u8], table: &mut [u32], share: u32, _: &mut [u16]) {
    let mut answer = [0; 5];
    let (bytes, size) = (file.as_ptr(), file.len());
    let (flows, length) = (table.as_mut_ptr(), table.len());
    // SAFETY: pointers and lengths are those of slices, and the answer has five numbers.
    unsafe { sys::ilstrovan_pass(bytes, size, flows, length, share, &mut answer) };
    black_box(answer);
}

#[cfg(before_note)]
pub fn pass(file: &[u8], table: &mut [u32], share: u32, note: &mut [u16]) {
    let mut answer = [0; 5];
    let (bytes, size) = (file.as_ptr(), file.len());
    let (flows, length) = (table.as_mut_ptr(), table.len());
    let (noted, room) = (note.as_mut_ptr(), note.len());
    // SAFETY: pointers and lengths are those of slices, and the answer has five numbers.
    unsafe { sys::ilstrovan_pass(bytes, size, flows, length, share, noted, room, &mut answer) };
    black_box(answer);
}

/// Only where the earlier build has it.
#[cfg(before_note)]
pub fn take_back(file: &[u8], table: &mut [u32], share: u32, note: &[u16]) {
    let mut answer = [0];
    let (bytes, size) = (file.as_ptr(), file.len());
    let (flows, length) = (table.as_mut_ptr(), table.len());
    let (noted, room) = (note.as_ptr(), note.len());
    // SAFETY: as in `pass`, and the answer has one number.
    unsafe {
        sys::ilstrovan_take_back(bytes, size, flows, length, share, noted, room, &mut answer)
    };
    black_box(answer);
}

pub fn run(file: &[u8], table: &mut [u32], budget: u32, excess: u16) {
    let mut answer = [0; 6];
    let (bytes, size) = (file.as_ptr(), file.len());
    let (flows, length) = (table.as_mut_ptr(), table.len());
    // SAFETY: as in `pass`, and the answer has six numbers.
    unsafe { sys::ilstrovan_run(bytes, size, flows, length, budget, excess, &mut answer) };
    black_box(answer);
}

pub fn audit(file: &[u8], table: &[u32], share: u32) {
    let mut answer = [0; 3];
    let (bytes, size) = (file.as_ptr(), file.len());
    // SAFETY: as in `pass`, and the answer has three numbers.
    unsafe { sys::ilstrovan_audit(bytes, size, table.as_ptr(), table.len(), share, &mut answer) };
    black_box(answer);
}

/// Only where the earlier build has it.
#[cfg(before_page)]
pub fn page(file: &[u8], table: &[u32], share: u32, page: &mut [u8]) {
    let (bytes, size) = (file.as_ptr(), file.len());
    let (flows, length) = (table.as_ptr(), table.len());
    let (lines, room) = (page.as_mut_ptr(), page.len());
    // SAFETY: as in `pass`.
    black_box(unsafe { sys::ilstrovan_page(bytes, size, flows, length, share, lines, room) });
}
