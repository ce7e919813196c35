//! The calls as the static library exports them. `include/ilstrovan.h` of the
//! repository says what each parameter is and what a caller owes.

declare_calls!("ilstrovan");
declare_noted_calls!("ilstrovan");

unsafe extern "C" {
    /// Desks: turns, then for each seat refusal, ending, tables judged, share,
    /// gap, cost, over.
    pub fn ilstrovan_desks(
        file_0: *const u8,
        file_0_length: usize,
        table_0: *mut u32,
        table_0_length: usize,
        file_1: *const u8,
        file_1_length: usize,
        table_1: *mut u32,
        table_1_length: usize,
        file_2: *const u8,
        file_2_length: usize,
        table_2: *mut u32,
        table_2_length: usize,
        file_3: *const u8,
        file_3_length: usize,
        table_3: *mut u32,
        table_3_length: usize,
        file_4: *const u8,
        file_4_length: usize,
        table_4: *mut u32,
        table_4_length: usize,
        file_5: *const u8,
        file_5_length: usize,
        table_5: *mut u32,
        table_5_length: usize,
        file_6: *const u8,
        file_6_length: usize,
        table_6: *mut u32,
        table_6_length: usize,
        file_7: *const u8,
        file_7_length: usize,
        table_7: *mut u32,
        table_7_length: usize,
        desks: u32,
        allowance: u32,
        budgets: *const [u32; 8],
        excesses: *const [u16; 8],
        answer: *mut [u64; 57],
    ) -> u8;
}

/// What a seat is lent, as the header has it.
#[derive(Clone, Copy, Debug)]
pub struct Seat {
    /// The study file.
    pub file: *const u8,
    /// Its length in bytes.
    pub file_length: usize,
    /// The flow table.
    pub table: *mut u32,
    /// How many numbers it holds.
    pub table_length: usize,
}

impl Seat {
    /// A seat that is lent a file and a table.
    pub fn of(file: &[u8], table: &mut [u32]) -> Self {
        Seat {
            file: file.as_ptr(),
            file_length: file.len(),
            table: table.as_mut_ptr(),
            table_length: table.len(),
        }
    }
}

/// A seat that is lent an empty file and an empty table.
impl Default for Seat {
    fn default() -> Self {
        Seat::of(&[], &mut [])
    }
}

/// [`ilstrovan_desks`] with the eight seats in an array, as the header has it.
///
/// # Safety
///
/// The caller owes what [`ilstrovan_desks`] is owed.
pub unsafe fn ilstrovan_desks_at(
    seats: &[Seat; 8],
    desks: u32,
    allowance: u32,
    budgets: *const [u32; 8],
    excesses: *const [u16; 8],
    answer: *mut [u64; 57],
) -> u8 {
    let [s0, s1, s2, s3, s4, s5, s6, s7] = *seats;
    // SAFETY: the caller's.
    unsafe {
        #[rustfmt::skip]
        let number = ilstrovan_desks(
            s0.file, s0.file_length, s0.table, s0.table_length,
            s1.file, s1.file_length, s1.table, s1.table_length,
            s2.file, s2.file_length, s2.table, s2.table_length,
            s3.file, s3.file_length, s3.table, s3.table_length,
            s4.file, s4.file_length, s4.table, s4.table_length,
            s5.file, s5.file_length, s5.table, s5.table_length,
            s6.file, s6.file_length, s6.table, s6.table_length,
            s7.file, s7.file_length, s7.table, s7.table_length,
            desks, allowance, budgets, excesses, answer,
        );
        number
    }
}
