//! How the calls of a static library are declared: once, for this library's and
//! for those of an earlier build, beside which the benchmark times them.

/// Declares the calls of a static library whose names begin with a prefix, but
/// for those that are lent a note and the one for desks. Each returns the refusal
/// number or 0, and writes all of `answer`. All are the same for every version of a
/// study.
macro_rules! declare_calls {
    ($prefix:literal) => {
        unsafe extern "C" {
            /// Check.
            #[link_name = concat!($prefix, "_check")]
            pub fn ilstrovan_check(file: *const u8, file_length: usize) -> u8;

            /// Pack.
            #[link_name = concat!($prefix, "_pack")]
            pub fn ilstrovan_pack(
                file: *const u8,
                file_length: usize,
                output: *mut u8,
                output_length: usize,
            ) -> u8;

            /// Start.
            #[link_name = concat!($prefix, "_start")]
            pub fn ilstrovan_start(
                file: *const u8,
                file_length: usize,
                table: *mut u32,
                table_length: usize,
            ) -> u8;

            /// Run: ending, tables judged, share, gap, cost, over.
            #[link_name = concat!($prefix, "_run")]
            pub fn ilstrovan_run(
                file: *const u8,
                file_length: usize,
                table: *mut u32,
                table_length: usize,
                budget: u32,
                excess: u16,
                answer: *mut [u64; 6],
            ) -> u8;

            /// Audit: gap, cost, over.
            #[link_name = concat!($prefix, "_audit")]
            pub fn ilstrovan_audit(
                file: *const u8,
                file_length: usize,
                table: *const u32,
                table_length: usize,
                share: u32,
                answer: *mut [u64; 3],
            ) -> u8;

            /// Page.
            #[link_name = concat!($prefix, "_page")]
            pub fn ilstrovan_page(
                file: *const u8,
                file_length: usize,
                table: *const u32,
                table_length: usize,
                share: u32,
                page: *mut u8,
                page_length: usize,
            ) -> u8;
        }
    };
}

/// Declares the calls that are lent a note (A.6), in the same way.
macro_rules! declare_noted_calls {
    ($prefix:literal) => {
        unsafe extern "C" {
            /// Pass: outcome, gap, cost, share, over.
            #[link_name = concat!($prefix, "_pass")]
            pub fn ilstrovan_pass(
                file: *const u8,
                file_length: usize,
                table: *mut u32,
                table_length: usize,
                share: u32,
                note: *mut u16,
                note_length: usize,
                answer: *mut [u64; 5],
            ) -> u8;

            /// Taking back: share.
            #[link_name = concat!($prefix, "_take_back")]
            pub fn ilstrovan_take_back(
                file: *const u8,
                file_length: usize,
                table: *mut u32,
                table_length: usize,
                share: u32,
                note: *const u16,
                note_length: usize,
                answer: *mut [u64; 1],
            ) -> u8;
        }
    };
}
