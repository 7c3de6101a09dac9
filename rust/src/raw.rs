//! The C functions on buffers that the caller owns, with the numbers of `include/igbezolum.h` as they are. All `unsafe` of this crate
//! is here: each function hands the pointers and lengths of its slices over to one call.

/// What [`read`] answers; `include/igbezolum.h` has the same as `igb_reading`.
#[repr(C)]
#[derive(Clone, Copy, Debug, Default, PartialEq, Eq)]
pub struct Reading {
    /// 0 if the text is accepted, else the number of the refusal.
    pub answer: u32,
    /// The byte of a refusal.
    pub place: u32,
    /// Variables of the header; this and the rest are 0 if the text is refused.
    pub vars: u32,
    /// Clauses of the header.
    pub clauses: u32,
    /// Entries of the list.
    pub count: u32,
}

/// What [`run`] and [`setup`] answer; `include/igbezolum.h` has the same as `igb_report`.
#[repr(C)]
#[derive(Clone, Copy, Debug, Default, PartialEq, Eq)]
pub struct Report {
    /// 0 settled, 20 no model, 21 stopped, else the number of the refusal.
    pub answer: u32,
    /// The index of a refusal.
    pub place: u32,
    /// Calls begun; this and the rest are 0 if the run is refused.
    pub calls: u32,
    /// Tries taken.
    pub tries: u32,
    /// Variables marked forced.
    pub forced: u32,
    /// Variables marked free.
    pub free: u32,
}

/// What [`why`] answers; `include/igbezolum.h` has the same as `igb_why_report`.
#[repr(C)]
#[derive(Clone, Copy, Debug, Default, PartialEq, Eq)]
pub struct WhyReport {
    /// 0 clauses are marked, 20 no model, 21 stopped, 22 not forced, else the number of the refusal.
    pub answer: u32,
    /// The index of a refusal.
    pub place: u32,
    /// Calls begun; this and the next are 0 if it is refused.
    pub calls: u32,
    /// Tries taken.
    pub tries: u32,
}

/// What [`close`] answers; `include/igbezolum.h` has the same as `igb_closing`.
#[repr(C)]
#[derive(Clone, Copy, Debug, Default, PartialEq, Eq)]
pub struct Closing {
    /// 0 closed, 20 a clause became false, else the number of the refusal.
    pub answer: u32,
    /// The index of a refusal.
    pub place: u32,
    /// Rounds over all clauses; this and the next are 0 if it is refused.
    pub rounds: u32,
    /// Variables that are set; 0 after 20.
    pub set: u32,
}

/// What [`shorter`] answers; `include/igbezolum.h` has the same as `igb_shorter_report`.
#[repr(C)]
#[derive(Clone, Copy, Debug, Default, PartialEq, Eq)]
pub struct ShorterReport {
    /// 0 settled, 20 no model, 21 stopped, else the number of the refusal.
    pub answer: u32,
    /// The index of a refusal.
    pub place: u32,
    /// Calls begun; this and the rest are 0 if it is refused.
    pub calls: u32,
    /// Tries taken.
    pub tries: u32,
    /// Variables marked forced.
    pub forced: u32,
    /// Variables marked free.
    pub free: u32,
    /// Bytes of the text.
    pub length: u32,
}

/// What [`read_groups`] answers; `include/igbezolum.h` has the same as `igb_groups`.
#[repr(C)]
#[derive(Clone, Copy, Debug, Default, PartialEq, Eq)]
pub struct Groups {
    /// 0 if the text is accepted, else the number of the refusal.
    pub answer: u32,
    /// The byte of a refusal.
    pub place: u32,
    /// Groups; this and the rest are 0 if the text is refused.
    pub groups: u32,
    /// Variables of the expanded list.
    pub vars: u32,
    /// Its clauses.
    pub clauses: u32,
    /// Its entries.
    pub count: u32,
}

/// What [`check_claims`] answers; `include/igbezolum.h` has the same as `igb_verdict`.
#[repr(C)]
#[derive(Clone, Copy, Debug, Default, PartialEq, Eq)]
pub struct Verdict {
    /// 0 accepted, else the number of the refusal.
    pub answer: u32,
    /// The index or the byte of a refusal.
    pub place: u32,
}

mod c {
    use super::{Closing, Groups, Reading, Report, ShorterReport, Verdict, WhyReport};

    extern "C" {
        pub fn igb_read(text: *const u8, text_len: usize, entries: *mut i32, entries_len: usize) -> Reading;
        pub fn igb_run(
            entries: *const i32,
            entries_len: usize,
            vars: u32,
            held: *const i32,
            held_len: usize,
            budget: u32,
            chunk_limit: u32,
            status: *mut u8,
            status_len: usize,
            calls: *mut u32,
            calls_len: usize,
            ways: *mut u8,
            ways_len: usize,
            hints: *mut u32,
            hints_len: usize,
            log: *mut u32,
            log_len: usize,
        ) -> Report;
        pub fn igb_setup(
            entries: *const i32,
            entries_len: usize,
            vars: u32,
            held: *const i32,
            held_len: usize,
            budget: u32,
            values: *mut u8,
            values_len: usize,
        ) -> Report;
        pub fn igb_close(
            entries: *const i32,
            entries_len: usize,
            vars: u32,
            held: *const i32,
            held_len: usize,
            values: *mut u8,
            values_len: usize,
        ) -> Closing;
        pub fn igb_shorter(
            entries: *const i32,
            entries_len: usize,
            vars: u32,
            budget: u32,
            chunk_limit: u32,
            text: *mut u8,
            text_len: usize,
        ) -> ShorterReport;
        pub fn igb_check_claims(entries: *const i32, entries_len: usize, vars: u32, text: *const u8, text_len: usize) -> Verdict;
        pub fn igb_why(
            entries: *const i32,
            entries_len: usize,
            vars: u32,
            literal: i32,
            budget: u32,
            marks: *mut u8,
            marks_len: usize,
            values: *mut u8,
            values_len: usize,
        ) -> WhyReport;
        pub fn igb_witness(
            entries: *const i32,
            entries_len: usize,
            vars: u32,
            held: *const i32,
            held_len: usize,
            budget: u32,
            chunk_limit: u32,
            variable: u32,
            first: *mut i32,
            first_len: usize,
            witness: *mut i32,
            witness_len: usize,
        ) -> Report;
        pub fn igb_witness_text(text: *const u8, text_len: usize, variable: u32, out: *mut u8, out_len: usize) -> usize;
        pub fn igb_table(text: *const u8, text_len: usize, held: *const i32, held_len: usize, out: *mut u8, out_len: usize) -> usize;
        pub fn igb_read_groups(
            text: *const u8,
            text_len: usize,
            entries: *mut i32,
            entries_len: usize,
            sizes: *mut u8,
            sizes_len: usize,
        ) -> Groups;
        pub fn igb_groups_table(text: *const u8, text_len: usize, out: *mut u8, out_len: usize) -> usize;
        pub fn igb_version() -> u32;
    }
}

// In all of them: the C functions ask for pointers that are valid for their lengths and for written buffers that overlap no other
// argument. Slices are that, and a `&mut` one overlaps nothing. The functions keep no pointer, and every input is answered.

/// Reads a text. With 4,096 entries or more the first 4,096 are written: the list and then zeros; with fewer, or after 2, nothing is.
pub fn read(text: &[u8], entries: &mut [i32]) -> Reading {
    // SAFETY: as said above.
    unsafe { c::igb_read(text.as_ptr(), text.len(), entries.as_mut_ptr(), entries.len()) }
}

/// Runs on a list with literals held. If it is not refused, the first `vars` statuses, calls, ways and hints and the first `6 * (vars + 1)`
/// log numbers are written.
#[allow(clippy::too_many_arguments)] // those of the C function
pub fn run(
    entries: &[i32],
    vars: u32,
    held: &[i32],
    budget: u32,
    chunk_limit: u32,
    status: &mut [u8],
    calls: &mut [u32],
    ways: &mut [u8],
    hints: &mut [u32],
    log: &mut [u32],
) -> Report {
    let (s, h, l) = (status.as_mut_ptr(), hints.as_mut_ptr(), log.as_mut_ptr());
    let (q, w) = (calls.as_mut_ptr(), ways.as_mut_ptr());
    let (e, n, k, m) = (entries.as_ptr(), entries.len(), held.as_ptr(), held.len());
    let (a, b, d, f, g) = (status.len(), calls.len(), ways.len(), hints.len(), log.len());
    // SAFETY: as said above.
    unsafe { c::igb_run(e, n, vars, k, m, budget, chunk_limit, s, a, q, b, w, d, h, f, l, g) }
}

/// The first model of a run and the witness of a free variable. If it is not refused, the first `vars` literals of both buffers are
/// written.
#[allow(clippy::too_many_arguments)] // those of the C function
pub fn witness(
    entries: &[i32],
    vars: u32,
    held: &[i32],
    budget: u32,
    chunk_limit: u32,
    variable: u32,
    first: &mut [i32],
    witness: &mut [i32],
) -> Report {
    let (f, w) = (first.as_mut_ptr(), witness.as_mut_ptr());
    let (e, n, k, m) = (entries.as_ptr(), entries.len(), held.as_ptr(), held.len());
    // SAFETY: as said above.
    unsafe { c::igb_witness(e, n, vars, k, m, budget, chunk_limit, variable, f, first.len(), w, witness.len()) }
}

/// Puts the first model and the witness of a variable, a line each, at the start of a buffer and answers their length; 0, and nothing is
/// written, if there is no room for 4,096 bytes.
pub fn witness_text(text: &[u8], variable: u32, out: &mut [u8]) -> usize {
    // SAFETY: as said above.
    unsafe { c::igb_witness_text(text.as_ptr(), text.len(), variable, out.as_mut_ptr(), out.len()) }
}

/// Why a literal is forced. If it is not refused, the first 1,024 marks and the first `vars` values are written.
pub fn why(entries: &[i32], vars: u32, literal: i32, budget: u32, marks: &mut [u8], values: &mut [u8]) -> WhyReport {
    let (m, v) = (marks.as_mut_ptr(), values.as_mut_ptr());
    let (e, n) = (entries.as_ptr(), entries.len());
    // SAFETY: as said above.
    unsafe { c::igb_why(e, n, vars, literal, budget, m, marks.len(), v, values.len()) }
}

/// One valid setup of a list with literals held. If it is not refused, the first `vars` values are written.
pub fn setup(entries: &[i32], vars: u32, held: &[i32], budget: u32, values: &mut [u8]) -> Report {
    let (e, n, k, m) = (entries.as_ptr(), entries.len(), held.as_ptr(), held.len());
    // SAFETY: as said above.
    unsafe { c::igb_setup(e, n, vars, k, m, budget, values.as_mut_ptr(), values.len()) }
}

/// What follows at once from a list with literals held. If it is not refused, the first `vars` values are written.
pub fn close(entries: &[i32], vars: u32, held: &[i32], values: &mut [u8]) -> Closing {
    let (e, n, k, m) = (entries.as_ptr(), entries.len(), held.as_ptr(), held.len());
    // SAFETY: as said above.
    unsafe { c::igb_close(e, n, vars, k, m, values.as_mut_ptr(), values.len()) }
}

/// The shorter file of a list. If it is not refused, as many bytes are written at the start of the text as are answered.
pub fn shorter(entries: &[i32], vars: u32, budget: u32, chunk_limit: u32, text: &mut [u8]) -> ShorterReport {
    // SAFETY: as said above.
    unsafe { c::igb_shorter(entries.as_ptr(), entries.len(), vars, budget, chunk_limit, text.as_mut_ptr(), text.len()) }
}

/// Whether a file of claims holds of a list.
pub fn check_claims(entries: &[i32], vars: u32, text: &[u8]) -> Verdict {
    // SAFETY: as said above.
    unsafe { c::igb_check_claims(entries.as_ptr(), entries.len(), vars, text.as_ptr(), text.len()) }
}

/// Puts the table of a text with literals held at the start of a buffer and answers its length; 0, and nothing is written, if there is no
/// room for 9,216 bytes.
pub fn table(text: &[u8], held: &[i32], out: &mut [u8]) -> usize {
    // SAFETY: as said above.
    unsafe { c::igb_table(text.as_ptr(), text.len(), held.as_ptr(), held.len(), out.as_mut_ptr(), out.len()) }
}

/// Reads a file of groups. With 4,096 entries and 128 sizes or more the first ones are written: the expanded list and the sizes, each with zeros
/// behind; with fewer, or after 2, nothing is.
pub fn read_groups(text: &[u8], entries: &mut [i32], sizes: &mut [u8]) -> Groups {
    let (e, n, s, m) = (entries.as_mut_ptr(), entries.len(), sizes.as_mut_ptr(), sizes.len());
    // SAFETY: as said above.
    unsafe { c::igb_read_groups(text.as_ptr(), text.len(), e, n, s, m) }
}

/// Puts the table of a file of groups at the start of a buffer and answers its length; 0, and nothing is written, if there is no room for 4,096
/// bytes.
pub fn groups_table(text: &[u8], out: &mut [u8]) -> usize {
    // SAFETY: as said above.
    unsafe { c::igb_groups_table(text.as_ptr(), text.len(), out.as_mut_ptr(), out.len()) }
}

/// The version of the library that is linked: 10,000 times the major number, 100 times the minor one and the patch number together.
#[must_use]
pub fn version() -> u32 {
    // SAFETY: it takes nothing.
    unsafe { c::igb_version() }
}
