//! The library through its C interface, and the peers that were found when this was built (cfg `cadical`, `picosat`).

use crate::counted;
use crate::plain;
use crate::raw::{self, Reading, Report};

extern "C" {
    fn bench_stack(entries: *const i32, entries_len: usize, vars: u32, budget: u32, chunk_limit: u32) -> usize;
}

#[cfg(cadical)]
extern "C" {
    fn bench_cadical(entries: *const i32, entries_len: usize, vars: u32, status: *mut u8) -> u32;
    fn bench_cadical_version() -> *const std::ffi::c_char;
}

#[cfg(picosat)]
extern "C" {
    fn bench_picosat(entries: *const i32, entries_len: usize, vars: u32, status: *mut u8) -> u32;
    fn bench_picosat_version() -> *const std::ffi::c_char;
}

/// Buffers of the greatest sizes, lent to every run.
pub struct Lent {
    pub status: [u8; 256],
    pub calls: [u32; 256],
    pub ways: [u8; 256],
    pub hints: [u32; 256],
    pub log: [u32; 6 * 257],
}

impl Lent {
    pub fn new() -> Self {
        Lent { status: [0; 256], calls: [0; 256], ways: [0; 256], hints: [0; 256], log: [0; 6 * 257] }
    }
}

pub struct Formula {
    pub entries: Vec<i32>,
    pub vars: u32,
    pub clauses: u32,
}

#[derive(Clone, Copy, PartialEq, Eq)]
pub enum Who {
    Library,
    Plain,
    Counted,
    #[cfg(cadical)]
    Cadical,
    #[cfg(picosat)]
    Picosat,
}

impl Who {
    pub fn all() -> Vec<Who> {
        vec![
            Who::Library,
            Who::Plain,
            Who::Counted,
            #[cfg(cadical)]
            Who::Cadical,
            #[cfg(picosat)]
            Who::Picosat,
        ]
    }

    /// Whether it answers by the same run, so that calls, tries and log are the same and a budget stops it at the same place.
    pub fn is_same_run(self) -> bool {
        matches!(self, Who::Library | Who::Plain | Who::Counted)
    }

    pub fn name(self) -> &'static str {
        match self {
            Who::Library => "library",
            Who::Plain => "plain Rust",
            Who::Counted => "plain Rust with counts",
            #[cfg(cadical)]
            Who::Cadical => "CaDiCaL",
            #[cfg(picosat)]
            Who::Picosat => "PicoSAT",
        }
    }

    /// A peer knows no budget, calls or tries: it gives the answer and the statuses alone.
    pub fn run(self, f: &Formula, budget: u32, chunk_limit: u32, lent: &mut Lent) -> Report {
        let Lent { status, calls, ways, hints, log } = lent;
        match self {
            Who::Library => raw::run(&f.entries, f.vars, &[], budget, chunk_limit, status, calls, ways, hints, log),
            Who::Plain => plain::run(&f.entries, f.vars, budget, chunk_limit, status, calls, ways, hints, log),
            Who::Counted => counted::run(&f.entries, f.vars, budget, chunk_limit, status, calls, ways, hints, log),
            // SAFETY: the pointers go with the lengths of their slices; a status byte is written for each variable, and there are at most 256.
            #[cfg(cadical)]
            Who::Cadical => unsafe {
                let answer = bench_cadical(f.entries.as_ptr(), f.entries.len(), f.vars, status.as_mut_ptr());
                Report { answer, ..Report::default() }
            },
            #[cfg(picosat)]
            Who::Picosat => unsafe {
                let answer = bench_picosat(f.entries.as_ptr(), f.entries.len(), f.vars, status.as_mut_ptr());
                Report { answer, ..Report::default() }
            },
        }
    }

    /// Peers do not read by the same rules, so that only the first two are asked.
    pub fn read(self, text: &[u8], entries: &mut [i32]) -> Reading {
        match self {
            Who::Library => raw::read(text, entries),
            _ => plain::read(text, entries),
        }
    }
}

/// The peers' versions, and which of them are missing.
pub fn peers() -> String {
    let mut said = Vec::new();
    // SAFETY: both return a string that is never freed.
    #[cfg(cadical)]
    said.push(format!("CaDiCaL {}", unsafe { std::ffi::CStr::from_ptr(bench_cadical_version()) }.to_string_lossy()));
    #[cfg(not(cadical))]
    said.push("CaDiCaL is not installed".to_string());
    #[cfg(picosat)]
    said.push(format!("PicoSAT {}", unsafe { std::ffi::CStr::from_ptr(bench_picosat_version()) }.to_string_lossy()));
    #[cfg(not(picosat))]
    said.push("PicoSAT is not installed".to_string());
    said.join(", ")
}

/// How many bytes of stack a run of the library needs.
pub fn stack(f: &Formula, budget: u32, chunk_limit: u32) -> usize {
    // SAFETY: the pointer goes with the length of its slice.
    unsafe { bench_stack(f.entries.as_ptr(), f.entries.len(), f.vars, budget, chunk_limit) }
}
