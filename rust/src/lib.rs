//! Which switches of a card's rules are forced, and which are free.
//!
//! A card's rules are a DIMACS CNF text, one variable a switch. [`read`] takes the text, [`Formula::run`] works out the status of every
//! switch, [`Formula::run_held`] the same where some choices are made, [`Formula::setup`] finds one valid setup, [`Formula::close`] says
//! what follows at once, [`Formula::check_claims`] whether what another tool claims holds, [`Formula::why`] which rules force a switch, [`Formula::witness`] has two setups that differ on a free one,
//! [`Formula::shorter`] writes a shorter text with the same setups, and [`table`] prints the statuses as the program `table` does. [`Groups::read`]
//! takes switches with more than two positions. What breaks the rules is refused: [`Refusal`] says by which rule and where. The answers are those of a proved library, which
//! this crate links; [`raw`] has its functions as they are.
//!
//! ```
//! use igbezolum::{read, End, Found, Limits, Settled, Status, Way};
//!
//! let card = read(b"p cnf 2 2\n1 2 0 1 -2 0\n")?;
//! let run = card.run(Limits::default())?;
//! assert_eq!(run.end, End::Settled);
//! assert_eq!(run.status, [Status::ForcedOn, Status::Free]);
//! assert_eq!(run.forced().collect::<Vec<_>>(), [(1, true)]);
//! assert_eq!(run.held_by(1), Some(1));
//! let Found::Reason(reason) = card.why(1, 1_000_000)?.found else { panic!("1 is forced") };
//! assert_eq!(reason.clauses.iter().map(|clause| clause.number).collect::<Vec<_>>(), [1, 2]);
//! assert_eq!(run.settled(2), Some(Settled { status: Status::Free, call: 1, way: Way::Flip }));
//! assert_eq!(card.witness(2, Limits::default())?, (vec![true, false], vec![true, true]));
//! assert_eq!(card.close(&[2])?.set().collect::<Vec<_>>(), [(1, true), (2, true)]);
//! assert_eq!(card.check_claims(b"2 1 -2 1 1 -2 1 2"), Ok(()));
//! # Ok::<(), igbezolum::Refusal>(())
//! ```

#![deny(missing_docs, unsafe_code)]

mod claims;
mod close;
mod groups;
mod place;
#[allow(unsafe_code)]
pub mod raw;
mod refusal;
mod run;
mod shorter;
mod why;
mod witness;

pub use close::Closing;
pub use groups::{groups_table, Groups, GroupsRefusal, GROUPS_MAX, GROUPS_TABLE_MAX};
pub use place::Within;
pub use refusal::Refusal;
pub use run::{CallEnd, End, Limits, LogRow, Run, Settled, Setup, Status, Way};
pub use shorter::Shorter;
pub use why::{Choice, Found, Kept, Reason, Why};
pub use witness::witness_text;

/// Bytes of a text, at most.
pub const TEXT_MAX: usize = 32_768;
/// Variables, at most.
pub const VARS_MAX: usize = 256;
/// Clauses, at most.
pub const CLAUSES_MAX: usize = 1_024;
/// Entries of a list, at most: literals and the 0 that closes each clause.
pub const ENTRIES_MAX: usize = 4_096;
/// Held literals, at most.
pub const HELD_MAX: usize = 256;
/// Bytes of both printed setups of a witness, at most.
pub const WITNESS_TEXT_MAX: usize = 4_096;
/// Bytes of a printed table, at most.
pub const TABLE_MAX: usize = 9_216;

/// A formula: variables 1 to [`vars`](Formula::vars), and the clauses as a list in which a 0 closes each.
#[derive(Clone, Debug, PartialEq, Eq)]
pub struct Formula {
    vars: u32,
    entries: Vec<i32>,
}

/// Reads a DIMACS CNF text.
///
/// # Errors
/// Refusals 2 to 9, where the text breaks the rules.
pub fn read(text: &[u8]) -> Result<Formula, Refusal> {
    let mut entries = vec![0; ENTRIES_MAX];
    let reading = raw::read(text, &mut entries);
    match Refusal::of(reading.answer, reading.place) {
        Some(refusal) => Err(refusal),
        None => {
            entries.truncate(reading.count as usize);
            Ok(Formula { vars: reading.vars, entries })
        }
    }
}

/// The table of a text: one line of numbers and one for each variable, or `refused N place P`. The run has [`Limits::default`].
#[must_use]
pub fn table(text: &[u8]) -> String {
    table_held(text, &[])
}

/// The table of a text with literals held.
#[must_use]
pub fn table_held(text: &[u8], held: &[i32]) -> String {
    let mut out = vec![0; TABLE_MAX];
    let length = raw::table(text, held, &mut out);
    out.truncate(length);
    String::from_utf8(out).expect("a table is ASCII")
}

impl Formula {
    /// A formula of the caller's own list. Nothing is looked at here: [`run`](Formula::run) refuses a list that breaks the rules.
    #[must_use]
    pub fn new(vars: u32, entries: Vec<i32>) -> Formula {
        Formula { vars, entries }
    }

    /// How many variables there are.
    #[must_use]
    pub fn vars(&self) -> u32 {
        self.vars
    }

    /// The clauses, each without its closing 0.
    pub fn clauses(&self) -> impl Iterator<Item = &[i32]> {
        self.entries.split_inclusive(|&e| e == 0).map(|clause| clause.strip_suffix(&[0]).unwrap_or(clause))
    }

    /// The list: literals, and a 0 behind each clause.
    #[must_use]
    pub fn entries(&self) -> &[i32] {
        &self.entries
    }

    /// Works out which variables are forced and which are free.
    ///
    /// # Errors
    /// Refusals 10 to 12: limits that are not allowed, or a list of the caller's own that breaks the rules.
    pub fn run(&self, limits: Limits) -> Result<Run, Refusal> {
        run::run(self, &[], limits)
    }

    /// The same where some choices are already made: each held literal, v for variable v true and -v for false, is one more clause behind the
    /// formula's. What is forced is so in all models with these choices.
    ///
    /// # Errors
    /// Refusals 10 to 13 and 15: as for [`run`](Formula::run), then over 256 held literals, or one that is 0 or above the formula's number.
    pub fn run_held(&self, held: &[i32], limits: Limits) -> Result<Run, Refusal> {
        run::run(self, held, limits)
    }

    /// One valid setup with these choices, for so many tries: the first call of such a run.
    ///
    /// # Errors
    /// As for [`run_held`](Formula::run_held).
    pub fn setup(&self, held: &[i32], budget: u32) -> Result<Setup, Refusal> {
        run::setup(self, held, budget)
    }
}
