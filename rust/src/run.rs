//! The run and what comes back.

use crate::{raw, Formula, Refusal, VARS_MAX};

/// Numbers of a log row.
const ROW: usize = 6;

/// What a run may spend.
#[derive(Clone, Copy, Debug, PartialEq, Eq)]
pub struct Limits {
    /// Tries of a value that the whole run may take.
    pub budget: u32,
    /// Candidates that one call may take at most, 1 to 256.
    pub chunk_limit: u32,
}

/// A budget of 1,000,000 and a chunk limit of 16, which the table is made with.
impl Default for Limits {
    fn default() -> Limits {
        Limits { budget: 1_000_000, chunk_limit: 16 }
    }
}

/// How a run ended.
#[derive(Clone, Copy, Debug, PartialEq, Eq, Hash)]
pub enum End {
    /// There is a model, and every variable is forced or free.
    Settled,
    /// There is no model; every status is open.
    NoModel,
    /// The budget ended the run; what is marked forced or free is so.
    Stopped,
}

/// The status of a variable.
#[derive(Clone, Copy, Debug, PartialEq, Eq, Hash)]
pub enum Status {
    /// Not settled.
    Open,
    /// Models differ on it.
    Free,
    /// True in every model, and there is one.
    ForcedOn,
    /// False in every model, and there is one.
    ForcedOff,
}

/// The way a variable was settled.
#[derive(Clone, Copy, Debug, PartialEq, Eq, Hash)]
pub enum Way {
    /// Not settled.
    Open,
    /// Free: the call's model gives it another value than the first model.
    Compare,
    /// Free: flipped alone in the call's model, it leaves all clauses true.
    Flip,
    /// Forced: the call found no model where one of its chunk is false.
    Chunk,
}

/// How a variable was settled.
#[derive(Clone, Copy, Debug, PartialEq, Eq)]
pub struct Settled {
    /// Its status.
    pub status: Status,
    /// The call that settled it, from 1; 0 while it is open.
    pub call: u32,
    /// The way.
    pub way: Way,
}

/// How a call of the search ended.
#[derive(Clone, Copy, Debug, PartialEq, Eq, Hash)]
pub enum CallEnd {
    /// With a model.
    Model,
    /// There is none.
    NoModel,
    /// The budget was spent.
    Stopped,
}

/// What the log says of one call. Calls are numbered from 1 in its order.
#[derive(Clone, Copy, Debug, PartialEq, Eq)]
pub struct LogRow {
    /// How it ended.
    pub end: CallEnd,
    /// Candidates taken; 0 in call 1.
    pub chunk: u32,
    /// Candidates dropped since the model gives their variable another value.
    pub compared: u32,
    /// Candidates dropped since their variable may be flipped in the model.
    pub flipped: u32,
    /// Tries of this call.
    pub tries: u32,
}

/// A run that was not refused.
#[non_exhaustive]
#[derive(Clone, Debug, PartialEq, Eq)]
pub struct Run {
    /// How it ended.
    pub end: End,
    /// Tries taken, within the budget.
    pub tries: u32,
    /// The status of each variable; that of variable v is at v - 1.
    pub status: Vec<Status>,
    /// The call that settled each variable, that of variable v at v - 1; 0 while it is open.
    pub calls: Vec<u32>,
    /// The way each variable was settled, that of variable v at v - 1.
    pub ways: Vec<Way>,
    /// The hint of each variable, that of variable v at v - 1: the number of the first clause that v, flipped alone in the first model,
    /// makes false; 0 if it makes none false, or if no first model was found.
    pub hints: Vec<u32>,
    /// One row for each call begun.
    pub log: Vec<LogRow>,
}

impl Run {
    /// The forced variables in order, each with its value.
    pub fn forced(&self) -> impl Iterator<Item = (u32, bool)> + '_ {
        (1..).zip(&self.status).filter_map(|(v, status)| match status {
            Status::ForcedOn => Some((v, true)),
            Status::ForcedOff => Some((v, false)),
            Status::Open | Status::Free => None,
        })
    }

    /// The clause that holds a forced variable, by its number from 1: of its literals that of the variable alone is true in the run's first
    /// model. None for a variable that is not forced, and for numbers that are no variable's.
    #[must_use]
    pub fn held_by(&self, variable: u32) -> Option<u32> {
        let i = variable.checked_sub(1)? as usize;
        match self.status.get(i)? {
            Status::ForcedOn | Status::ForcedOff => Some(self.hints[i]),
            Status::Open | Status::Free => None,
        }
    }

    /// How a variable was settled: its status, the call and the way. None for numbers that are no variable's.
    #[must_use]
    pub fn settled(&self, variable: u32) -> Option<Settled> {
        let i = variable.checked_sub(1)? as usize;
        Some(Settled { status: *self.status.get(i)?, call: self.calls[i], way: self.ways[i] })
    }

    /// The free variables in order.
    pub fn free(&self) -> impl Iterator<Item = u32> + '_ {
        (1..).zip(&self.status).filter(|(_, &status)| status == Status::Free).map(|(v, _)| v)
    }
}

fn status_of(number: u8) -> Status {
    match number {
        0 => Status::Open,
        1 => Status::Free,
        2 => Status::ForcedOn,
        3 => Status::ForcedOff,
        _ => unreachable!("no status {number}"),
    }
}

fn way_of(number: u8) -> Way {
    match number {
        0 => Way::Open,
        1 => Way::Compare,
        2 => Way::Flip,
        3 => Way::Chunk,
        _ => unreachable!("no way {number}"),
    }
}

fn row_of(row: &[u32]) -> LogRow {
    let &[_, end, chunk, compared, flipped, tries] = row else { unreachable!("a row has six numbers") };
    let end = match end {
        1 => CallEnd::Model,
        2 => CallEnd::NoModel,
        3 => CallEnd::Stopped,
        _ => unreachable!("no call ends with {end}"),
    };
    LogRow { end, chunk, compared, flipped, tries }
}

/// One valid setup that was asked for and not refused.
#[non_exhaustive]
#[derive(Clone, Debug, PartialEq, Eq)]
pub struct Setup {
    /// How the call ended.
    pub end: CallEnd,
    /// Tries taken, within the budget.
    pub tries: u32,
    /// With a model its values, that of variable v at v - 1; it is the first one, compared from variable 1 up, false before true. Else empty.
    pub values: Vec<bool>,
}

pub fn setup(formula: &Formula, held: &[i32], budget: u32) -> Result<Setup, Refusal> {
    let mut values = [0; VARS_MAX];
    let report = raw::setup(formula.entries(), formula.vars(), held, budget, &mut values);
    if let Some(refusal) = Refusal::of(report.answer, report.place) {
        return Err(refusal);
    }
    let (end, count) = match report.answer {
        0 => (CallEnd::Model, formula.vars() as usize),
        20 => (CallEnd::NoModel, 0),
        21 => (CallEnd::Stopped, 0),
        other => unreachable!("no answer {other}"),
    };
    Ok(Setup { end, tries: report.tries, values: values[..count].iter().map(|&v| v == 1).collect() })
}

pub fn run(formula: &Formula, held: &[i32], limits: Limits) -> Result<Run, Refusal> {
    // long enough for every formula that is not refused
    let mut status = [0; VARS_MAX];
    let mut calls = [0; VARS_MAX];
    let mut ways = [0; VARS_MAX];
    let mut hints = [0; VARS_MAX];
    let mut log = [0; ROW * (VARS_MAX + 1)];
    let Limits { budget, chunk_limit } = limits;
    let (entries, vars) = (formula.entries(), formula.vars());
    let report = raw::run(entries, vars, held, budget, chunk_limit, &mut status, &mut calls, &mut ways, &mut hints, &mut log);
    if let Some(refusal) = Refusal::of(report.answer, report.place) {
        return Err(refusal);
    }
    let end = match report.answer {
        0 => End::Settled,
        20 => End::NoModel,
        21 => End::Stopped,
        other => unreachable!("no answer {other}"),
    };
    let n = vars as usize;
    Ok(Run {
        end,
        tries: report.tries,
        status: status[..n].iter().map(|&s| status_of(s)).collect(),
        calls: calls[..n].to_vec(),
        ways: ways[..n].iter().map(|&w| way_of(w)).collect(),
        hints: hints[..n].to_vec(),
        log: log.chunks(ROW).take(report.calls as usize).map(row_of).collect(),
    })
}
