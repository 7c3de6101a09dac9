//! A witness to see, written a second time from docs/RULES.md: the run again, its first model, and the model of the call that settled a
//! free variable, flipped there if flip settled it.

use crate::rules::{self, Given, Refusal, Report};

/// What is asked.
pub struct WitnessGiven<'a> {
    pub entries: &'a [i32],
    pub vars: u32,
    pub held: &'a [i32],
    pub budget: u32,
    pub chunk_limit: u32,
    pub variable: u32,
    pub first_len: usize,
    pub witness_len: usize,
}

/// The literals of a model.
fn literals(model: &[bool]) -> Vec<i32> {
    (1..).zip(model).map(|(v, &on)| if on { v } else { -v }).collect()
}

/// The run, its first model and the witness; an error where it is refused.
pub fn witness(g: &WitnessGiven) -> Result<(Report, Vec<i32>, Vec<i32>), Refusal> {
    let vars = g.vars as usize;
    // the run has buffers of its own: of the lengths only that of the shorter one matters
    let short = g.first_len.min(g.witness_len);
    let log_len = 6 * (vars.min(rules::MAX_VARS) + 1);
    let (entries, budget, chunk_limit) = (g.entries, g.budget, g.chunk_limit);
    let run = rules::run(&Given {
        entries,
        vars: g.vars,
        held: g.held,
        budget,
        chunk_limit,
        status_len: short,
        calls_len: vars,
        ways_len: vars,
        hints_len: vars,
        log_len,
    })?;
    let at = (g.variable as usize).wrapping_sub(1);
    if run.status.get(at) != Some(&1) {
        return Err((14, 0));
    }
    let first = run.models[0].1.clone();
    let (_, found) = run.models.iter().find(|(call, _)| *call == run.calls[at]).expect("the call that settled it found a model");
    let mut other = found.clone();
    if run.ways[at] == 2 {
        other[at] = !other[at];
    }
    Ok((run, literals(&first), literals(&other)))
}

/// The two lines that are printed for a text and a variable.
pub fn lines(text: &[u8], variable: u32) -> String {
    let f = match rules::read(text) {
        Err((number, place)) => return format!("refused {number} place {place}\n"),
        Ok(f) => f,
    };
    let (vars, n) = (f.vars as u32, f.vars);
    let line = |ls: &[i32]| ls.iter().map(i32::to_string).collect::<Vec<_>>().join(" ") + "\n";
    let (budget, chunk_limit) = (1_000_000, 16);
    let asked = WitnessGiven { entries: &f.entries, vars, held: &[], budget, chunk_limit, variable, first_len: n, witness_len: n };
    match witness(&asked) {
        Err((number, place)) => format!("refused {number} place {place}\n"),
        Ok((_, first, other)) => line(&first) + &line(&other),
    }
}
