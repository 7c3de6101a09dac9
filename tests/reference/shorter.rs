//! The shorter file, written a second time from docs/RULES.md: the run, and the clauses with what it has settled folded in, as text.

use crate::rules::{self, Given, Refusal, Report};
use crate::texts::text_of;

/// What is asked.
pub struct ShorterGiven<'a> {
    pub entries: &'a [i32],
    pub vars: u32,
    pub budget: u32,
    pub chunk_limit: u32,
    pub room: usize,
}

/// The clauses of a list, their literals as they stand.
fn listed(entries: &[i32]) -> impl Iterator<Item = &[i32]> {
    entries.split_inclusive(|&e| e == 0).map(|c| &c[..c.len() - 1])
}

/// What is written after a run, clause by clause.
fn clauses_after(run: &Report, entries: &[i32]) -> Vec<Vec<i32>> {
    if run.answer == 20 {
        return vec![Vec::new()];
    }
    let is_forced = |l: i32| run.status[l.unsigned_abs() as usize - 1] == if l > 0 { 2 } else { 3 };
    let literals = (1..=run.status.len() as i32).flat_map(|v| [v, -v]);
    let mut clauses: Vec<Vec<i32>> = literals.filter(|&l| is_forced(l)).map(|l| vec![l]).collect();
    for clause in listed(entries).filter(|c| !c.iter().any(|&l| is_forced(l))) {
        let mut stays = Vec::new();
        for &l in clause {
            if !is_forced(-l) && !stays.contains(&l) {
                stays.push(l);
            }
        }
        clauses.push(stays);
    }
    clauses
}

/// The run and the text that is written after it; an error where it is refused.
pub fn shorter(g: &ShorterGiven) -> Result<(Report, String), Refusal> {
    let vars = g.vars as usize;
    // the run has buffers of its own: a short one stands for a text that has too little room
    let log_len = if g.room < rules::MAX_TEXT { 0 } else { 6 * (vars.min(rules::MAX_VARS) + 1) };
    let run = rules::run(&Given {
        entries: g.entries,
        vars: g.vars,
        held: &[],
        budget: g.budget,
        chunk_limit: g.chunk_limit,
        status_len: vars,
        calls_len: vars,
        ways_len: vars,
        hints_len: vars,
        log_len,
    })?;
    let text = text_of(g.vars as i32, &clauses_after(&run, g.entries));
    Ok((run, text))
}

/// What is wrong with a text as the shorter file of an accepted list, judged by what the page promises of it: it is read, with the same variables, no
/// more clauses and entries after 0 and 21, and the same models (all of them tried, where `few` says so).
pub fn fault_of_text(g: &ShorterGiven, answer: u32, text: &[u8], few: bool) -> Option<String> {
    let f = match rules::read(text) {
        Err((number, place)) => return Some(format!("the text is refused: {number} at {place}")),
        Ok(f) => f,
    };
    if f.vars != g.vars as usize {
        return Some(format!("the text has {} variables", f.vars));
    }
    if answer != 20 && (f.clauses > listed(g.entries).count() || f.entries.len() > g.entries.len()) {
        return Some(format!("the text has {} clauses and {} entries", f.clauses, f.entries.len()));
    }
    let (before, after) = (rules::clauses_of(g.entries), rules::clauses_of(&f.entries));
    let differs = |bits: &u32| {
        let model: Vec<bool> = (0..g.vars).map(|v| bits >> v & 1 == 1).collect();
        rules::holds(&before, &model) != rules::holds(&after, &model)
    };
    (few && (0..1 << g.vars).any(|bits| differs(&bits))).then(|| "the text has other models".to_string())
}
