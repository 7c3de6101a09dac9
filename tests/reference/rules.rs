//! The rules in plain Rust, written from the page alone and sharing no code with the crates: text to entries, the search, the run with
//! what it refuses, one valid setup, the printed table, and forced and free from all models. `reference.rs` beside it and `tests/outside` use it.

use std::collections::BTreeSet;
use std::fmt::Write as _;

pub const MAX_TEXT: usize = 32_768;
pub const MAX_VARS: usize = 256;
pub const MAX_CLAUSES: usize = 1_024;
pub const MAX_ENTRIES: usize = 4_096;
pub const MAX_HELD: usize = 256;

/// A refusal: its number and its place.
pub type Refusal = (u32, usize);

pub struct Formula {
    pub vars: usize,
    pub clauses: usize,
    pub entries: Vec<i32>,
}

// ---- the text

fn is_blank(b: u8) -> bool {
    matches!(b, b' ' | b'\t' | b'\r' | b'\n')
}

/// 1 to 9 digits.
fn digits(word: &[u8]) -> Option<usize> {
    if word.is_empty() || word.len() > 9 || !word.iter().all(u8::is_ascii_digit) {
        return None;
    }
    std::str::from_utf8(word).ok()?.parse().ok()
}

/// The header's two numbers, if the line is one.
fn header(line: &[u8]) -> Option<(usize, usize)> {
    let mut end = line.len();
    while end > 0 && is_blank(line[end - 1]) {
        end -= 1;
    }
    let line = &line[..end];
    if line.first() != Some(&b'p') {
        return None;
    }
    let words: Vec<&[u8]> = line.split(|&b| b == b' ' || b == b'\t').filter(|w| !w.is_empty()).collect();
    match words[..] {
        [b"p", b"cnf", vars, clauses] => Some((digits(vars)?, digits(clauses)?)),
        _ => None,
    }
}

/// Where the line that starts at `start` ends: at its LF or the end of text.
fn line_end(text: &[u8], start: usize) -> usize {
    text[start..].iter().position(|&b| b == b'\n').map_or(text.len(), |n| start + n)
}

/// The tokens behind the header line that ends at `end`, each with its place: those of the lines that are no comments.
fn tokens(text: &[u8], end: usize) -> Vec<(usize, &[u8])> {
    let mut found = Vec::new();
    let mut start = end + 1;
    while start < text.len() {
        let end = line_end(text, start);
        if text[start] != b'c' {
            let mut at = start;
            for word in text[start..end].split(|&b| is_blank(b)) {
                if !word.is_empty() {
                    found.push((at, word));
                }
                at += word.len() + 1;
            }
        }
        start = end + 1;
    }
    found
}

pub fn read(text: &[u8]) -> Result<Formula, Refusal> {
    if text.len() > MAX_TEXT {
        return Err((2, MAX_TEXT));
    }
    let mut start = 0;
    let (vars, clauses, end) = loop {
        if start >= text.len() {
            return Err((3, text.len()));
        }
        let end = line_end(text, start);
        let line = &text[start..end];
        if line.iter().all(|&b| is_blank(b)) || line[0] == b'c' {
            start = end + 1;
            continue;
        }
        let Some((vars, clauses)) = header(line) else {
            return Err((3, start));
        };
        if vars > MAX_VARS || clauses > MAX_CLAUSES {
            return Err((4, start));
        }
        break (vars, clauses, end);
    };
    let mut entries = Vec::new();
    let mut closed = 0;
    for (from, token) in tokens(text, end) {
        if token == b"%" && closed == clauses {
            break;
        }
        let (minus, word) = match token {
            [b'-', rest @ ..] => (true, rest),
            _ => (false, token),
        };
        let number = match digits(word) {
            None => return Err((5, from)),
            Some(0) if minus => return Err((5, from)),
            Some(n) => n,
        };
        if closed == clauses {
            return Err((6, from));
        }
        if number > vars {
            return Err((7, from));
        }
        if entries.len() == MAX_ENTRIES {
            return Err((8, from));
        }
        let value = number as i32;
        entries.push(if minus { -value } else { value });
        if number == 0 {
            closed += 1;
        }
    }
    if closed < clauses {
        return Err((9, text.len()));
    }
    Ok(Formula { vars, clauses, entries })
}

// ---- the search

pub type Clause = BTreeSet<i32>;
pub type Values = Vec<Option<bool>>;

pub fn clauses_of(entries: &[i32]) -> Vec<Clause> {
    let mut all = Vec::new();
    let mut one = Clause::new();
    for &e in entries {
        if e == 0 {
            all.push(std::mem::take(&mut one));
        } else {
            one.insert(e);
        }
    }
    all
}

/// The formula with the held literals: a clause of one literal for each of them, behind the clauses of the list.
pub fn with_held(entries: &[i32], held: &[i32]) -> Vec<Clause> {
    let mut all = clauses_of(entries);
    all.extend(held.iter().map(|&l| Clause::from([l])));
    all
}

fn value(values: &Values, l: i32) -> Option<bool> {
    values[l.unsigned_abs() as usize - 1].map(|v| v == (l > 0))
}

/// False on a clash. Goes from the last clause to the first: the order is not to matter.
fn close(clauses: &[Clause], values: &mut Values) -> bool {
    loop {
        let mut changed = false;
        for clause in clauses.iter().rev() {
            if clause.iter().any(|&l| value(values, l) == Some(true)) {
                continue;
            }
            let mut unset = clause.iter().filter(|&&l| value(values, l).is_none());
            match (unset.next(), unset.next()) {
                (None, _) => return false,
                (Some(&l), None) => {
                    values[l.unsigned_abs() as usize - 1] = Some(l > 0);
                    changed = true;
                }
                _ => {}
            }
        }
        if !changed {
            return true;
        }
    }
}

pub enum End {
    Model(Vec<bool>),
    None,
    Stopped,
}

pub struct Meter {
    pub budget: u64,
    pub spent: u64,
}

pub fn go_on(clauses: &[Clause], mut values: Values, meter: &mut Meter) -> End {
    if !close(clauses, &mut values) {
        return End::None;
    }
    let Some(v) = values.iter().position(Option::is_none) else {
        return End::Model(values.into_iter().map(Option::unwrap).collect());
    };
    for b in [false, true] {
        if meter.spent == meter.budget {
            return End::Stopped;
        }
        meter.spent += 1;
        let mut tried = values.clone();
        tried[v] = Some(b);
        match go_on(clauses, tried, meter) {
            End::None => {}
            end => return end,
        }
    }
    End::None
}

// ---- the run

/// What a run is given.
pub struct Given<'a> {
    pub entries: &'a [i32],
    pub vars: u32,
    pub held: &'a [i32],
    pub budget: u32,
    pub chunk_limit: u32,
    pub status_len: usize,
    pub calls_len: usize,
    pub ways_len: usize,
    pub hints_len: usize,
    pub log_len: usize,
}

#[derive(Default)]
pub struct Report {
    pub answer: u32,
    pub tries: u64,
    pub status: Vec<u8>,
    pub calls: Vec<u32>,
    pub ways: Vec<u8>,
    pub hints: Vec<u32>,
    pub log: Vec<[u64; 6]>,
    /// The models that the calls found, each with its call's number; the first one is call 1's.
    pub models: Vec<(u32, Vec<bool>)>,
}

impl Report {
    pub fn forced(&self) -> usize {
        self.status.iter().filter(|&&s| s >= 2).count()
    }

    pub fn free(&self) -> usize {
        self.status.iter().filter(|&&s| s == 1).count()
    }

    /// Notes the call and the way of what it settled.
    fn settle(&mut self, literals: &[i32], call: u64, way: u8) {
        for l in literals {
            let i = l.unsigned_abs() as usize - 1;
            self.calls[i] = call as u32;
            self.ways[i] = way;
        }
    }
}

/// Takes out of a list what does not pass.
fn drop_of(list: &mut Vec<i32>, keep: impl Fn(i32) -> bool) -> Vec<i32> {
    let dropped = list.iter().copied().filter(|&l| !keep(l)).collect();
    list.retain(|&l| keep(l));
    dropped
}

/// Why a list with literals held is refused, if it is, with limits that may be bad and buffers that may be short.
fn refusal(bad_limits: bool, short: bool, es: &[i32], vars: u32, held: &[i32]) -> Option<Refusal> {
    if bad_limits {
        return Some((10, 0));
    }
    if short {
        return Some((1, 0));
    }
    if let Some(refusal) = list_refusal(es, vars) {
        return Some(refusal);
    }
    if held.len() > MAX_HELD {
        return Some((15, MAX_HELD));
    }
    held.iter().position(|&l| l == 0 || l.unsigned_abs() > vars).map(|i| (13, i))
}

/// Why a list is refused, if it is.
pub fn list_refusal(es: &[i32], vars: u32) -> Option<Refusal> {
    if es.len() > MAX_ENTRIES {
        return Some((11, MAX_ENTRIES));
    }
    if es.last().is_some_and(|&e| e != 0) {
        return Some((11, es.len()));
    }
    let zeros = es.iter().enumerate().filter(|(_, &e)| e == 0).map(|(i, _)| i);
    if let Some(i) = zeros.skip(MAX_CLAUSES).next() {
        return Some((11, i));
    }
    es.iter().position(|e| e.unsigned_abs() > vars).map(|i| (12, i))
}

fn is_true(clause: &Clause, model: &[bool]) -> bool {
    clause.iter().any(|&l| model[l.unsigned_abs() as usize - 1] == (l > 0))
}

pub fn holds(clauses: &[Clause], model: &[bool]) -> bool {
    clauses.iter().all(|c| is_true(c, model))
}

/// The number of the first clause that a variable, flipped alone in the model, makes false; 0 if it makes none false.
fn hint(clauses: &[Clause], model: &[bool], variable: usize) -> u32 {
    let mut other = model.to_vec();
    other[variable] = !other[variable];
    clauses.iter().position(|c| !is_true(c, &other)).map_or(0, |i| i as u32 + 1)
}

/// The run; an error where it is refused.
pub fn run(g: &Given) -> Result<Report, Refusal> {
    let vars = g.vars as usize;
    let limit = g.chunk_limit as usize;
    let bad_limits = vars > MAX_VARS || limit == 0 || limit > MAX_VARS;
    let lengths = [g.status_len, g.calls_len, g.ways_len, g.hints_len];
    let short = lengths.iter().any(|&len| len < vars) || g.log_len < 6 * (vars + 1);
    if let Some(refusal) = refusal(bad_limits, short, g.entries, g.vars, g.held) {
        return Err(refusal);
    }
    let clauses = with_held(g.entries, g.held);
    let mut meter = Meter { budget: g.budget.into(), spent: 0 };
    let mut r = Report { status: vec![0; vars], calls: vec![0; vars], ways: vec![0; vars], hints: vec![0; vars], ..Report::default() };
    let mut first: Vec<bool> = Vec::new();
    let mut candidates: Vec<i32> = Vec::new();
    let mut forced: Vec<i32> = Vec::new();
    let mut size = 1;
    let mut number = 0;
    while number == 0 || !candidates.is_empty() {
        number += 1;
        let before = meter.spent;
        let chunk: Vec<i32> = candidates.iter().copied().take(size).collect();
        let mut call = clauses.clone();
        if number > 1 {
            call.extend(forced.iter().map(|&l| Clause::from([l])));
            call.push(chunk.iter().map(|&l| -l).collect());
        }
        let end = go_on(&call, vec![None; vars], &mut meter);
        let taken = chunk.len() as u64;
        match end {
            End::Model(model) => {
                if number == 1 {
                    first = model.clone();
                    r.hints = (0..vars).map(|i| hint(&clauses, &first, i)).collect();
                    candidates = (1..=vars as i32).map(|v| if first[v as usize - 1] { v } else { -v }).collect();
                }
                let compared = drop_of(&mut candidates, |l| model[l.unsigned_abs() as usize - 1] == (l > 0));
                let flipped = drop_of(&mut candidates, |l| {
                    let mut other = model.clone();
                    other[l.unsigned_abs() as usize - 1] = l < 0;
                    !holds(&clauses, &other)
                });
                r.settle(&compared, number, 1);
                r.settle(&flipped, number, 2);
                r.log.push([number, 1, taken, compared.len() as u64, flipped.len() as u64, meter.spent - before]);
                r.models.push((number as u32, model));
                size = 1;
            }
            End::None => {
                r.log.push([number, 2, taken, 0, 0, meter.spent - before]);
                if number == 1 {
                    r.answer = 20;
                    r.tries = meter.spent;
                    return Ok(r);
                }
                r.settle(&chunk, number, 3);
                forced.extend(&chunk);
                candidates.drain(..chunk.len());
                size = (2 * size).min(limit);
            }
            End::Stopped => {
                r.log.push([number, 3, taken, 0, 0, meter.spent - before]);
                r.answer = 21;
                break;
            }
        }
    }
    r.tries = meter.spent;
    if !first.is_empty() || vars == 0 {
        r.status = vec![1; vars];
        for &l in &candidates {
            r.status[l.unsigned_abs() as usize - 1] = 0;
        }
        for &l in &forced {
            r.status[l.unsigned_abs() as usize - 1] = if l > 0 { 2 } else { 3 };
        }
    }
    Ok(r)
}

/// The run that the table is made of.
pub fn run_of(f: &Formula, held: &[i32]) -> Result<Report, Refusal> {
    let vars = f.vars as u32;
    let log_len = 6 * (f.vars + 1);
    let (status_len, calls_len, ways_len, hints_len) = (f.vars, f.vars, f.vars, f.vars);
    let (budget, chunk_limit) = (1_000_000, 16);
    run(&Given { entries: &f.entries, vars, held, budget, chunk_limit, status_len, calls_len, ways_len, hints_len, log_len })
}

// ---- one valid setup

pub struct Setup {
    pub answer: u32,
    pub tries: u64,
    pub values: Vec<u8>,
}

/// The first call alone: its model as a byte a variable, zeros where there is none or it was stopped; an error where it is refused.
pub fn setup(entries: &[i32], vars: u32, held: &[i32], budget: u32, values_len: usize) -> Result<Setup, Refusal> {
    let size = vars as usize;
    if let Some(refusal) = refusal(size > MAX_VARS, values_len < size, entries, vars, held) {
        return Err(refusal);
    }
    let mut meter = Meter { budget: budget.into(), spent: 0 };
    let (answer, values) = match go_on(&with_held(entries, held), vec![None; size], &mut meter) {
        End::Model(model) => (0, model.iter().map(|&on| u8::from(on)).collect()),
        End::None => (20, vec![0; size]),
        End::Stopped => (21, vec![0; size]),
    };
    Ok(Setup { answer, tries: meter.spent, values })
}

// ---- the table

/// A line a variable, with its hint where it is forced.
pub fn status_lines(status: &[u8], hints: &[u32]) -> String {
    let mut out = String::new();
    for (i, (&s, hint)) in status.iter().zip(hints).enumerate() {
        let word = ["open", "free", "forced on", "forced off"][s as usize];
        let held = if s >= 2 { format!(" held by clause {hint}") } else { String::new() };
        writeln!(out, "{} {word}{held}", i + 1).expect("a string takes every byte");
    }
    out
}

pub fn table(text: &[u8], held: &[i32]) -> String {
    let (f, r) = match read(text).and_then(|f| run_of(&f, held).map(|r| (f, r))) {
        Err((number, place)) => return format!("refused {number} place {place}\n"),
        Ok(both) => both,
    };
    let (calls, forced, free) = (r.log.len(), r.forced(), r.free());
    let open = f.vars - forced - free;
    let first = format!("answer {} calls {calls} tries {} forced {forced} free {free} open {open}\n", r.answer, r.tries);
    first + &if r.answer == 20 { String::new() } else { status_lines(&r.status, &r.hints) }
}

// ---- the definition

/// Forced and free by the published definition, from all models: the status of each variable, or none where there is no model.
pub fn by_models(vars: usize, clauses: &[Clause]) -> Option<Vec<u8>> {
    let (mut ever_on, mut ever_off, mut models) = (0u32, 0u32, 0u32);
    for bits in 0..1u32 << vars {
        let model: Vec<bool> = (0..vars).map(|i| bits >> i & 1 == 1).collect();
        if holds(clauses, &model) {
            models += 1;
            ever_on |= bits;
            ever_off |= !bits;
        }
    }
    let status = |i| match (ever_on >> i & 1, ever_off >> i & 1) {
        (1, 1) => 1,
        (1, 0) => 2,
        _ => 3,
    };
    (models > 0).then(|| (0..vars).map(status).collect())
}

/// The first of all models, a byte a variable, if there is one: variable 1 counts the most, and off is before on.
pub fn first_model(vars: usize, clauses: &[Clause]) -> Option<Vec<u8>> {
    let all = (0..1u32 << vars).map(|bits| (1..=vars).map(|v| bits >> (vars - v) & 1 == 1).collect::<Vec<bool>>());
    let mut all = all.filter(|model| holds(clauses, model));
    all.next().map(|model| model.into_iter().map(u8::from).collect())
}
