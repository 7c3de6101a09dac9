//! Groups, written a second time from docs/RULES.md: the reader of a file, its expanded list, its table, and what all setups say.

use crate::rules::{self, Formula, Refusal, MAX_CLAUSES, MAX_ENTRIES, MAX_TEXT, MAX_VARS};
use std::fmt::Write as _;

pub const MAX_GROUPS: usize = 128;
/// Up to so many setups all of them are tried.
const FEW: usize = 5_000;

pub struct Groups {
    pub sizes: Vec<u8>,
    /// The file's own clauses.
    pub own: Vec<Vec<i32>>,
    /// The expanded list.
    pub list: Formula,
}

/// The tokens, each with its place.
fn tokens(text: &[u8]) -> Vec<(usize, &[u8])> {
    let mut found = Vec::new();
    let mut at = 0;
    for word in text.split(|b| b" \t\r\n".contains(b)) {
        if !word.is_empty() {
            found.push((at, word));
        }
        at += word.len() + 1;
    }
    found
}

/// An optional minus and 1 to 9 digits, but no minus before 0.
fn number(word: &[u8]) -> Option<i32> {
    let digits = word.strip_prefix(b"-").unwrap_or(word);
    if !(1..=9).contains(&digits.len()) || !digits.iter().all(u8::is_ascii_digit) {
        return None;
    }
    let n: i32 = std::str::from_utf8(word).ok()?.parse().ok()?;
    (n != 0 || digits.len() == word.len()).then_some(n)
}

/// Exactly one of the values from `first` on holds: one clause of all, then each pair negated.
fn exactly_one(first: i32, size: i32) -> Vec<Vec<i32>> {
    let values: Vec<i32> = (first..first + size).collect();
    let mut clauses = vec![values.clone()];
    for (i, low) in values.iter().enumerate() {
        clauses.extend(values[i + 1..].iter().map(|high| vec![-low, -high]));
    }
    clauses
}

pub fn read(text: &[u8]) -> Result<Groups, Refusal> {
    if text.len() > MAX_TEXT {
        return Err((2, MAX_TEXT));
    }
    let mut left = tokens(text).into_iter();
    let mut next = || {
        let Some((at, word)) = left.next() else { return Err((9, text.len())) };
        number(word).map(|n| (at, n)).ok_or((5, at))
    };
    let (at, groups) = next()?;
    if !(0..=MAX_GROUPS as i32).contains(&groups) {
        return Err((16, at));
    }
    let (mut sizes, mut vars) = (Vec::new(), 0);
    for _ in 0..groups {
        let (at, size) = next()?;
        if !(2..=16).contains(&size) {
            return Err((16, at));
        }
        vars += size as usize;
        if vars > MAX_VARS {
            return Err((4, at));
        }
        sizes.push(size as u8);
    }
    let (at, count) = next()?;
    if !(0..=MAX_CLAUSES as i32).contains(&count) {
        return Err((4, at));
    }
    let (mut own, mut clause) = (Vec::new(), Vec::new());
    loop {
        let (at, entry) = match next() {
            Err((9, _)) if own.len() == count as usize => break,
            other => other?,
        };
        if own.len() == count as usize {
            return Err((6, at));
        }
        match entry {
            0 => own.push(std::mem::take(&mut clause)),
            l if l.unsigned_abs() as usize > vars => return Err((7, at)),
            l => clause.push(l),
        }
    }
    let mut clauses = Vec::new();
    let mut first = 1;
    for &size in &sizes {
        clauses.extend(exactly_one(first, size.into()));
        first += i32::from(size);
    }
    clauses.extend(own.iter().cloned());
    let entries: Vec<i32> = clauses.iter().flat_map(|c| c.iter().copied().chain([0])).collect();
    if clauses.len() > MAX_CLAUSES || entries.len() > MAX_ENTRIES {
        return Err((11, 0));
    }
    Ok(Groups { sizes, own, list: Formula { vars, clauses: clauses.len(), entries } })
}

/// A line a value.
fn lines(sizes: &[u8], status: &[u8]) -> String {
    let mut out = String::new();
    let mut left = status.iter();
    for (g, &size) in sizes.iter().enumerate() {
        for (k, &s) in left.by_ref().take(size.into()).enumerate() {
            let word = ["open", "free", "settled", "dead"][s as usize];
            writeln!(out, "{}:{} {word}", g + 1, k + 1).expect("a string takes every byte");
        }
    }
    out
}

pub fn table(text: &[u8]) -> String {
    let (g, r) = match read(text).and_then(|g| rules::run_of(&g.list, &[]).map(|r| (g, r))) {
        Err((number, place)) => return format!("refused {number} place {place}\n"),
        Ok(both) => both,
    };
    let (calls, forced, free) = (r.log.len(), r.forced(), r.free());
    let open = g.list.vars - forced - free;
    let first = format!("answer {} calls {calls} tries {} forced {forced} free {free} open {open}\n", r.answer, r.tries);
    first + &if r.answer == 20 { String::new() } else { lines(&g.sizes, &r.status) }
}

/// The lines that all setups say, none of them where no setup is valid; nothing where there are many setups. A setup is a value, from 0, for each
/// group.
pub fn by_setups(g: &Groups) -> Option<String> {
    let many = g.sizes.iter().try_fold(1, |n, &size| Some(n * usize::from(size)).filter(|&n| n <= FEW))?;
    let (mut ever, mut valid) = (vec![0; g.list.vars], 0);
    for mut code in 0..many {
        let mut used = Vec::new();
        let mut first = 0;
        for &size in &g.sizes {
            used.push(first + code % usize::from(size));
            code /= usize::from(size);
            first += usize::from(size);
        }
        let holds = |&l: &i32| used.contains(&(l.unsigned_abs() as usize - 1)) == (l > 0);
        if g.own.iter().all(|clause| clause.iter().any(holds)) {
            valid += 1;
            used.iter().for_each(|&v| ever[v] += 1);
        }
    }
    let status: Vec<u8> = ever.iter().map(|&n| if n == valid { 2 } else if n == 0 { 3 } else { 1 }).collect();
    Some(if valid == 0 { String::new() } else { lines(&g.sizes, &status) })
}
