//! The rules in plain safe Rust, as one would write them with no proof in mind: clauses are slices of the entry list, and at every
//! look their literals are counted anew. It takes and fills the same buffers as the library, and gives the same numbers and log.

use crate::raw::{Reading, Report};

const MAX_TEXT: usize = 32_768;
pub const MAX_VARS: u32 = 256;
pub const MAX_CLAUSES: u32 = 1_024;
pub const MAX_ENTRIES: usize = 4_096;
const MAX_CHUNK: u32 = 256;

/// A refusal: its number and its place.
pub type Refusal = (u32, usize);

// ---- the text

fn is_blank(b: u8) -> bool {
    matches!(b, b' ' | b'\t' | b'\r' | b'\n')
}

/// 1 to 9 digits.
fn number(word: &[u8]) -> Option<u32> {
    if word.is_empty() || word.len() > 9 {
        return None;
    }
    let mut n = 0;
    for &b in word {
        if !b.is_ascii_digit() {
            return None;
        }
        n = 10 * n + u32::from(b - b'0');
    }
    Some(n)
}

/// The header's two numbers, if the line is one.
fn header(line: &[u8]) -> Option<(u32, u32)> {
    if line.first() != Some(&b'p') {
        return None;
    }
    let end = line.iter().rposition(|&b| !is_blank(b)).map_or(0, |at| at + 1);
    let mut words = line[..end].split(|&b| b == b' ' || b == b'\t').filter(|w| !w.is_empty());
    if words.next() != Some(b"p") || words.next() != Some(b"cnf") {
        return None;
    }
    let sizes = (number(words.next()?)?, number(words.next()?)?);
    words.next().is_none().then_some(sizes)
}

/// The first line that is neither blank nor a comment: where it starts and ends.
fn header_line(text: &[u8]) -> Option<(usize, usize)> {
    let mut start = 0;
    while start < text.len() {
        let end = text[start..].iter().position(|&b| b == b'\n').map_or(text.len(), |n| start + n);
        let line = &text[start..end];
        if line.first() != Some(&b'c') && !line.iter().all(|&b| is_blank(b)) {
            return Some((start, end));
        }
        start = end + 1;
    }
    None
}

/// V, C and how many entries were stored.
fn read_entries(text: &[u8], entries: &mut [i32]) -> Result<(u32, u32, usize), Refusal> {
    let (start, end) = header_line(text).ok_or((3, text.len()))?;
    let (vars, clauses) = header(&text[start..end]).ok_or((3, start))?;
    if vars > MAX_VARS || clauses > MAX_CLAUSES {
        return Err((4, start));
    }
    let mut at = end;
    let mut count = 0;
    let mut closed = 0;
    loop {
        while at < text.len() && is_blank(text[at]) {
            at += 1;
        }
        if at >= text.len() {
            break;
        }
        let from = at;
        // a line whose first byte is c is a comment
        let comment = text[from] == b'c' && text[from - 1] == b'\n';
        while at < text.len() && text[at] != b'\n' && (comment || !is_blank(text[at])) {
            at += 1;
        }
        if comment {
            continue;
        }
        if closed == clauses && text[from..at] == *b"%" {
            break;
        }
        let (minus, word) = match &text[from..at] {
            [b'-', rest @ ..] => (true, rest),
            word => (false, word),
        };
        let n = number(word).filter(|&n| !(minus && n == 0)).ok_or((5, from))?;
        if closed == clauses {
            return Err((6, from));
        }
        if n > vars {
            return Err((7, from));
        }
        if count == MAX_ENTRIES {
            return Err((8, from));
        }
        entries[count] = if minus { -(n as i32) } else { n as i32 };
        count += 1;
        if n == 0 {
            closed += 1;
        }
    }
    if closed < clauses {
        return Err((9, text.len()));
    }
    Ok((vars, clauses, count))
}

#[inline(never)]
pub fn read(text: &[u8], entries: &mut [i32]) -> Reading {
    if entries.len() < MAX_ENTRIES {
        return Reading { answer: 1, ..Reading::default() };
    }
    if text.len() > MAX_TEXT {
        return Reading { answer: 2, place: MAX_TEXT as u32, ..Reading::default() };
    }
    let (reading, count) = match read_entries(text, entries) {
        Ok((vars, clauses, count)) => (Reading { answer: 0, place: 0, vars, clauses, count: count as u32 }, count),
        Err((answer, place)) => (Reading { answer, place: place as u32, ..Reading::default() }, 0),
    };
    entries[count..MAX_ENTRIES].fill(0);
    reading
}

// ---- the search

type Value = Option<bool>;

enum State {
    True,
    False,
    Unit(i32),
    Undecided,
}

fn index(l: i32) -> usize {
    l.unsigned_abs() as usize - 1
}

/// What a clause is: one pass over its literals, which a true one ends.
fn state(clause: &[i32], values: &[Value]) -> State {
    let mut unset = None;
    let mut several = false;
    for &l in clause {
        match values[index(l)] {
            Some(value) if value == (l > 0) => return State::True,
            Some(_) => {}
            None => match unset {
                None => unset = Some(l),
                Some(other) => several |= other != l,
            },
        }
    }
    match unset {
        _ if several => State::Undecided,
        Some(l) => State::Unit(l),
        None => State::False,
    }
}

/// Rounds over all clauses in order, until one sets nothing. False on a clash.
fn close(clauses: &[&[i32]], values: &mut [Value]) -> bool {
    loop {
        let mut changed = false;
        for clause in clauses {
            match state(clause, values) {
                State::False => return false,
                State::Unit(l) => {
                    values[index(l)] = Some(l > 0);
                    changed = true;
                }
                State::True | State::Undecided => {}
            }
        }
        if !changed {
            return true;
        }
    }
}

pub enum End {
    Model,
    None,
    Stopped,
}

pub struct Meter {
    pub budget: u32,
    pub spent: u32,
}

/// Leaves the model in the values, or else what was there.
fn go_on(clauses: &[&[i32]], values: &mut [Value], meter: &mut Meter) -> End {
    let saved = values.to_vec();
    let end = choose(clauses, values, meter);
    if !matches!(end, End::Model) {
        values.copy_from_slice(&saved);
    }
    end
}

fn choose(clauses: &[&[i32]], values: &mut [Value], meter: &mut Meter) -> End {
    if !close(clauses, values) {
        return End::None;
    }
    let Some(v) = values.iter().position(Option::is_none) else {
        return End::Model;
    };
    for value in [false, true] {
        if meter.spent == meter.budget {
            return End::Stopped;
        }
        meter.spent += 1;
        values[v] = Some(value);
        match go_on(clauses, values, meter) {
            End::None => values[v] = None,
            end => return end,
        }
    }
    End::None
}

// ---- the run

pub fn refusal(entries: &[i32], vars: u32, chunk_limit: u32, least_len: usize, log_len: usize) -> Option<Refusal> {
    if vars > MAX_VARS || chunk_limit == 0 || chunk_limit > MAX_CHUNK {
        return Some((10, 0));
    }
    if least_len < vars as usize || log_len < 6 * (vars as usize + 1) {
        return Some((1, 0));
    }
    if entries.len() > MAX_ENTRIES {
        return Some((11, MAX_ENTRIES));
    }
    if entries.last().is_some_and(|&e| e != 0) {
        return Some((11, entries.len()));
    }
    if let Some((at, _)) = entries.iter().enumerate().filter(|(_, e)| **e == 0).nth(MAX_CLAUSES as usize) {
        return Some((11, at));
    }
    entries.iter().position(|e| e.unsigned_abs() > vars).map(|at| (12, at))
}

fn holds(clauses: &[&[i32]], model: &[Value]) -> bool {
    clauses.iter().all(|clause| clause.iter().any(|&l| model[index(l)] == Some(l > 0)))
}

/// The first clause that each variable, flipped alone in the model, makes false, by its number; 0 if it makes none false.
fn put_hints(clauses: &[&[i32]], model: &mut [Value], hints: &mut [u32]) {
    for v in 0..model.len() {
        let value = model[v];
        model[v] = value.map(|b| !b);
        let first = clauses.iter().position(|clause| !clause.iter().any(|&l| model[index(l)] == Some(l > 0)));
        hints[v] = first.map_or(0, |i| i as u32 + 1);
        model[v] = value;
    }
}

/// Compare, then flip: how many candidates each drops. The way of each is put down.
fn drop_by(clauses: &[&[i32]], first: &[Value], model: &mut [Value], status: &mut [u8], ways: &mut [u8]) -> (u32, u32) {
    let (mut by_compare, mut by_flip) = (0, 0);
    for v in 0..model.len() {
        if status[v] == 0 && model[v] != first[v] {
            status[v] = 1;
            ways[v] = 1;
            by_compare += 1;
        }
    }
    for v in 0..model.len() {
        if status[v] == 0 {
            let value = model[v];
            model[v] = value.map(|b| !b);
            if holds(clauses, model) {
                status[v] = 1;
                ways[v] = 2;
                by_flip += 1;
            }
            model[v] = value;
        }
    }
    (by_compare, by_flip)
}

#[inline(never)]
#[allow(clippy::too_many_arguments)] // those of the library
pub fn run(
    entries: &[i32],
    vars: u32,
    budget: u32,
    chunk_limit: u32,
    status: &mut [u8],
    calls: &mut [u32],
    ways: &mut [u8],
    hints: &mut [u32],
    log: &mut [u32],
) -> Report {
    let shortest = status.len().min(calls.len()).min(ways.len()).min(hints.len());
    if let Some((answer, place)) = refusal(entries, vars, chunk_limit, shortest, log.len()) {
        return Report { answer, place: place as u32, ..Report::default() };
    }
    let n = vars as usize;
    let status = &mut status[..n];
    let calls = &mut calls[..n];
    let ways = &mut ways[..n];
    let hints = &mut hints[..n];
    let log = &mut log[..6 * (n + 1)];
    status.fill(0);
    calls.fill(0);
    ways.fill(0);
    hints.fill(0);
    log.fill(0);
    let mut clauses: Vec<&[i32]> = entries.split(|&e| e == 0).collect();
    clauses.pop();
    let mut meter = Meter { budget, spent: 0 };
    let mut values: Vec<Value> = vec![None; n];
    let mut first: Vec<Value> = Vec::new();
    let mut report = Report::default();
    let mut size = 1;
    loop {
        let before = meter.spent;
        let open: Vec<usize> = (0..n).filter(|&v| status[v] == 0).take(size).collect();
        let (chunk, end) = if report.calls == 0 {
            (0, go_on(&clauses, &mut values, &mut meter))
        } else {
            for (value, s) in values.iter_mut().zip(&*status) {
                *value = match s {
                    2 => Some(true),
                    3 => Some(false),
                    _ => None,
                };
            }
            let constraint: Vec<i32> = open.iter().map(|&v| if first[v] == Some(true) { -(v as i32 + 1) } else { v as i32 + 1 }).collect();
            let mut call = clauses.clone();
            call.push(&constraint);
            (open.len() as u32, go_on(&call, &mut values, &mut meter))
        };
        let row = &mut log[6 * report.calls as usize..];
        report.calls += 1;
        report.tries = meter.spent;
        row[0] = report.calls;
        row[2] = chunk;
        row[5] = meter.spent - before;
        match end {
            End::Model => {
                if report.calls == 1 {
                    first = values.clone();
                    put_hints(&clauses, &mut values, hints);
                }
                let (by_compare, by_flip) = drop_by(&clauses, &first, &mut values, status, ways);
                (row[1], row[3], row[4]) = (1, by_compare, by_flip);
                report.free += by_compare + by_flip;
                size = 1;
            }
            End::None => {
                row[1] = 2;
                if report.calls == 1 {
                    report.answer = 20;
                    return report;
                }
                for &v in &open {
                    status[v] = if first[v] == Some(true) { 2 } else { 3 };
                    ways[v] = 3;
                }
                report.forced += chunk;
                size = (2 * size).min(chunk_limit as usize);
            }
            End::Stopped => {
                row[1] = 3;
                report.answer = 21;
                return report;
            }
        }
        for (call, _) in calls.iter_mut().zip(&*ways).filter(|(call, &way)| **call == 0 && way != 0) {
            *call = report.calls;
        }
        if report.forced + report.free == vars {
            return report;
        }
    }
}
