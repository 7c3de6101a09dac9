//! One case judged: what the library answers and leaves in every buffer, against what the rules say. Buffers stand between guards and
//! are painted before the call; everything is compared, guards too. A fault can be put into what the library gave, to show that it is
//! noticed. Runs, setups, closings and witnesses that are not refused are made a second time with the same rules in another order.

use crate::case::{Call, Case, MAX_GROUPS_TABLE, MAX_LINES, MAX_TABLE};
use crate::close;
use crate::groups;
use crate::raw;
use crate::rules::{self, Given};
use crate::shorter::{self, ShorterGiven};
use crate::shuffle;
use crate::texts::Random;
use crate::why::{self, WhyGiven};
use crate::witness::{self, WitnessGiven};

const GUARD: usize = 8;
/// Up to so many variables all models are tried too.
const FEW: u32 = 10;
/// Answers to a list that is accepted, 14 among them: it is of a run.
const ANSWERED: [i64; 4] = [0, 14, 20, 21];
/// What another order of the same rules may change: the hints, which name clauses, the rounds of a closing, and the lists themselves.
const BY_ORDER: [&str; 10] = [
    "run.hints", "run.list", "run.held", "setup.list", "setup.held", "close.rounds", "close.list", "close.held", "witness.list", "witness.held",
];
/// Before the name of a fault: it is put into what the library gave for the other order.
const AGAIN: &str = "again.";

/// Numbers and buffers that a call gives, by name. A buffer has its guards, and `written` is how many elements the rules write.
#[derive(Default)]
pub struct Seen {
    numbers: Vec<(&'static str, i64)>,
    buffers: Vec<Buffer>,
}

struct Buffer {
    name: &'static str,
    cells: Vec<i64>,
    written: usize,
}

/// The parts of `Seen` that a fault can be put into.
pub fn faults() -> Vec<String> {
    let mut all: Vec<String> = ["answer", "place", "vars", "clauses", "count"].map(|n| format!("read.{n}")).to_vec();
    for call in ["run", "setup"] {
        all.extend(["answer", "place", "calls", "tries", "forced", "free"].map(|n| format!("{call}.{n}")));
    }
    all.extend(["answer", "place", "rounds", "set"].map(|n| format!("close.{n}")));
    all.extend(["answer", "place", "calls", "tries"].map(|n| format!("why.{n}")));
    all.extend(["answer", "place", "calls", "tries", "forced", "free"].map(|n| format!("witness.{n}")));
    all.extend(["answer", "place", "calls", "tries", "forced", "free", "length", "promises", "again"].map(|n| format!("shorter.{n}")));
    all.extend(["answer", "place", "groups", "vars", "clauses", "count"].map(|n| format!("groups.{n}")));
    all.extend(["table.length".to_string(), "lines.length".to_string(), "groups_table.length".to_string()]);
    for name in [
        "read.entries", "run.status", "run.calls", "run.ways", "run.hints", "run.log", "setup.values", "close.values", "why.marks",
        "why.values", "witness.first", "witness.witness", "shorter.text", "table.out", "lines.out", "groups.entries", "groups.sizes",
        "groups_table.out",
    ] {
        all.extend(["before", "first", "last", "behind"].map(|place| format!("{name}.{place}")));
    }
    let lists = [
        "read.text", "run.list", "run.held", "setup.list", "setup.held", "close.list", "close.held", "why.list", "witness.list", "witness.held",
        "shorter.list", "table.text", "table.held", "lines.text", "groups.text", "groups_table.text",
    ];
    for name in lists.into_iter().chain(["run.models", "setup.models", "close.models", "groups_table.setups"]) {
        all.extend(["first", "last"].map(|place| format!("{name}.{place}")));
    }
    // in the other order every number, and of each buffer the first place: the comparison is the same
    let ordered = |f: &&String| {
        let places = ["before", "last", "behind"];
        ["run.", "setup.", "close.", "witness."].iter().any(|call| f.starts_with(call))
            && !BY_ORDER.iter().any(|b| f.starts_with(b))
            && !places.iter().any(|place| f.ends_with(place))
    };
    let again: Vec<String> = all.iter().filter(ordered).map(|f| format!("{AGAIN}{f}")).collect();
    [all, again].concat()
}

impl Seen {
    fn number(&mut self, name: &'static str, value: impl Into<i64>) {
        self.numbers.push((name, value.into()));
    }

    fn buffer<T: Copy + Into<i64>>(&mut self, name: &'static str, cells: &[T], written: usize) {
        let cells = cells.iter().map(|&c| c.into()).collect();
        self.buffers.push(Buffer { name, cells, written });
    }

    /// Changes the named number, or the named place of the named buffer, where this call has it.
    fn put_fault(&mut self, fault: &str) {
        for (name, value) in &mut self.numbers {
            if *name == fault {
                *value += 1;
            }
        }
        for b in &mut self.buffers {
            let Some(place) = fault.strip_prefix(b.name).and_then(|rest| rest.strip_prefix('.')) else { continue };
            let at = match place {
                "before" => Some(GUARD - 1),
                "first" if b.written > 0 => Some(GUARD),
                "last" if b.written > 0 => Some(GUARD + b.written - 1),
                "behind" => Some(GUARD + b.written),
                _ => None,
            };
            if let Some(at) = at {
                b.cells[at] ^= 1;
            }
        }
    }

    /// Where two differ, if they do, but for the numbers and buffers of these names.
    fn difference(&self, expected: &Seen, but: &[&str]) -> Option<String> {
        let parts = |s: &Seen| (s.numbers.len(), s.buffers.len());
        assert_eq!(parts(self), parts(expected), "every part is compared");
        for ((name, got), (_, want)) in self.numbers.iter().zip(&expected.numbers) {
            if got != want && !but.contains(name) {
                return Some(format!("{name} is {got}, and the rules say {want}"));
            }
        }
        for (b, e) in self.buffers.iter().zip(&expected.buffers).filter(|(b, _)| !but.contains(&b.name)) {
            assert_eq!(b.cells.len(), e.cells.len(), "{} is compared whole", b.name);
            if let Some(i) = (0..b.cells.len()).find(|&i| b.cells[i] != e.cells[i]) {
                let at = i as i64 - GUARD as i64;
                return Some(format!("{} has {} at {at}, and the rules say {}", b.name, b.cells[i], e.cells[i]));
            }
        }
        None
    }
}

/// `len` painted elements between two guards.
fn painted<T>(r: &mut Random, len: usize, cell: impl Fn(u64) -> T) -> Vec<T> {
    (0..len + 2 * GUARD).map(|_| cell(r.below(1 << 32))).collect()
}

/// The same buffer with `new` written at its start.
fn written<T: Copy>(before: &[T], new: &[T]) -> Vec<T> {
    let mut after = before.to_vec();
    after[GUARD..GUARD + new.len()].copy_from_slice(new);
    after
}

/// An argument that is only read stays: compared as a buffer that the rules leave as it is.
fn kept<T: Copy + Into<i64> + Default>(name: &'static str, before: &[T], after: &[T], got: &mut Seen, want: &mut Seen) {
    let guarded = |cells: &[T]| [&[T::default(); GUARD], cells, &[T::default(); GUARD]].concat();
    got.buffer(name, &guarded(after), before.len());
    want.buffer(name, &guarded(before), before.len());
}

fn read(r: &mut Random, text: &[u8], room: usize) -> (Seen, Seen) {
    let (mut got, mut want) = (Seen::default(), Seen::default());
    let before = painted(r, room, |x| x as i32);
    let mut entries = before.clone();
    let lent = Box::<[u8]>::from(text);
    let x = raw::read(&lent, &mut entries[GUARD..GUARD + room]);
    let expected = if room < rules::MAX_ENTRIES { Err((1, 0)) } else { rules::read(text) };
    let mut list = vec![0; rules::MAX_ENTRIES];
    let numbers = match expected {
        Err((answer, place)) => {
            if answer <= 2 {
                list.clear();
            }
            [answer as usize, place, 0, 0, 0]
        }
        Ok(f) => {
            list[..f.entries.len()].copy_from_slice(&f.entries);
            [0, 0, f.vars, f.clauses, f.entries.len()]
        }
    };
    let names = ["read.answer", "read.place", "read.vars", "read.clauses", "read.count"];
    for ((name, x), n) in names.into_iter().zip([x.answer, x.place, x.vars, x.clauses, x.count]).zip(numbers) {
        got.number(name, x);
        want.number(name, n as i64);
    }
    got.buffer("read.entries", &entries, list.len());
    want.buffer("read.entries", &written(&before, &list), list.len());
    kept("read.text", text, &lent, &mut got, &mut want);
    (got, want)
}

fn run(r: &mut Random, g: &Given) -> (Seen, Seen) {
    let (mut got, mut want) = (Seen::default(), Seen::default());
    let status_before = painted(r, g.status_len, |x| x as u8);
    let calls_before = painted(r, g.calls_len, |x| x as u32);
    let ways_before = painted(r, g.ways_len, |x| x as u8);
    let hints_before = painted(r, g.hints_len, |x| x as u32);
    let log_before = painted(r, g.log_len, |x| x as u32);
    let (mut status, mut hints, mut log) = (status_before.clone(), hints_before.clone(), log_before.clone());
    let (mut calls, mut ways) = (calls_before.clone(), ways_before.clone());
    let (lent, held) = (Box::<[i32]>::from(g.entries), Box::<[i32]>::from(g.held));
    let x = raw::run(
        &lent,
        g.vars,
        &held,
        g.budget,
        g.chunk_limit,
        &mut status[GUARD..GUARD + g.status_len],
        &mut calls[GUARD..GUARD + g.calls_len],
        &mut ways[GUARD..GUARD + g.ways_len],
        &mut hints[GUARD..GUARD + g.hints_len],
        &mut log[GUARD..GUARD + g.log_len],
    );
    let (mut new_status, mut new_hints, mut new_log) = (Vec::new(), Vec::new(), Vec::new());
    let (mut new_calls, mut new_ways) = (Vec::new(), Vec::new());
    let numbers = match rules::run(g) {
        Err((answer, place)) => [answer as usize, place, 0, 0, 0, 0],
        Ok(report) => {
            new_log = report.log.concat().iter().map(|&n| n as u32).collect();
            new_log.resize(6 * (g.vars as usize + 1), 0);
            let numbers = [report.answer as usize, 0, report.log.len(), report.tries as usize, report.forced(), report.free()];
            new_status = report.status;
            new_calls = report.calls;
            new_ways = report.ways;
            new_hints = report.hints;
            numbers
        }
    };
    let names = ["run.answer", "run.place", "run.calls", "run.tries", "run.forced", "run.free"];
    for ((name, x), n) in names.into_iter().zip([x.answer, x.place, x.calls, x.tries, x.forced, x.free]).zip(numbers) {
        got.number(name, x);
        want.number(name, n as i64);
    }
    got.buffer("run.status", &status, new_status.len());
    want.buffer("run.status", &written(&status_before, &new_status), new_status.len());
    got.buffer("run.calls", &calls, new_calls.len());
    want.buffer("run.calls", &written(&calls_before, &new_calls), new_calls.len());
    got.buffer("run.ways", &ways, new_ways.len());
    want.buffer("run.ways", &written(&ways_before, &new_ways), new_ways.len());
    got.buffer("run.hints", &hints, new_hints.len());
    want.buffer("run.hints", &written(&hints_before, &new_hints), new_hints.len());
    got.buffer("run.log", &log, new_log.len());
    want.buffer("run.log", &written(&log_before, &new_log), new_log.len());
    kept("run.list", g.entries, &lent, &mut got, &mut want);
    kept("run.held", g.held, &held, &mut got, &mut want);
    if g.vars <= FEW && matches!(x.answer, 0 | 20 | 21) {
        let marked = &status[GUARD..GUARD + g.vars as usize];
        kept("run.models", &models_say(g, x.answer, marked), marked, &mut got, &mut want);
    }
    (got, want)
}

/// The statuses that all models allow: those of the definition, but open ones too where the run was stopped.
fn models_say(g: &Given, answer: u32, marked: &[u8]) -> Vec<u8> {
    match rules::by_models(g.vars as usize, &rules::with_held(g.entries, g.held)) {
        None => vec![if answer == 0 { 4 } else { 0 }; marked.len()],
        Some(known) if answer == 21 => known.iter().zip(marked).map(|(&k, &m)| if m == 0 { 0 } else { k }).collect(),
        Some(known) => known,
    }
}

fn setup(r: &mut Random, entries: &[i32], vars: u32, held: &[i32], budget: u32, values_len: usize) -> (Seen, Seen) {
    let (mut got, mut want) = (Seen::default(), Seen::default());
    let before = painted(r, values_len, |x| x as u8);
    let mut values = before.clone();
    let (lent, lent_held) = (Box::<[i32]>::from(entries), Box::<[i32]>::from(held));
    let x = raw::setup(&lent, vars, &lent_held, budget, &mut values[GUARD..GUARD + values_len]);
    let mut new = Vec::new();
    let numbers = match rules::setup(entries, vars, held, budget, values_len) {
        Err((answer, place)) => [answer as usize, place, 0, 0, 0, 0],
        Ok(setup) => {
            new = setup.values;
            [setup.answer as usize, 0, 1, setup.tries as usize, 0, 0]
        }
    };
    let names = ["setup.answer", "setup.place", "setup.calls", "setup.tries", "setup.forced", "setup.free"];
    for ((name, x), n) in names.into_iter().zip([x.answer, x.place, x.calls, x.tries, x.forced, x.free]).zip(numbers) {
        got.number(name, x);
        want.number(name, n as i64);
    }
    got.buffer("setup.values", &values, new.len());
    want.buffer("setup.values", &written(&before, &new), new.len());
    kept("setup.list", entries, &lent, &mut got, &mut want);
    kept("setup.held", held, &lent_held, &mut got, &mut want);
    if vars <= FEW && matches!(x.answer, 0 | 20 | 21) {
        let first = rules::first_model(vars as usize, &rules::with_held(entries, held));
        let said = match (x.answer, first) {
            (0, Some(model)) => model,
            (20, None) | (21, _) => vec![0; vars as usize],
            _ => vec![2; vars as usize],
        };
        kept("setup.models", &said, &values[GUARD..GUARD + vars as usize], &mut got, &mut want);
    }
    (got, want)
}

fn closing(r: &mut Random, entries: &[i32], vars: u32, held: &[i32], values_len: usize) -> (Seen, Seen) {
    let (mut got, mut want) = (Seen::default(), Seen::default());
    let before = painted(r, values_len, |x| x as u8);
    let mut values = before.clone();
    let (lent, lent_held) = (Box::<[i32]>::from(entries), Box::<[i32]>::from(held));
    let x = raw::close(&lent, vars, &lent_held, &mut values[GUARD..GUARD + values_len]);
    let (numbers, new) = match close::close(entries, vars, held, values_len) {
        Err((answer, place)) => ([answer as usize, place, 0, 0], Vec::new()),
        Ok(c) => ([c.answer as usize, 0, c.rounds as usize, c.set()], c.values),
    };
    let names = ["close.answer", "close.place", "close.rounds", "close.set"];
    for ((name, x), n) in names.into_iter().zip([x.answer, x.place, x.rounds, x.set]).zip(numbers) {
        got.number(name, x);
        want.number(name, n as i64);
    }
    got.buffer("close.values", &values, new.len());
    want.buffer("close.values", &written(&before, &new), new.len());
    kept("close.list", entries, &lent, &mut got, &mut want);
    kept("close.held", held, &lent_held, &mut got, &mut want);
    if vars <= FEW && matches!(x.answer, 0 | 20) {
        let set = &values[GUARD..GUARD + vars as usize];
        let said: Vec<u8> = match (rules::by_models(vars as usize, &rules::with_held(entries, held)), x.answer) {
            // what is set is forced: its value, 1 false and 2 true, is that of status 3 and 2
            (Some(known), 0) => known.iter().zip(set).map(|(&k, &v)| if v == 0 { 0 } else { 4 - k.clamp(1, 3) }).collect(),
            (Some(_), _) => vec![3; set.len()],
            (None, _) => set.to_vec(),
        };
        kept("close.models", &said, set, &mut got, &mut want);
    }
    (got, want)
}

fn why(r: &mut Random, g: &WhyGiven) -> (Seen, Seen) {
    let (mut got, mut want) = (Seen::default(), Seen::default());
    let marks_before = painted(r, g.marks_len, |x| x as u8);
    let values_before = painted(r, g.values_len, |x| x as u8);
    let (mut marks, mut values) = (marks_before.clone(), values_before.clone());
    let lent = Box::<[i32]>::from(g.entries);
    let (m, v) = (&mut marks[GUARD..GUARD + g.marks_len], &mut values[GUARD..GUARD + g.values_len]);
    let x = raw::why(&lent, g.vars, g.literal, g.budget, m, v);
    let (numbers, new_marks, new_values) = match why::why(g) {
        Err((answer, place)) => ([answer as usize, place, 0, 0], Vec::new(), Vec::new()),
        Ok(w) => ([w.answer as usize, 0, w.calls as usize, w.tries as usize], w.marks, w.values),
    };
    let names = ["why.answer", "why.place", "why.calls", "why.tries"];
    for ((name, x), n) in names.into_iter().zip([x.answer, x.place, x.calls, x.tries]).zip(numbers) {
        got.number(name, x);
        want.number(name, n as i64);
    }
    got.buffer("why.marks", &marks, new_marks.len());
    want.buffer("why.marks", &written(&marks_before, &new_marks), new_marks.len());
    got.buffer("why.values", &values, new_values.len());
    want.buffer("why.values", &written(&values_before, &new_values), new_values.len());
    kept("why.list", g.entries, &lent, &mut got, &mut want);
    if g.vars <= FEW && x.answer == 0 {
        let clauses = rules::clauses_of(g.entries).into_iter().zip(&marks[GUARD..]).filter(|(_, &mark)| mark == 1).map(|(c, _)| c);
        let fault = why::fault_of_kept(&clauses.collect::<Vec<_>>(), |some| why::forces(g.vars as usize, some, g.literal));
        got.number("why.kept", i64::from(fault.is_some()));
        want.number("why.kept", 0);
    }
    (got, want)
}

fn witness(r: &mut Random, g: &WitnessGiven) -> (Seen, Seen) {
    let (mut got, mut want) = (Seen::default(), Seen::default());
    let first_before = painted(r, g.first_len, |x| x as i32);
    let witness_before = painted(r, g.witness_len, |x| x as i32);
    let (mut first, mut second) = (first_before.clone(), witness_before.clone());
    let (lent, held) = (Box::<[i32]>::from(g.entries), Box::<[i32]>::from(g.held));
    let (f, w) = (&mut first[GUARD..GUARD + g.first_len], &mut second[GUARD..GUARD + g.witness_len]);
    let x = raw::witness(&lent, g.vars, &held, g.budget, g.chunk_limit, g.variable, f, w);
    let (numbers, new_first, new_witness) = match witness::witness(g) {
        Err((answer, place)) => ([answer as usize, place, 0, 0, 0, 0], Vec::new(), Vec::new()),
        Ok((run, f, w)) => ([run.answer as usize, 0, run.log.len(), run.tries as usize, run.forced(), run.free()], f, w),
    };
    let names = ["witness.answer", "witness.place", "witness.calls", "witness.tries", "witness.forced", "witness.free"];
    for ((name, x), n) in names.into_iter().zip([x.answer, x.place, x.calls, x.tries, x.forced, x.free]).zip(numbers) {
        got.number(name, x);
        want.number(name, n as i64);
    }
    got.buffer("witness.first", &first, new_first.len());
    want.buffer("witness.first", &written(&first_before, &new_first), new_first.len());
    got.buffer("witness.witness", &second, new_witness.len());
    want.buffer("witness.witness", &written(&witness_before, &new_witness), new_witness.len());
    kept("witness.list", g.entries, &lent, &mut got, &mut want);
    kept("witness.held", g.held, &held, &mut got, &mut want);
    (got, want)
}

fn shortened(r: &mut Random, g: &ShorterGiven) -> (Seen, Seen) {
    let (mut got, mut want) = (Seen::default(), Seen::default());
    let before = painted(r, g.room, |x| x as u8);
    let mut text = before.clone();
    let lent = Box::<[i32]>::from(g.entries);
    let x = raw::shorter(&lent, g.vars, g.budget, g.chunk_limit, &mut text[GUARD..GUARD + g.room]);
    let (numbers, new) = match shorter::shorter(g) {
        Err((answer, place)) => ([answer as usize, place, 0, 0, 0, 0, 0], String::new()),
        Ok((run, text)) => {
            ([run.answer as usize, 0, run.log.len(), run.tries as usize, run.forced(), run.free(), text.len()], text)
        }
    };
    let names = [
        "shorter.answer", "shorter.place", "shorter.calls", "shorter.tries", "shorter.forced", "shorter.free", "shorter.length",
    ];
    for ((name, x), n) in names.into_iter().zip([x.answer, x.place, x.calls, x.tries, x.forced, x.free, x.length]).zip(numbers) {
        got.number(name, x);
        want.number(name, n as i64);
    }
    got.buffer("shorter.text", &text, new.len());
    want.buffer("shorter.text", &written(&before, new.as_bytes()), new.len());
    kept("shorter.list", g.entries, &lent, &mut got, &mut want);
    if matches!(x.answer, 0 | 20 | 21) {
        let text = &text[GUARD..GUARD + new.len()];
        got.number("shorter.promises", i64::from(shorter::fault_of_text(g, x.answer, text, g.vars <= FEW).is_some()));
        want.number("shorter.promises", 0);
        got.number("shorter.again", i64::from(x.answer == 0 && !is_fixed(g, text)));
        want.number("shorter.again", 0);
    }
    (got, want)
}

/// Whether the library's shorter file of this shorter file is itself, where its run is not stopped.
fn is_fixed(g: &ShorterGiven, text: &[u8]) -> bool {
    let Ok(f) = rules::read(text) else { return false };
    let mut again = vec![0; rules::MAX_TEXT];
    let x = raw::shorter(&f.entries, f.vars as u32, g.budget, g.chunk_limit, &mut again);
    x.answer == 21 || x.answer == 0 && &again[..x.length as usize] == text
}

fn table(r: &mut Random, text: &[u8], held: &[i32], room: usize) -> (Seen, Seen) {
    let (mut got, mut want) = (Seen::default(), Seen::default());
    let before = painted(r, room, |x| x as u8);
    let mut out = before.clone();
    let (lent, lent_held) = (Box::<[u8]>::from(text), Box::<[i32]>::from(held));
    let length = raw::table(&lent, &lent_held, &mut out[GUARD..GUARD + room]);
    let expected = if room < MAX_TABLE { String::new() } else { rules::table(text, held) };
    got.number("table.length", length as i64);
    want.number("table.length", expected.len() as i64);
    got.buffer("table.out", &out, expected.len());
    want.buffer("table.out", &written(&before, expected.as_bytes()), expected.len());
    kept("table.text", text, &lent, &mut got, &mut want);
    kept("table.held", held, &lent_held, &mut got, &mut want);
    (got, want)
}

fn lines(r: &mut Random, text: &[u8], variable: u32, room: usize) -> (Seen, Seen) {
    let (mut got, mut want) = (Seen::default(), Seen::default());
    let before = painted(r, room, |x| x as u8);
    let mut out = before.clone();
    let lent = Box::<[u8]>::from(text);
    let length = raw::witness_text(&lent, variable, &mut out[GUARD..GUARD + room]);
    let expected = if room < MAX_LINES { String::new() } else { witness::lines(text, variable) };
    got.number("lines.length", length as i64);
    want.number("lines.length", expected.len() as i64);
    got.buffer("lines.out", &out, expected.len());
    want.buffer("lines.out", &written(&before, expected.as_bytes()), expected.len());
    kept("lines.text", text, &lent, &mut got, &mut want);
    (got, want)
}

fn read_groups(r: &mut Random, text: &[u8], room: usize, sizes_len: usize) -> (Seen, Seen) {
    let (mut got, mut want) = (Seen::default(), Seen::default());
    let entries_before = painted(r, room, |x| x as i32);
    let sizes_before = painted(r, sizes_len, |x| x as u8);
    let (mut entries, mut sizes) = (entries_before.clone(), sizes_before.clone());
    let lent = Box::<[u8]>::from(text);
    let x = raw::read_groups(&lent, &mut entries[GUARD..GUARD + room], &mut sizes[GUARD..GUARD + sizes_len]);
    let short = room < rules::MAX_ENTRIES || sizes_len < groups::MAX_GROUPS;
    let (mut list, mut new_sizes) = (vec![0; rules::MAX_ENTRIES], vec![0; groups::MAX_GROUPS]);
    let numbers = match if short { Err((1, 0)) } else { groups::read(text) } {
        Err((answer, place)) => {
            if answer <= 2 {
                list.clear();
                new_sizes.clear();
            }
            [answer as usize, place, 0, 0, 0, 0]
        }
        Ok(g) => {
            list[..g.list.entries.len()].copy_from_slice(&g.list.entries);
            new_sizes[..g.sizes.len()].copy_from_slice(&g.sizes);
            [0, 0, g.sizes.len(), g.list.vars, g.list.clauses, g.list.entries.len()]
        }
    };
    let names = ["groups.answer", "groups.place", "groups.groups", "groups.vars", "groups.clauses", "groups.count"];
    for ((name, x), n) in names.into_iter().zip([x.answer, x.place, x.groups, x.vars, x.clauses, x.count]).zip(numbers) {
        got.number(name, x);
        want.number(name, n as i64);
    }
    got.buffer("groups.entries", &entries, list.len());
    want.buffer("groups.entries", &written(&entries_before, &list), list.len());
    got.buffer("groups.sizes", &sizes, new_sizes.len());
    want.buffer("groups.sizes", &written(&sizes_before, &new_sizes), new_sizes.len());
    kept("groups.text", text, &lent, &mut got, &mut want);
    (got, want)
}

/// The table of groups; where there are few setups, what is said of the values is also what all of them say.
fn groups_table(r: &mut Random, text: &[u8], room: usize) -> (Seen, Seen) {
    let (mut got, mut want) = (Seen::default(), Seen::default());
    let before = painted(r, room, |x| x as u8);
    let mut out = before.clone();
    let lent = Box::<[u8]>::from(text);
    let length = raw::groups_table(&lent, &mut out[GUARD..GUARD + room]);
    let expected = if room < MAX_GROUPS_TABLE { String::new() } else { groups::table(text) };
    got.number("groups_table.length", length as i64);
    want.number("groups_table.length", expected.len() as i64);
    got.buffer("groups_table.out", &out, expected.len());
    want.buffer("groups_table.out", &written(&before, expected.as_bytes()), expected.len());
    kept("groups_table.text", text, &lent, &mut got, &mut want);
    if expected.starts_with("answer 0 ") || expected.starts_with("answer 20 ") {
        if let Some(lines) = groups::read(text).ok().and_then(|g| groups::by_setups(&g)) {
            let first = expected.find('\n').map_or(0, |n| n + 1);
            kept("groups_table.setups", lines.as_bytes(), &out[GUARD + first..GUARD + expected.len()], &mut got, &mut want);
        }
    }
    (got, want)
}

/// What the library gives for a call, and what the rules say; the paint of the buffers is of this seed.
fn seen(paint: u64, call: &Call) -> (Seen, Seen) {
    let mut r = Random::of_seed(paint);
    match call {
        Call::Read { text, room } => read(&mut r, text, *room),
        &Call::Run { ref entries, vars, ref held, budget, chunk_limit, lengths: l } => {
            let (status_len, calls_len, ways_len, hints_len, log_len) = (l.status, l.calls, l.ways, l.hints, l.log);
            run(&mut r, &Given { entries, vars, held, budget, chunk_limit, status_len, calls_len, ways_len, hints_len, log_len })
        }
        &Call::Witness { ref entries, vars, ref held, budget, chunk_limit, variable, first_len, witness_len } => {
            witness(&mut r, &WitnessGiven { entries, vars, held, budget, chunk_limit, variable, first_len, witness_len })
        }
        &Call::Why { ref entries, vars, literal, budget, marks_len, values_len } => {
            why(&mut r, &WhyGiven { entries, vars, literal, budget, marks_len, values_len })
        }
        &Call::Setup { ref entries, vars, ref held, budget, values_len } => setup(&mut r, entries, vars, held, budget, values_len),
        &Call::Close { ref entries, vars, ref held, values_len } => closing(&mut r, entries, vars, held, values_len),
        &Call::Shorter { ref entries, vars, budget, chunk_limit, room } => {
            shortened(&mut r, &ShorterGiven { entries, vars, budget, chunk_limit, room })
        }
        Call::Table { text, held, room } => table(&mut r, text, held, *room),
        Call::Lines { text, variable, room } => lines(&mut r, text, *variable, *room),
        Call::Groups { text, room, sizes_len } => read_groups(&mut r, text, *room, *sizes_len),
        Call::GroupsTable { text, room } => groups_table(&mut r, text, *room),
    }
}

/// The same with its rules in another order: the library gives what the rules say of the first order, but for hints and rounds, and what they say of
/// this one.
fn other_order(case: &Case, fault: Option<&str>, first: &Seen) -> Option<String> {
    let call = shuffle::shuffled(&mut Random::of_seed(!case.paint), &case.call)?;
    let (mut got, want) = seen(case.paint, &call);
    if let Some(fault) = fault.and_then(|fault| fault.strip_prefix(AGAIN)) {
        got.put_fault(fault);
    }
    let what = got.difference(first, &BY_ORDER).or_else(|| got.difference(&want, &[]))?;
    Some(format!("in another order {what}"))
}

/// The first number that the rules say, and the difference of a case, if there is one; with a fault in what the library gave if one
/// is named.
pub fn judge(case: &Case, fault: Option<&str>) -> (i64, Option<String>) {
    let (mut got, want) = seen(case.paint, &case.call);
    if let Some(fault) = fault {
        got.put_fault(fault);
    }
    let answer = want.numbers[0].1;
    let mut difference = got.difference(&want, &[]);
    if difference.is_none() && ANSWERED.contains(&answer) {
        difference = other_order(case, fault, &want);
    }
    (answer, difference)
}
