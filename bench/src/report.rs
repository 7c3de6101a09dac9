//! The page of results. What the program cannot see itself (machine, tools, archive, instruction counts, time of the check) comes as
//! facts: lines of words with tabs between, the first word saying which table they belong to.

use crate::library::{self, Who};
use crate::{Measured, Results, Shortened, Spread, ROUNDS, SAMPLE};
use std::fmt::Write as _;

const WORST: f64 = 1.3;
const MEAN: f64 = 1.0;
const STACK: usize = 512 * 1024;

fn geometric_mean(ratios: &[f64]) -> f64 {
    (ratios.iter().map(|r| r.ln()).sum::<f64>() / ratios.len() as f64).exp()
}

/// Three digits, in the unit that suits.
fn time(ns: f64) -> String {
    let (value, unit) = match ns {
        _ if ns < 1e3 => (ns, "ns"),
        _ if ns < 1e6 => (ns / 1e3, "µs"),
        _ if ns < 1e9 => (ns / 1e6, "ms"),
        _ => (ns / 1e9, "s"),
    };
    format!("{} {unit}", digits(value))
}

fn digits(value: f64) -> String {
    match value {
        _ if value < 0.1 => format!("{value:.4}"),
        _ if value < 10.0 => format!("{value:.2}"),
        _ if value < 100.0 => format!("{value:.1}"),
        _ => format!("{value:.0}"),
    }
}

pub fn thousands(n: u64) -> String {
    let plain = n.to_string();
    let mut out = String::new();
    for (i, digit) in plain.chars().enumerate() {
        if i > 0 && (plain.len() - i) % 3 == 0 {
            out.push(',');
        }
        out.push(digit);
    }
    out
}

/// Half of the distance between the quartiles, as a part of the median.
fn around(s: Spread) -> String {
    format!("{} ± {:.0} %", time(s.median), 50.0 * (s.high - s.low) / s.median)
}

fn ratio(s: Spread) -> String {
    format!("{:.2} ({:.2}–{:.2})", s.median, s.low, s.high)
}

fn a_try(ns: f64, tries: u64) -> String {
    if tries == 0 { "none".to_string() } else { digits(ns / tries as f64) }
}

fn is_met(met: bool) -> &'static str {
    if met { "met" } else { "missed" }
}

// ---- the parts

fn targets(r: &Results, out: &mut String) {
    let ratios: Vec<f64> = r.runs.iter().map(|m| m.ratio().median).collect();
    let mean = geometric_mean(&ratios);
    let worst = r.runs.iter().max_by(|a, b| a.ratio().median.total_cmp(&b.ratio().median)).expect("there are workloads");
    let reader = geometric_mean(&r.readings.iter().map(|m| m.ratio().median).collect::<Vec<_>>());
    *out += "## Targets\n\n| What | Target | Measured | |\n|---|---|---|---|\n";
    let worst_ratio = worst.ratio().median;
    let _ = writeln!(out, "| library / plain Rust with counts, geometric mean | at most {MEAN:.1} | {mean:.2} | {} |", is_met(mean <= MEAN));
    let (name, met) = (&worst.name, is_met(worst_ratio <= WORST));
    let _ = writeln!(out, "| the same, worst run ({name}) | at most {WORST:.1} | {worst_ratio:.2} | {met} |");
    for m in r.runs.iter().filter(|m| m.name.starts_with("card")) {
        for t in m.taken.iter().filter(|t| t.who.name() == "CaDiCaL") {
            let (name, x) = (&m.name, t.ratio.median);
            let _ = writeln!(out, "| library / CaDiCaL, {name} | at most {MEAN:.1} | {x:.2} | {} |", is_met(x <= MEAN));
        }
    }
    let _ = writeln!(out, "| reader / plain Rust reader, geometric mean | | {reader:.2} | |");
    let (most, stack, met) = (thousands(STACK as u64), thousands(r.stack as u64), is_met(r.stack < STACK));
    let _ = writeln!(out, "| stack of the deepest run | below {most} bytes | {stack} bytes | {met} |\n");
}

fn runs(r: &Results, out: &mut String) {
    *out += "## Runs against plain Rust programs\n\nThe first keeps two counts for each clause, as the library does; the second counts anew at each look. Ratios are the library's time divided by the other's, so below 1 the library is \
             faster: the median of\nthe rounds, and the quartiles. ns a try is the whole time of the library divided by the tries.\n\n";
    *out += "| Workload | Formulas | Tries | Library | With counts | Ratio | Counting anew | Ratio | ns a try |\n|---|---|---|---|---|---|---|---|---|\n";
    for m in &r.runs {
        let (ours, each) = (m.library().time, a_try(m.library().time.median, m.tries));
        let _ = write!(out, "| {} | {} | {} | {} |", m.name, m.formulas, thousands(m.tries), around(ours));
        for plain in [Who::Counted, Who::Plain] {
            let t = m.by(plain).expect("both plain programs run");
            let _ = write!(out, " {} | {} |", around(t.time), ratio(t.ratio));
        }
        let _ = writeln!(out, " {each} |");
    }
    *out += "\n![Ratios](ratios.svg)\n\n";
}

fn peers(r: &Results, out: &mut String) {
    let asked: Vec<Who> = Who::all().into_iter().filter(|w| !w.is_same_run()).collect();
    if asked.is_empty() {
        *out += "## Runs against peers\n\nNone is installed.\n\n";
        return;
    }
    *out += "## Runs against peers\n\nWhere a budget stops the run there is nothing to compare, and the row is left out.\n\n";
    *out += "| Workload | Library |";
    for who in &asked {
        let _ = write!(out, " {0} | library / {0} |", who.name());
    }
    let _ = writeln!(out, "\n|---|---|{}", "---|---|".repeat(asked.len()));
    for m in r.runs.iter().filter(|m| m.has_peers()) {
        let _ = write!(out, "| {} | {} |", m.name, time(m.library().time.median));
        for who in &asked {
            if let Some(t) = m.by(*who) {
                let _ = write!(out, " {} | {} |", around(t.time), digits(t.ratio.median));
            }
        }
        out.push('\n');
    }
    out.push('\n');
}

fn readings(r: &Results, out: &mut String) {
    *out += "## The reader against a plain Rust reader\n\n| Texts | How many | Bytes | Library | Plain Rust | Ratio | ns a byte | plain |\n\
             |---|---|---|---|---|---|---|---|\n";
    for m in &r.readings {
        let (ours, plain) = (m.library().time, m.plain().time);
        let each = |s: Spread| format!("{:.2}", s.median / m.bytes as f64);
        let _ = write!(out, "| {}: {} | {} | {} |", m.name, m.what, m.formulas, thousands(m.bytes as u64));
        let _ = writeln!(out, " {} | {} | {} | {} | {} |", around(ours), around(plain), ratio(m.ratio()), each(ours), each(plain));
    }
    out.push('\n');
}

fn growth(r: &Results, out: &mut String) {
    *out += "## Growth\n\nAt a fixed ratio of clauses to variables; times are of one formula, the mean of those of its row.\n\n";
    *out += "| Series | Variables | Clauses | Tries | Library | Plain Rust with counts | Ratio | ns a try |\n|---|---|---|---|---|---|---|---|\n";
    for (name, points) in &r.growth {
        for m in points {
            let one = |s: Spread| time(s.median / m.formulas as f64);
            let tries = thousands(m.tries / m.formulas as u64);
            let _ = write!(out, "| {name} | {} | {} | {tries} | {} |", m.vars, m.clauses, one(m.library().time));
            let each = a_try(m.library().time.median, m.tries);
            let _ = writeln!(out, " {} | {:.2} | {each} |", one(m.plain().time), m.ratio().median);
        }
    }
    *out += "\n![Growth](growth.svg)\n\n";
}

fn shortened(r: &Results, out: &mut String) {
    *out += "## The shorter file\n\nThe library's runs on rule sets, and on their shorter files, which it wrote after a settled run; the ratio is the \
             second time\ndivided by the first.\n\n| Workload | Bytes | shorter | Clauses | shorter | Run | on the shorter files | Ratio |\n\
             |---|---|---|---|---|---|---|---|\n";
    for Shortened { name, bytes, clauses, times, ratio: quotient } in &r.shortened {
        let (bytes, clauses) = (bytes.map(|n| thousands(n as u64)), clauses.map(|n| thousands(n.into())));
        let _ = write!(out, "| {name} | {} | {} | {} | {} |", bytes[0], bytes[1], clauses[0], clauses[1]);
        let _ = writeln!(out, " {} | {} | {} |", around(times[0]), around(times[1]), ratio(*quotient));
    }
    out.push('\n');
}

fn facts_of<'a>(facts: &'a str, table: &'a str) -> impl Iterator<Item = Vec<&'a str>> {
    facts.lines().map(|line| line.split('\t').collect::<Vec<_>>()).filter(move |words| words[0] == table).map(|words| words[1..].to_vec())
}

fn instructions(facts: &str, out: &mut String) {
    *out += "## Instructions\n\nBy callgrind, so they do not depend on how busy the machine is: `bash bench/instructions.sh`. Wrong \
             branches are those that\ncallgrind's model of a processor foresees wrongly.\n\n\
             | Workload | Library | Plain Rust | Ratio | Wrong branches, library | Plain Rust | Ratio |\n|---|---|---|---|---|---|---|\n";
    for words in facts_of(facts, "instructions") {
        let counts: Vec<u64> = words[1..].iter().filter_map(|word| word.parse().ok()).collect();
        let [ours, our_wrong, plain, plain_wrong] = counts[..] else { continue };
        let pair = |a: u64, b: u64| format!("{} | {} | {:.2}", thousands(a), thousands(b), a as f64 / b as f64);
        let _ = writeln!(out, "| {} | {} | {} |", words[0], pair(ours, plain), pair(our_wrong, plain_wrong));
    }
    out.push('\n');
}

fn pairs(heading: &str, facts: &str, table: &str, more: &[(&str, String)], out: &mut String) {
    let _ = writeln!(out, "## {heading}\n\n| What | |\n|---|---|");
    for words in facts_of(facts, table) {
        let _ = writeln!(out, "| {} |", words.join(" | "));
    }
    for (what, said) in more {
        let _ = writeln!(out, "| {what} | {said} |");
    }
    out.push('\n');
}

/// What each workload is, for those who read the tables.
fn workloads(list: &[Measured], out: &mut String) {
    *out += "## Workloads\n\n| Workload | What it is | Variables | Clauses |\n|---|---|---|---|\n";
    for m in list {
        let _ = writeln!(out, "| {} | {} | {} | {} |", m.name, m.what, m.vars, m.clauses);
    }
}

pub fn page(r: &Results, facts: &str) -> String {
    let mut out = String::from("# Results\n\nWritten by `bash bench/run`; `bench/README.md` says how to read it.\n\n");
    let took = format!("{:.0} s, {ROUNDS} rounds, samples of about {} ms", r.took.as_secs_f64(), SAMPLE.as_millis());
    pairs("Where and when", facts, "machine", &[("peers", library::peers()), ("measured in", took)], &mut out);
    targets(r, &mut out);
    runs(r, &mut out);
    peers(r, &mut out);
    readings(r, &mut out);
    growth(r, &mut out);
    shortened(r, &mut out);
    instructions(facts, &mut out);
    pairs("Sizes and times", facts, "size", &[("stack of the deepest run", format!("{} bytes", thousands(r.stack as u64)))], &mut out);
    workloads(&r.runs, &mut out);
    out
}
