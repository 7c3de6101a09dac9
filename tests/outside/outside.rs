//! The library, through its C interface, against the rules written a second time: every number that is returned and every element of
//! every buffer, and forced and free from all models where there are few variables. What is not refused is run a second time with the same
//! rules in another order, and all but hints and rounds must be the same.
//!
//!   outside FOLDER SEED N                 the cases of FOLDER, those at the edges, and N made from SEED
//!   outside --break FAULT FOLDER SEED N   those N alone, with a fault in what the library gave: it must be noticed
//!   outside --faults                      the faults, a line each
//!
//! On a difference it prints the smallest case that it finds, writes it to target/outside-SEED.case if no fault was put in, and ends
//! with 1. Put into FOLDER, that case is run first from then on. It also ends with 1 if some answer of the rules was never given.

mod case;
#[path = "../reference/close.rs"]
mod close;
#[path = "../reference/groups.rs"]
mod groups;
mod judge;
mod make;
// claims are compared by claims.rs beside this
#[allow(dead_code)]
#[path = "../../rust/src/raw.rs"]
mod raw;
#[path = "../reference/rules.rs"]
mod rules;
#[path = "../reference/shorter.rs"]
mod shorter;
mod shrink;
mod shuffle;
#[path = "../reference/texts.rs"]
mod texts;
#[path = "../reference/why.rs"]
mod why;
#[path = "../reference/witness.rs"]
mod witness;

use std::collections::BTreeMap;
use std::process::ExitCode;
use std::{env, fs};

use case::Case;
use judge::judge;
use texts::Random;

/// The answers that must have been given at least once.
const ANSWERS: [(&str, &[i64]); 8] = [
    ("read", &[0, 1, 2, 3, 4, 5, 6, 7, 8, 9]),
    ("run", &[0, 1, 10, 11, 12, 13, 15, 20, 21]),
    ("setup", &[0, 1, 10, 11, 12, 13, 15, 20, 21]),
    ("close", &[0, 1, 10, 11, 12, 13, 15, 20]),
    ("why", &[0, 1, 10, 11, 12, 13, 20, 21, 22]),
    ("witness", &[0, 1, 10, 11, 12, 14, 21]),
    ("shorter", &[0, 1, 10, 11, 12, 20, 21]),
    ("groups", &[0, 1, 2, 4, 5, 6, 7, 9, 11, 16]),
];

/// What was judged so far: how often each answer was given.
struct Judged<'a> {
    seed: u64,
    fault: Option<&'a str>,
    given: BTreeMap<(&'static str, i64), u64>,
}

impl Judged<'_> {
    /// Judges a case; false where it differs.
    fn is_same(&mut self, name: &str, case: &Case) -> bool {
        let (answer, difference) = judge(case, self.fault);
        // of a table the length says only whether there was room
        let answer = if ["table", "groups_table"].contains(&case.call.name()) { answer.min(1) } else { answer };
        *self.given.entry((case.call.name(), answer)).or_default() += 1;
        let Some(what) = difference else { return true };
        println!("{name} differs: {what}");
        let least = shrink::shrunk(case, |smaller| judge(smaller, self.fault).1.is_some());
        let what = judge(&least, self.fault).1.unwrap_or(what);
        println!("the smallest case found: {what}\n{least}");
        if self.fault.is_none() {
            let file = format!("target/outside-{}.case", self.seed);
            match fs::write(&file, least.to_string()) {
                Ok(()) => println!("it stands in {file}"),
                Err(e) => println!("{file}: {e}"),
            }
        }
        false
    }

    fn calls(&self) -> u64 {
        self.given.values().sum()
    }

    /// Prints how often each answer was given; false if one is missing.
    fn is_whole(&self) -> bool {
        for (call, _) in ANSWERS {
            let line: Vec<String> = self.given.iter().filter(|(k, _)| k.0 == call).map(|(k, n)| format!("{} {n} times", k.1)).collect();
            println!("{call} answered {}", line.join(", "));
        }
        let printed = |name, long| self.given.get(&(name, long)).copied().unwrap_or(0);
        for name in ["table", "groups_table"] {
            println!("{name} printed {} times and had too little room {} times", printed(name, 1), printed(name, 0));
        }
        let missing = |(call, answers): &(&'static str, &[i64])| answers.iter().any(|&a| !self.given.contains_key(&(*call, a)));
        !ANSWERS.iter().any(missing) && ["table", "groups_table"].iter().all(|name| printed(name, 0) > 0 && printed(name, 1) > 0)
    }
}

fn files_of(folder: &str) -> Result<Vec<(String, Case)>, String> {
    let mut names = Vec::new();
    for entry in fs::read_dir(folder).map_err(|e| format!("{folder}: {e}"))? {
        names.push(entry.map_err(|e| e.to_string())?.path().display().to_string());
    }
    names.retain(|name| name.ends_with(".case"));
    names.sort();
    let read = |name: String| {
        let file = fs::read_to_string(&name).map_err(|e| format!("{name}: {e}"))?;
        let case = file.parse().map_err(|e| format!("{name}: {e}"))?;
        Ok((name, case))
    };
    names.into_iter().map(read).collect()
}

fn compare(fault: Option<&str>, folder: &str, seed: u64, n: u64) -> Result<bool, String> {
    let mut judged = Judged { seed, fault: None, given: BTreeMap::new() };
    // a fault is put into cases at random alone: the others need not be judged once more for each
    let (files, edges) = if fault.is_none() { (files_of(folder)?, make::edges()) } else { (Vec::new(), Vec::new()) };
    println!("library {}, seed {seed}: {} cases of {folder}, {} at the edges, {n} at random", raw::version(), files.len(), edges.len());
    for (name, case) in &files {
        if !judged.is_same(name, case) {
            return Ok(false);
        }
    }
    for (i, call) in edges.into_iter().enumerate() {
        if !judged.is_same(&format!("edge {i}"), &Case { paint: seed.wrapping_add(i as u64), call }) {
            return Ok(false);
        }
    }
    judged.fault = fault;
    let mut r = Random::of_seed(seed);
    for i in 0..n {
        for call in make::random_calls(&mut r) {
            if !judged.is_same(&format!("case {i}"), &Case { paint: r.below(1 << 32), call }) {
                return Ok(false);
            }
        }
    }
    let whole = judged.is_whole();
    println!("{} calls, none differs{}", judged.calls(), if whole { "" } else { "; but some answer was never given" });
    Ok(whole)
}

fn main() -> ExitCode {
    let args: Vec<String> = env::args().skip(1).collect();
    let (fault, rest) = match args.iter().map(String::as_str).collect::<Vec<_>>()[..] {
        ["--faults"] => {
            println!("{}", judge::faults().join("\n"));
            return ExitCode::SUCCESS;
        }
        ["--break", fault, ..] => (Some(fault), &args[2..]),
        _ => (None, &args[..]),
    };
    let numbers = |seed: &str, n: &str| Some((seed.parse().ok()?, n.parse().ok()?));
    let done = match rest {
        [folder, seed, n] => match numbers(seed, n) {
            Some((seed, n)) => compare(fault, folder, seed, n),
            None => Err("SEED and N are numbers".to_string()),
        },
        _ => Err("use: outside [--break FAULT] FOLDER SEED N".to_string()),
    };
    match done {
        Ok(true) => ExitCode::SUCCESS,
        Ok(false) => ExitCode::FAILURE,
        Err(e) => {
            eprintln!("outside: {e}");
            ExitCode::from(2)
        }
    }
}
