//! The rules once more (`rules.rs`), against the programs.
//!
//!   reference FILE...                    the table of each file, as the table program prints it
//!   reference --named FILE...            the same, each behind the file's name, as the program vectors prints it
//!   reference --families FOLDER          writes formulas whose backbones are known into the folder
//!   reference --solver SOLVER FILE...    SOLVER (which ends with 10 or 20, as picosat does) must find the same forced and free
//!   reference --against PROGRAM FILE...  PROGRAM must print the same for each file, and what all models say where there are at
//!                                        most 20 variables
//!   reference --random PROGRAM SEED N    the same for N texts made from SEED: formulas, and texts with a byte or two changed; for every
//!                                        other one PROGRAM is given literals to hold
//!   reference --why PROGRAM FILE...      PROGRAM, started with a literal, must print why it is forced as `why.rs` does, for some literals of
//!                                        each file; what is kept is tried with all assignments where there are at most 10 variables
//!   reference --why-random PROGRAM SEED N     the same for N texts made from SEED
//!   reference --why-solver SOLVER SEED N      for N formulas made from SEED: SOLVER must find that what is kept forces, and without one
//!                                             does not
//!   reference --witness PROGRAM FILE...       PROGRAM, started with a variable, must print two models as `witness.rs` does, which make all
//!                                             clauses true and differ on the variable, for some variables of each file
//!   reference --witness-random PROGRAM SEED N     the same for N texts made from SEED
//!   reference --shorter PROGRAM FILE...       PROGRAM must print the shorter file of each file as `shorter.rs` does; it is read back, with no
//!                                             more clauses, and after a settled run its own shorter file is itself
//!   reference --shorter-random PROGRAM SEED N     the same for N texts made from SEED

// one valid setup is compared by tests/outside
#[allow(dead_code)]
mod rules;
mod shorter;
mod texts;
mod why;
mod witness;

use std::env;
use std::fmt::Write as _;
use std::fs;
use std::io::Write as _;
use std::process::{Command, ExitCode, Stdio};

use rules::{by_models, clauses_of, holds, read, run_of, status_lines, table, with_held, Formula};
use shorter::{fault_of_text, ShorterGiven};
use texts::{random_held, random_text, text_of, Random};
use why::{fault_of_kept, forces, WhyGiven};

/// A name, a text, and the literals held.
type Text = (String, Vec<u8>, Vec<i32>);

// ---- against the program

fn printed(program: &str, words: &[String], text: &[u8]) -> std::io::Result<Vec<u8>> {
    let mut child = Command::new(program).args(words).stdin(Stdio::piped()).stdout(Stdio::piped()).spawn()?;
    // a program that has read all that it needs may close its end
    let _ = child.stdin.take().expect("it is piped").write_all(text);
    Ok(child.wait_with_output()?.stdout)
}

/// What is wrong with the program's table for a text with literals held, if anything.
fn difference(program: &str, text: &[u8], held: &[i32]) -> Option<String> {
    let words: Vec<String> = held.iter().map(i32::to_string).collect();
    let got = match printed(program, &words, text) {
        Err(e) => return Some(format!("{program}: {e}")),
        Ok(bytes) => String::from_utf8_lossy(&bytes).into_owned(),
    };
    let expected = table(text, held);
    if got != expected {
        return Some(format!("expected\n{expected}but it printed\n{got}"));
    }
    let (f, r) = read(text).and_then(|f| run_of(&f, held).map(|r| (f, r))).ok()?;
    if f.vars <= 20 {
        let lines = by_models(f.vars, &with_held(&f.entries, held)).map_or(String::new(), |status| status_lines(&status, &r.hints));
        if r.answer != 21 && !got.ends_with(&format!("\n{lines}")) {
            return Some(format!("all models say\n{lines}but it printed\n{got}"));
        }
    }
    None
}

// ---- against a solver

fn is_satisfiable(solver: &str, f: &Formula, unit: i32) -> std::io::Result<bool> {
    let clauses = clauses_of(&f.entries);
    let mut text = format!("p cnf {} {}\n", f.vars, f.clauses + usize::from(unit != 0));
    for c in &clauses {
        for l in c {
            write!(text, "{l} ").expect("a string takes every byte");
        }
        text.push_str("0\n");
    }
    if unit != 0 {
        writeln!(text, "{unit} 0").expect("a string takes every byte");
    }
    let mut child = Command::new(solver).stdin(Stdio::piped()).stdout(Stdio::null()).spawn()?;
    child.stdin.take().expect("it is piped").write_all(text.as_bytes())?;
    match child.wait()?.code() {
        Some(10) => Ok(true),
        Some(20) => Ok(false),
        other => Err(std::io::Error::other(format!("{solver} ended with {other:?}"))),
    }
}

/// Where the solver and the run do not agree on a text that is accepted and not stopped.
fn solver_difference(solver: &str, text: &[u8]) -> std::io::Result<Option<String>> {
    let Ok((f, r)) = read(text).and_then(|f| run_of(&f, &[]).map(|r| (f, r))) else { return Ok(None) };
    if r.answer == 21 {
        return Ok(None);
    }
    if is_satisfiable(solver, &f, 0)? == (r.answer == 20) {
        return Ok(Some(format!("answer {}", r.answer)));
    }
    if r.answer != 0 {
        return Ok(None);
    }
    for v in 1..=f.vars as i32 {
        let status = match (is_satisfiable(solver, &f, v)?, is_satisfiable(solver, &f, -v)?) {
            (true, true) => 1,
            (true, false) => 2,
            _ => 3,
        };
        if status != r.status[v as usize - 1] {
            return Ok(Some(format!("variable {v}")));
        }
    }
    Ok(None)
}

fn against_solver(solver: &str, texts: &[Text]) -> std::io::Result<ExitCode> {
    let mut wrong = 0;
    for (name, text, _) in texts {
        if let Some(what) = solver_difference(solver, text)? {
            println!("{name}: {solver} says otherwise of {what}");
            wrong += 1;
        }
    }
    println!("{} texts against {solver}, {wrong} differ", texts.len());
    Ok(if wrong == 0 { ExitCode::SUCCESS } else { ExitCode::FAILURE })
}

// ---- why a literal is forced

/// The clauses that are kept for a literal of a formula, if it is forced.
fn kept_of(f: &Formula, literal: i32) -> Option<Vec<rules::Clause>> {
    let (vars, marks_len, values_len) = (f.vars as u32, rules::MAX_CLAUSES, f.vars);
    let w = why::why(&WhyGiven { entries: &f.entries, vars, literal, budget: 1_000_000, marks_len, values_len }).ok()?;
    let kept = clauses_of(&f.entries).into_iter().zip(&w.marks).filter(|(_, &mark)| mark == 1).map(|(c, _)| c);
    (w.answer == 0).then(|| kept.collect())
}

/// What is printed for a text and a literal.
fn why_text(text: &[u8], literal: i32) -> String {
    let refused = |(number, place): rules::Refusal| format!("refused {number} place {place}\n");
    let f = match read(text) {
        Err(refusal) => return refused(refusal),
        Ok(f) => f,
    };
    let (vars, marks_len, values_len) = (f.vars as u32, rules::MAX_CLAUSES, f.vars);
    let w = match why::why(&WhyGiven { entries: &f.entries, vars, literal, budget: 1_000_000, marks_len, values_len }) {
        Err(refusal) => return refused(refusal),
        Ok(w) => w,
    };
    let kept = w.marks.iter().filter(|&&m| m == 1).count();
    let mut out = format!("answer {} calls {} tries {} kept {kept}\n", w.answer, w.calls, w.tries);
    for (i, clause) in f.entries.split_inclusive(|&e| e == 0).enumerate().filter(|&(i, _)| w.marks[i] == 1) {
        write!(out, "clause {}:", i + 1).expect("a string takes every byte");
        for l in &clause[..clause.len() - 1] {
            write!(out, " {l}").expect("a string takes every byte");
        }
        out.push('\n');
    }
    if w.answer == 22 {
        let literals: Vec<String> = (1..).zip(&w.values).map(|(v, &b)| if b == 1 { format!("{v}") } else { format!("-{v}") }).collect();
        writeln!(out, "{}", literals.join(" ")).expect("a string takes every byte");
    }
    out
}

/// What is wrong with what the program prints for a text and a literal, if anything.
fn why_difference(program: &str, text: &[u8], literal: i32) -> Option<String> {
    let got = match printed(program, &[literal.to_string()], text) {
        Err(e) => return Some(format!("{program}: {e}")),
        Ok(bytes) => String::from_utf8_lossy(&bytes).into_owned(),
    };
    let expected = why_text(text, literal);
    if got != expected {
        return Some(format!("expected\n{expected}but it printed\n{got}"));
    }
    let f = read(text).ok().filter(|f| f.vars <= 10)?;
    fault_of_kept(&kept_of(&f, literal)?, |clauses| forces(f.vars, clauses, literal))
}

/// Literals to ask about: those that the run finds forced, up to three, the other sign of the last, a free one, 0 and one above V.
fn literals_of(text: &[u8]) -> Vec<i32> {
    let Ok(f) = read(text) else { return vec![1] };
    let r = run_of(&f, &[]).expect("no rule refuses what was read");
    let signed = (1..).zip(&r.status).filter_map(|(v, &s): (i32, _)| match s {
        2 => Some(v),
        3 => Some(-v),
        _ => None,
    });
    let mut literals: Vec<i32> = signed.take(3).collect();
    literals.extend(literals.last().map(|l| -l));
    literals.extend((1..).zip(&r.status).find(|(_, &s)| s == 1).map(|(v, _): (i32, _)| -v));
    literals.extend([0, f.vars as i32 + 1]);
    literals
}

fn why_against(program: &str, texts: &[Text]) -> ExitCode {
    let (mut asked, mut wrong) = (0, 0);
    for (name, text, _) in texts {
        for literal in literals_of(text) {
            asked += 1;
            if let Some(what) = why_difference(program, text, literal) {
                println!("{name}, literal {literal}: {what}");
                wrong += 1;
            }
        }
    }
    println!("{} texts, {asked} literals, {wrong} differ", texts.len());
    if wrong == 0 { ExitCode::SUCCESS } else { ExitCode::FAILURE }
}

/// A formula at random with a model, and with so many short clauses that some literal is forced, most often by several of them.
fn random_formula(r: &mut Random) -> Formula {
    let vars = 3 + r.below(30);
    let model: Vec<bool> = (0..vars).map(|_| r.below(2) == 0).collect();
    let signed = |v: u64, on: bool| if on { v as i32 + 1 } else { -(v as i32) - 1 };
    let mut clauses: Vec<Vec<i32>> = Vec::new();
    for _ in 0..2 * vars + r.below(2 * vars) {
        let first = r.below(vars);
        let mut clause = vec![signed(first, model[first as usize])];
        for _ in 0..1 + r.below(2) {
            let on = r.below(4) == 0;
            let v = r.below(vars);
            clause.push(signed(v, model[v as usize] == on));
        }
        clauses.push(clause);
    }
    read(text_of(vars as i32, &clauses).as_bytes()).expect("it is written by the rules")
}

fn why_solver(solver: &str, seed: u64, n: u64) -> std::io::Result<ExitCode> {
    let mut r = Random::of_seed(seed);
    let (mut formulas, mut kept_clauses, mut wrong) = (0, 0, 0);
    while formulas < n {
        let f = random_formula(&mut r);
        let asked = literals_of(text_of(f.vars as i32, &lists_of(&f)).as_bytes());
        let Some((literal, kept)) = asked.into_iter().find_map(|l| Some((l, kept_of(&f, l)?))) else { continue };
        formulas += 1;
        kept_clauses += kept.len();
        let mut failed = None;
        let fault = fault_of_kept(&kept, |clauses| {
            let entries = clauses.iter().flat_map(|c| c.iter().copied().chain([0])).collect();
            let part = Formula { vars: f.vars, clauses: clauses.len(), entries };
            is_satisfiable(solver, &part, -literal).map_or_else(|e| failed.replace(e).is_some(), |some| !some)
        });
        if let Some(e) = failed {
            return Err(e);
        }
        if let Some(what) = fault {
            println!("formula {formulas}, literal {literal}: {solver} says that {what}");
            wrong += 1;
        }
    }
    println!("{formulas} formulas with {kept_clauses} clauses kept against {solver}, {wrong} differ");
    Ok(if wrong == 0 { ExitCode::SUCCESS } else { ExitCode::FAILURE })
}

fn lists_of(f: &Formula) -> Vec<Vec<i32>> {
    f.entries.split_inclusive(|&e| e == 0).map(|c| c[..c.len() - 1].to_vec()).collect()
}

// ---- a witness

/// Why the two lines are no two models that differ on the variable, if they are none.
fn fault_of_witness(text: &[u8], variable: u32, got: &str) -> Option<String> {
    if got.starts_with("refused") {
        return None;
    }
    let f = read(text).ok()?;
    let clauses = clauses_of(&f.entries);
    let models: Vec<Vec<bool>> = got.lines().map(|line| line.split(' ').map(|word| !word.starts_with('-')).collect()).collect();
    let [first, second] = &models[..] else { return Some(String::from("it printed other than two lines")) };
    let at = variable as usize - 1;
    if first.len() != f.vars || second.len() != f.vars || first[at] == second[at] {
        return Some(format!("the two do not differ on {variable}\n{got}"));
    }
    (!holds(&clauses, first) || !holds(&clauses, second)).then(|| format!("one is no model\n{got}"))
}

/// What is wrong with what the program prints for a text and a variable, if anything.
fn witness_difference(program: &str, text: &[u8], variable: u32) -> Option<String> {
    let got = match printed(program, &[variable.to_string()], text) {
        Err(e) => return Some(format!("{program}: {e}")),
        Ok(bytes) => String::from_utf8_lossy(&bytes).into_owned(),
    };
    let expected = witness::lines(text, variable);
    if got != expected {
        return Some(format!("expected\n{expected}but it printed\n{got}"));
    }
    fault_of_witness(text, variable, &got)
}

/// Variables to ask about: up to two for each call and way that settled one, 0 and one above V.
fn variables_of(text: &[u8]) -> Vec<u32> {
    let Ok(f) = read(text) else { return vec![1] };
    let r = run_of(&f, &[]).expect("no rule refuses what was read");
    let how = |v: u32| (r.calls[v as usize - 1], r.ways[v as usize - 1]);
    let few = (1..=f.vars as u32).filter(|&v| (1..v).filter(|&u| how(u) == how(v)).count() < 2);
    few.chain([0, f.vars as u32 + 1]).collect()
}

fn witness_against(program: &str, texts: &[Text]) -> ExitCode {
    let (mut asked, mut wrong) = (0, 0);
    for (name, text, _) in texts {
        for variable in variables_of(text) {
            asked += 1;
            if let Some(what) = witness_difference(program, text, variable) {
                println!("{name}, variable {variable}: {what}");
                wrong += 1;
            }
        }
    }
    println!("{} texts, {asked} variables, {wrong} differ", texts.len());
    if wrong == 0 { ExitCode::SUCCESS } else { ExitCode::FAILURE }
}

// ---- the shorter file

/// A formula with the limits of the programs.
fn as_printed(f: &Formula) -> ShorterGiven<'_> {
    ShorterGiven { entries: &f.entries, vars: f.vars as u32, budget: 1_000_000, chunk_limit: 16, room: rules::MAX_TEXT }
}

/// What the program is to print for a text.
fn shorter_text(text: &[u8]) -> String {
    let made = read(text).and_then(|f| shorter::shorter(&as_printed(&f)));
    made.map_or_else(|(number, place)| format!("refused {number} place {place}\n"), |(_, text)| text)
}

/// What is wrong with what the program prints for a text, if anything.
fn shorter_difference(program: &str, text: &[u8]) -> Option<String> {
    let print = |text: &[u8]| printed(program, &[], text).map(|bytes| String::from_utf8_lossy(&bytes).into_owned());
    let got = match print(text) {
        Err(e) => return Some(format!("{program}: {e}")),
        Ok(got) => got,
    };
    let expected = shorter_text(text);
    if got != expected {
        return Some(format!("expected\n{expected}but it printed\n{got}"));
    }
    let (f, run) = read(text).and_then(|f| run_of(&f, &[]).map(|run| (f, run))).ok()?;
    if let Some(fault) = fault_of_text(&as_printed(&f), run.answer, got.as_bytes(), f.vars <= 10) {
        return Some(format!("{fault}\n{got}"));
    }
    let again = (run.answer == 0).then(|| print(got.as_bytes()).unwrap_or_default())?;
    (again != got).then(|| format!("of its own text\n{got}it printed\n{again}"))
}

fn shorter_against(program: &str, texts: &[Text]) -> ExitCode {
    let mut wrong = 0;
    for (name, text, _) in texts {
        if let Some(what) = shorter_difference(program, text) {
            println!("{name}: {what}");
            wrong += 1;
        }
    }
    println!("{} texts made shorter, {wrong} differ", texts.len());
    if wrong == 0 { ExitCode::SUCCESS } else { ExitCode::FAILURE }
}

// ---- families

fn at_most_one(vars: &[i32]) -> Vec<Vec<i32>> {
    let mut clauses = Vec::new();
    for (i, &a) in vars.iter().enumerate() {
        clauses.extend(vars[i + 1..].iter().map(|&b| vec![-a, -b]));
    }
    clauses
}

/// One pigeon more than holes: no model.
fn pigeons(holes: i32) -> String {
    let at = |pigeon: i32, hole: i32| pigeon * holes + hole + 1;
    let mut clauses: Vec<Vec<i32>> = (0..=holes).map(|p| (0..holes).map(|h| at(p, h)).collect()).collect();
    for h in 0..holes {
        clauses.extend(at_most_one(&(0..=holes).map(|p| at(p, h)).collect::<Vec<_>>()));
    }
    text_of(holes * (holes + 1), &clauses)
}

/// Each variable implies the next; where the first one is asked for, all are forced on.
fn chain(vars: i32, first: bool) -> String {
    let mut clauses: Vec<Vec<i32>> = (1..vars).map(|v| vec![-v, v + 1]).collect();
    if first {
        clauses.insert(0, vec![1]);
    }
    text_of(vars, &clauses)
}

/// Groups of which exactly one is on: all free, but in a group with a unit.
fn groups(count: i32, size: i32) -> String {
    let mut clauses = Vec::new();
    for g in 0..count {
        let group: Vec<i32> = (1..=size).map(|i| g * size + i).collect();
        clauses.push(group.clone());
        clauses.extend(at_most_one(&group));
    }
    clauses.push(vec![count * size]);
    text_of(count * size, &clauses)
}

/// So many clauses of so many literals in turn: the first literal of every other clause is negative.
fn many(vars: i32, count: i32, literals: i32) -> String {
    let clauses: Vec<Vec<i32>> = (0..count)
        .map(|c| (0..literals).map(|i| if i == 0 && c % 2 == 0 { -(c % vars + 1) } else { (c + i * 7) % vars + 1 }).collect())
        .collect();
    text_of(vars, &clauses)
}

fn families(folder: &str) -> std::io::Result<ExitCode> {
    for (name, text) in [
        ("pigeons_5.cnf", pigeons(5)),
        ("pigeons_9.cnf", pigeons(9)),
        ("chain_forced_256.cnf", chain(256, true)),
        ("chain_open_20.cnf", chain(20, false)),
        ("groups_8_by_4.cnf", groups(8, 4)),
        ("none_256.cnf", text_of(256, &[])),
        ("clauses_1024.cnf", many(256, 1024, 2)),
        ("entries_4096.cnf", many(256, 1024, 3)),
    ] {
        fs::write(format!("{folder}/{name}"), text)?;
    }
    Ok(ExitCode::SUCCESS)
}

// ---- texts at random

fn files_of(names: &[String]) -> std::io::Result<Vec<Text>> {
    names.iter().map(|n| Ok((n.clone(), fs::read(n)?, Vec::new()))).collect()
}

fn against(program: &str, texts: &[Text]) -> ExitCode {
    let mut wrong = 0;
    for (name, text, held) in texts {
        if let Some(what) = difference(program, text, held) {
            println!("{name}: {what}");
            wrong += 1;
        }
    }
    println!("{} texts, {wrong} differ", texts.len());
    if wrong == 0 { ExitCode::SUCCESS } else { ExitCode::FAILURE }
}

fn main() -> ExitCode {
    let args: Vec<String> = env::args().skip(1).collect();
    let done = match args.iter().map(String::as_str).collect::<Vec<_>>()[..] {
        [word @ ("--random" | "--why-random" | "--why-solver" | "--witness-random" | "--shorter-random"), program, seed, n] => {
            let (Ok(seed), Ok(n)) = (seed.parse::<u64>(), n.parse::<u64>()) else {
                eprintln!("SEED and N are numbers");
                return ExitCode::FAILURE;
            };
            println!("seed {seed}");
            if word == "--why-solver" {
                return why_solver(program, seed, n).unwrap_or_else(|e| {
                    eprintln!("{e}");
                    ExitCode::FAILURE
                });
            }
            let mut r = Random::of_seed(seed);
            let texts: Vec<_> = (0..n)
                .map(|i| {
                    let text = random_text(&mut r);
                    let vars = read(&text).map_or(3, |f| f.vars);
                    let held = if r.below(2) == 0 { Vec::new() } else { random_held(&mut r, vars as u32) };
                    // a word of more digits is no number
                    let held: Vec<i32> = held.into_iter().map(|l| l.clamp(-999_999_999, 999_999_999)).collect();
                    (format!("text {i}, {:?} with {held:?}", String::from_utf8_lossy(&text)), text, held)
                })
                .collect();
            return match word {
                "--random" => against(program, &texts),
                "--why-random" => why_against(program, &texts),
                "--shorter-random" => shorter_against(program, &texts),
                _ => witness_against(program, &texts),
            };
        }
        ["--shorter", program, ..] => files_of(&args[2..]).map(|texts| shorter_against(program, &texts)),
        ["--witness", program, ..] => files_of(&args[2..]).map(|texts| witness_against(program, &texts)),
        ["--why", program, ..] => files_of(&args[2..]).map(|texts| why_against(program, &texts)),
        ["--against", program, ..] => files_of(&args[2..]).map(|texts| against(program, &texts)),
        ["--solver", solver, ..] => files_of(&args[2..]).and_then(|texts| against_solver(solver, &texts)),
        ["--families", folder] => families(folder),
        ["--named", ..] => files_of(&args[1..]).map(|texts| {
            for (name, text, held) in texts {
                print!("{}\n{}", name.rsplit('/').next().unwrap_or(&name), table(&text, &held));
            }
            ExitCode::SUCCESS
        }),
        _ => files_of(&args).map(|texts| {
            for (_, text, held) in texts {
                print!("{}", table(&text, &held));
            }
            ExitCode::SUCCESS
        }),
    };
    done.unwrap_or_else(|e| {
        eprintln!("{e}");
        ExitCode::FAILURE
    })
}
