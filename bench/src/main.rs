//! Measures the library against two plain Rust programs, CaDiCaL and PicoSAT, and writes what it found.
//!
//!   bench measure FOLDER FACTS OUT    measures, with the published files of FOLDER and the facts of the file FACTS; writes
//!                                     OUT/RESULTS.md, OUT/ratios.svg and OUT/growth.svg
//!   bench once WHO NAME FOLDER        one run, or one reading, of library, plain or counted on the workload NAME, for callgrind

mod counted;
mod library;
mod plain;
mod plot;
// how a table is printed and how one setup is found is not measured
#[allow(dead_code)]
#[path = "../../rust/src/raw.rs"]
mod raw;
mod report;
mod workloads;

use library::{Formula, Lent, Who};
use std::env;
use std::fs;
use std::hint::black_box;
use std::process::ExitCode;
use std::time::{Duration, Instant};
use workloads::{Workload, CHUNK_LIMIT};

const ROUNDS: usize = 11;
/// A sample repeats its work until it takes about so long.
const SAMPLE: Duration = Duration::from_millis(20);

type Failure = Box<dyn std::error::Error>;

/// The quartiles of some samples.
#[derive(Clone, Copy)]
pub struct Spread {
    pub low: f64,
    pub median: f64,
    pub high: f64,
}

impl Spread {
    fn of(mut samples: Vec<f64>) -> Spread {
        samples.sort_by(f64::total_cmp);
        let at = |part: f64| samples[(part * (samples.len() - 1) as f64).round() as usize];
        Spread { low: at(0.25), median: at(0.5), high: at(0.75) }
    }
}

/// What one contestant took: ns for the whole workload, and the library's time divided by it, round by round.
pub struct Taken {
    pub who: Who,
    pub time: Spread,
    pub ratio: Spread,
}

pub struct Measured {
    pub name: String,
    pub what: String,
    pub formulas: usize,
    pub vars: u32,
    pub clauses: u32,
    pub bytes: usize,
    pub tries: u64,
    pub taken: Vec<Taken>,
}

impl Measured {
    pub fn by(&self, who: Who) -> Option<&Taken> {
        self.taken.iter().find(|t| t.who == who)
    }

    pub fn library(&self) -> &Taken {
        &self.taken[0]
    }

    /// The plain program in the library's form: with counts, and of readings the only one.
    pub fn plain(&self) -> &Taken {
        self.by(Who::Counted).or(self.by(Who::Plain)).expect("a plain program is always asked")
    }

    /// The library's time against that.
    pub fn ratio(&self) -> Spread {
        self.plain().ratio
    }

    /// Whether peers were timed.
    pub fn has_peers(&self) -> bool {
        self.taken.iter().any(|t| !t.who.is_same_run())
    }
}

/// Runs on a workload, and on its shorter files: of each the bytes, the clauses and the time, and the second time divided by the first.
pub struct Shortened {
    pub name: String,
    pub bytes: [usize; 2],
    pub clauses: [u32; 2],
    pub times: [Spread; 2],
    pub ratio: Spread,
}

/// All that was measured.
pub struct Results {
    pub runs: Vec<Measured>,
    pub growth: Vec<(&'static str, Vec<Measured>)>,
    pub readings: Vec<Measured>,
    pub shortened: Vec<Shortened>,
    pub stack: usize,
    pub took: Duration,
}

// ---- measuring

/// Times so many works in turn, each round starting with another one: the samples of each. `work` does one of them once.
fn samples_of(works: usize, work: &mut dyn FnMut(usize)) -> Vec<Vec<f64>> {
    let repeats: Vec<u32> = (0..works)
        .map(|i| {
            let start = Instant::now();
            work(i);
            (SAMPLE.as_nanos() / start.elapsed().as_nanos().max(1)).clamp(1, 100_000) as u32
        })
        .collect();
    let mut samples: Vec<Vec<f64>> = vec![Vec::new(); works];
    for round in 0..ROUNDS {
        for turn in 0..works {
            let i = (round + turn) % works;
            let start = Instant::now();
            for _ in 0..repeats[i] {
                work(i);
            }
            samples[i].push(start.elapsed().as_nanos() as f64 / f64::from(repeats[i]));
        }
    }
    samples
}

/// The quotients of two works' samples, round by round.
fn ratio_of(ours: &[f64], others: &[f64]) -> Spread {
    Spread::of(ours.iter().zip(others).map(|(a, b)| a / b).collect())
}

/// Times the contestants in turn. `work` does the whole workload once.
fn in_turn(who: &[Who], work: &mut dyn FnMut(Who)) -> Vec<Taken> {
    let samples = samples_of(who.len(), &mut |i| work(who[i]));
    let library = samples[0].clone();
    let taken = |(&who, own): (&Who, Vec<f64>)| Taken { who, ratio: ratio_of(&library, &own), time: Spread::of(own) };
    who.iter().zip(samples).map(taken).collect()
}

/// Both readers, which must agree; the formula if they accept.
fn formula_of(text: &[u8]) -> Result<Option<Formula>, Failure> {
    let (mut ours, mut theirs) = (vec![7; 4096], vec![7; 4096]);
    let reading = Who::Library.read(text, &mut ours);
    if reading != Who::Plain.read(text, &mut theirs) || ours != theirs {
        return Err("the readers differ".into());
    }
    ours.truncate(reading.count as usize);
    Ok((reading.answer == 0).then_some(Formula { entries: ours, vars: reading.vars, clauses: reading.clauses }))
}

fn formulas_of(workload: &Workload) -> Result<Vec<Formula>, Failure> {
    let read: Result<Vec<_>, _> = workload.texts.iter().map(|text| formula_of(text)).collect();
    Ok(read?.into_iter().flatten().collect())
}

/// All contestants once: the same answer and statuses; of those under the same rules also the same numbers and log. A peer has
/// nothing to say where a budget stopped the run, but what was settled before must be as it says. Returns tries and if it was stopped.
fn check(f: &Formula, budget: u32) -> Result<(u64, bool), Failure> {
    let mut ours = Lent::new();
    let report = Who::Library.run(f, budget, CHUNK_LIMIT, &mut ours);
    let stopped = report.answer == 21;
    for who in Who::all() {
        let mut theirs = Lent::new();
        let other = who.run(f, budget, CHUNK_LIMIT, &mut theirs);
        let agrees = if who.is_same_run() {
            other == report && theirs.status == ours.status && theirs.calls == ours.calls && theirs.ways == ours.ways && theirs.hints == ours.hints && theirs.log == ours.log
        } else if stopped {
            ours.status.iter().zip(&theirs.status).all(|(o, t)| *o == 0 || o == t)
        } else {
            other.answer == report.answer && theirs.status == ours.status
        };
        if !agrees {
            return Err(format!("{} answers otherwise than the library", who.name()).into());
        }
    }
    Ok((u64::from(report.tries), stopped))
}

fn measured(workload: &Workload, formulas: &[Formula], tries: u64, taken: Vec<Taken>) -> Measured {
    Measured {
        name: workload.name.clone(),
        what: workload.what.clone(),
        formulas: formulas.len(),
        vars: formulas.iter().map(|f| f.vars).max().unwrap_or(0),
        clauses: formulas.iter().map(|f| f.clauses).sum::<u32>() / formulas.len().max(1) as u32,
        bytes: workload.texts.iter().map(Vec::len).sum(),
        tries,
        taken,
    }
}

/// The runs of a workload. Peers are timed where they are asked for and no budget stopped a run.
fn measure_runs(workload: &Workload, peers: bool) -> Result<Measured, Failure> {
    let formulas = formulas_of(workload)?;
    let mut tries = 0;
    let mut stopped = false;
    for f in &formulas {
        let (some, ended) = check(f, workload.budget).map_err(|e| format!("{}: {e}", workload.name))?;
        tries += some;
        stopped |= ended;
    }
    let who: Vec<Who> = Who::all().into_iter().filter(|w| w.is_same_run() || (peers && !stopped)).collect();
    let mut lent = Lent::new();
    let taken = in_turn(&who, &mut |w| {
        for f in &formulas {
            black_box(w.run(black_box(f), workload.budget, CHUNK_LIMIT, &mut lent));
        }
    });
    let result = measured(workload, &formulas, tries, taken);
    eprintln!("{:24} {:>8} tries  {}", result.name, tries, ratios_said(&result));
    Ok(result)
}

fn measure_readings(workload: &Workload) -> Result<Measured, Failure> {
    let formulas = formulas_of(workload)?;
    let mut entries = vec![0; 4096];
    let taken = in_turn(&[Who::Library, Who::Plain], &mut |w| {
        for text in &workload.texts {
            black_box(w.read(black_box(text), &mut entries));
        }
    });
    let result = Measured { formulas: workload.texts.len(), ..measured(workload, &formulas, 0, taken) };
    eprintln!("{:24} {:>8} bytes  {}", result.name, result.bytes, ratios_said(&result));
    Ok(result)
}

fn ratios_said(m: &Measured) -> String {
    let said: Vec<String> =
        m.taken.iter().map(|t| format!("{} {:.3} ms ({:.2})", t.who.name(), t.time.median / 1e6, t.ratio.median)).collect();
    said.join(", ")
}

/// The library's runs on a workload and on its shorter files.
fn measure_shorter(workload: &Workload) -> Result<Shortened, Failure> {
    let whole = formulas_of(workload)?;
    let mut bytes = 0;
    let mut shorter = Vec::new();
    for f in &whole {
        let mut text = vec![0; 32_768];
        let report = raw::shorter(&f.entries, f.vars, workload.budget, CHUNK_LIMIT, &mut text);
        text.truncate(report.length as usize);
        bytes += text.len();
        let short = formula_of(&text)?.ok_or("a shorter file is refused")?;
        let (mut before, mut after) = (Lent::new(), Lent::new());
        Who::Library.run(f, workload.budget, CHUNK_LIMIT, &mut before);
        Who::Library.run(&short, workload.budget, CHUNK_LIMIT, &mut after);
        if before.status != after.status {
            return Err("a shorter file has other statuses".into());
        }
        shorter.push(short);
    }
    let both = [whole, shorter];
    let mut lent = Lent::new();
    let samples = samples_of(2, &mut |i| {
        for f in &both[i] {
            black_box(Who::Library.run(black_box(f), workload.budget, CHUNK_LIMIT, &mut lent));
        }
    });
    let clauses = both.each_ref().map(|formulas| formulas.iter().map(|f| f.clauses).sum());
    let ratio = ratio_of(&samples[1], &samples[0]);
    let name = workload.name.clone();
    eprintln!("{name:24} {bytes:>8} bytes of shorter files, their time {:.2}", ratio.median);
    let bytes = [workload.texts.iter().map(Vec::len).sum(), bytes];
    let [whole, short]: [Vec<f64>; 2] = samples.try_into().expect("two works were timed");
    Ok(Shortened { name, bytes, clauses, times: [Spread::of(whole), Spread::of(short)], ratio })
}

/// The most stack that one of the deepest runs needs.
fn deepest_stack() -> Result<usize, Failure> {
    let mut most = 0;
    for text in workloads::deepest() {
        let f = formula_of(&text)?.ok_or("the deepest formula is refused")?;
        most = most.max(library::stack(&f, u32::MAX, CHUNK_LIMIT));
    }
    Ok(most)
}

fn measure(folder: &str, facts: &str, out: &str) -> Result<(), Failure> {
    let start = Instant::now();
    let facts = fs::read_to_string(facts)?;
    let runs = workloads::runs(folder)?.iter().map(|w| measure_runs(w, true)).collect::<Result<_, _>>()?;
    let readings = workloads::texts(folder)?.iter().map(measure_readings).collect::<Result<_, _>>()?;
    let mut growth = Vec::new();
    for series in workloads::growth() {
        eprintln!("growth: {}", series.name);
        growth.push((series.name, series.workloads.iter().map(|w| measure_runs(w, false)).collect::<Result<_, _>>()?));
    }
    let shortened = workloads::cards_alone().iter().map(measure_shorter).collect::<Result<_, _>>()?;
    let results = Results { runs, growth, readings, shortened, stack: deepest_stack()?, took: start.elapsed() };
    fs::write(format!("{out}/RESULTS.md"), report::page(&results, &facts))?;
    fs::write(format!("{out}/ratios.svg"), plot::ratios(&results))?;
    fs::write(format!("{out}/growth.svg"), plot::growth(&results))?;
    Ok(())
}

// ---- one run

fn once(who: &str, name: &str, folder: &str) -> Result<(), Failure> {
    let who = match who {
        "library" => Who::Library,
        "plain" => Who::Plain,
        "counted" => Who::Counted,
        _ => return Err("WHO is library, plain or counted".into()),
    };
    if let Some(workload) = workloads::runs(folder)?.iter().find(|w| w.name == name) {
        let mut lent = Lent::new();
        for f in &formulas_of(workload)? {
            black_box(who.run(black_box(f), workload.budget, CHUNK_LIMIT, &mut lent));
        }
        return Ok(());
    }
    let texts = workloads::texts(folder)?;
    let name = name.strip_prefix("read ").unwrap_or(name);
    let workload = texts.iter().find(|w| w.name == name).ok_or("no such workload")?;
    let mut entries = vec![0; 4096];
    for text in &workload.texts {
        black_box(who.read(black_box(text), &mut entries));
    }
    Ok(())
}

fn main() -> ExitCode {
    let args: Vec<String> = env::args().skip(1).collect();
    let done = match args.iter().map(String::as_str).collect::<Vec<_>>()[..] {
        ["measure", folder, facts, out] => measure(folder, facts, out),
        ["once", who, name, folder] => once(who, name, folder),
        _ => Err("bench measure FOLDER FACTS OUT, or bench once WHO NAME FOLDER".into()),
    };
    match done {
        Ok(()) => ExitCode::SUCCESS,
        Err(e) => {
            eprintln!("bench: {e}");
            ExitCode::FAILURE
        }
    }
}
