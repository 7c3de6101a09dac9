//! What is measured: formulas as DIMACS text, made by a seeded generator, and the published ones. A workload is a list of formulas that
//! are run one after the other, so that no single formula decides.

use std::fmt::Write as _;
use std::fs;

pub const CHUNK_LIMIT: u32 = 16;
const UNLIMITED: u32 = u32::MAX;

pub struct Workload {
    pub name: String,
    pub what: String,
    pub budget: u32,
    pub texts: Vec<Vec<u8>>,
}

/// A line of the growth plot: workloads that differ in size alone.
pub struct Series {
    pub name: &'static str,
    pub workloads: Vec<Workload>,
}

// ---- the generator

/// SplitMix64.
struct Random(u64);

impl Random {
    fn next(&mut self) -> u64 {
        self.0 = self.0.wrapping_add(0x9E37_79B9_7F4A_7C15);
        let mut z = self.0;
        z = (z ^ (z >> 30)).wrapping_mul(0xBF58_476D_1CE4_E5B9);
        z = (z ^ (z >> 27)).wrapping_mul(0x94D0_49BB_1331_11EB);
        z ^ (z >> 31)
    }

    fn below(&mut self, n: usize) -> usize {
        (self.next() % n as u64) as usize
    }

    fn shuffle<T>(&mut self, items: &mut [T]) {
        for i in (1..items.len()).rev() {
            items.swap(i, self.below(i + 1));
        }
    }
}

type Clauses = Vec<Vec<i32>>;

fn text_of(vars: usize, clauses: &[Vec<i32>]) -> Vec<u8> {
    let mut text = format!("p cnf {vars} {}\n", clauses.len());
    for clause in clauses {
        for l in clause {
            write!(text, "{l} ").expect("a string takes every byte");
        }
        text.push_str("0\n");
    }
    text.into_bytes()
}

fn at_most_one(group: &[i32], clauses: &mut Clauses) {
    for (i, &a) in group.iter().enumerate() {
        clauses.extend(group[i + 1..].iter().map(|&b| vec![-a, -b]));
    }
}

/// One parent and its children: two of seven groups are mandatory, two optional, one is an or-group, two are of exactly one.
/// `setup` is the planted setup, in which the new clauses are true.
fn group(kind: usize, parent: i32, children: &[i32], setup: &mut [bool], clauses: &mut Clauses, r: &mut Random) {
    let on = setup[parent as usize];
    clauses.extend(children.iter().map(|&c| vec![-c, parent]));
    match kind {
        0 | 1 => clauses.extend(children.iter().map(|&c| vec![-parent, c])),
        2 | 3 => {}
        _ => {
            let mut any = vec![-parent];
            any.extend(children);
            clauses.push(any);
        }
    }
    if kind >= 5 {
        at_most_one(children, clauses);
    }
    let chosen = r.below(children.len());
    for (i, &c) in children.iter().enumerate() {
        setup[c as usize] = on
            && match kind {
                0 | 1 => true,
                2 | 3 => r.below(2) == 0,
                4 => i == chosen || r.below(2) == 0,
                _ => i == chosen,
            };
    }
}

/// A card's rules: a tree of features under variable 1, which is on, and cross rules between them, one for every two variables. A
/// setup is planted, and only cross rules that it keeps are taken, so that there is a model. The variables are numbered at random,
/// as a file that grew over time numbers them.
fn card(vars: usize, seed: u64) -> Vec<u8> {
    let mut r = Random(seed);
    let mut clauses = vec![vec![1]];
    let mut setup = vec![false; vars + 1];
    setup[1] = true;
    let mut used = 1;
    let mut parents = vec![1];
    let mut next_parent = 0;
    while used < vars {
        let parent = parents[next_parent];
        next_parent += 1;
        for _ in 0..2 {
            let size = (2 + r.below(4)).min(vars - used);
            if size == 0 {
                break;
            }
            let children: Vec<i32> = (used + 1..=used + size).map(|v| v as i32).collect();
            group(r.below(7), parent, &children, &mut setup, &mut clauses, &mut r);
            used += size;
            parents.extend(&children);
        }
    }
    let mut cross = 0;
    while cross < vars / 2 {
        let width = 2 + r.below(2);
        let rule: Vec<i32> = (0..width)
            .map(|_| {
                let v = 2 + r.below(vars - 1) as i32;
                if r.below(3) == 0 { v } else { -v }
            })
            .collect();
        let distinct = rule.iter().enumerate().all(|(i, l)| rule[..i].iter().all(|k| k.abs() != l.abs()));
        if distinct && rule.iter().any(|&l| setup[l.unsigned_abs() as usize] == (l > 0)) {
            clauses.push(rule);
            cross += 1;
        }
    }
    let mut names: Vec<i32> = (1..=vars as i32).collect();
    r.shuffle(&mut names);
    for l in clauses.iter_mut().flatten() {
        *l = l.signum() * names[l.unsigned_abs() as usize - 1];
    }
    text_of(vars, &clauses)
}

/// Clauses of three different variables, their signs by chance; the ratio is clauses to a hundred variables.
fn random_3sat(vars: usize, ratio: usize, seed: u64) -> Vec<u8> {
    let mut r = Random(seed);
    let clauses: Clauses = (0..vars * ratio / 100)
        .map(|_| {
            let mut clause: Vec<i32> = Vec::new();
            while clause.len() < 3 {
                let v = 1 + r.below(vars) as i32;
                if !clause.iter().any(|l| l.abs() == v) {
                    clause.push(if r.below(2) == 0 { v } else { -v });
                }
            }
            clause
        })
        .collect();
    text_of(vars, &clauses)
}

/// Variable 1, and each implies the next. Written from the back, every round of closing sets one literal only.
fn chain(vars: usize, backwards: bool, given: bool) -> Vec<u8> {
    let mut clauses: Clauses = (1..vars as i32).map(|v| vec![-v, v + 1]).collect();
    if given {
        clauses.insert(0, vec![1]);
    }
    if backwards {
        clauses.reverse();
    }
    text_of(vars, &clauses)
}

fn units(vars: usize) -> Vec<u8> {
    let clauses: Clauses = (1..=vars as i32).map(|v| vec![if v % 2 == 0 { v } else { -v }]).collect();
    text_of(vars, &clauses)
}

/// One pigeon more than holes: no model.
fn pigeons(holes: usize) -> Vec<u8> {
    let at = |pigeon: usize, hole: usize| (pigeon * holes + hole + 1) as i32;
    let mut clauses: Clauses = (0..=holes).map(|p| (0..holes).map(|h| at(p, h)).collect()).collect();
    for h in 0..holes {
        let hole: Vec<i32> = (0..=holes).map(|p| at(p, h)).collect();
        at_most_one(&hole, &mut clauses);
    }
    text_of(holes * (holes + 1), &clauses)
}

// ---- the lists

fn cards(vars: usize, count: u64) -> Vec<Vec<u8>> {
    (1..=count).map(|seed| card(vars, seed)).collect()
}

fn randoms(vars: usize, ratio: usize, count: u64) -> Vec<Vec<u8>> {
    (1..=count).map(|seed| random_3sat(vars, ratio, seed)).collect()
}

fn workload(name: &str, what: &str, texts: Vec<Vec<u8>>) -> Workload {
    Workload { name: name.to_string(), what: what.to_string(), budget: UNLIMITED, texts }
}

fn limited(name: &str, what: &str, budget: u32, texts: Vec<Vec<u8>>) -> Workload {
    Workload { budget, ..workload(name, what, texts) }
}

/// The formulas of others, in the order of their names: those whose names start so, and not those that are left out.
fn published(folder: &str, starts: &[&str], without: &[&str]) -> std::io::Result<Vec<Vec<u8>>> {
    let mut paths: Vec<_> = fs::read_dir(folder)?.collect::<Result<Vec<_>, _>>()?.iter().map(|entry| entry.path()).collect();
    paths.sort();
    paths.retain(|path| {
        let name = path.file_name().unwrap_or_default().to_string_lossy().into_owned();
        name.ends_with(".cnf") && starts.iter().any(|s| name.starts_with(s)) && !without.contains(&name.as_str())
    });
    paths.iter().map(fs::read).collect()
}

/// Rule sets of cards.
pub fn cards_alone() -> Vec<Workload> {
    [48, 128, 256].map(|n| workload(&format!("card {n}"), &format!("10 rule sets of {n} variables"), cards(n, 10))).into()
}

/// `folder` has the published files.
pub fn runs(folder: &str) -> std::io::Result<Vec<Workload>> {
    let mut all = cards_alone();
    all.extend([
        workload("3-SAT 50, ratio 4.2", "10 random formulas of 50 variables", randoms(50, 420, 10)),
        workload("3-SAT 60, ratio 4.0", "4 random formulas of 60 variables", randoms(60, 400, 4)),
        workload("3-SAT 60, ratio 4.2", "4 random formulas of 60 variables", randoms(60, 420, 4)),
        workload("3-SAT 60, ratio 4.4", "4 random formulas of 60 variables", randoms(60, 440, 4)),
        workload("3-SAT 75, ratio 4.2", "2 random formulas of 75 variables", randoms(75, 420, 2)),
        limited("3-SAT 100, ratio 4.2", "2 random formulas of 100 variables, at most 10,000 tries each", 10_000, randoms(100, 420, 2)),
        limited("3-SAT 256, ratio 4.0", "1,024 clauses, at most 5,000 tries", 5_000, randoms(256, 400, 1)),
        workload("chain", "1, and each of 256 implies the next: all forced", vec![chain(256, false, true)]),
        workload("chain, backwards", "the same, its clauses from last to first", vec![chain(256, true, true)]),
        workload("chain, free", "each of 256 implies the next: all free", vec![chain(256, false, false)]),
        workload("units", "256 clauses of one literal", vec![units(256)]),
        workload("no clause", "256 variables and no clause: the deepest search", vec![text_of(256, &[])]),
        workload("pigeons 6", "7 pigeons in 6 holes: no model", vec![pigeons(6)]),
        workload("pigeons 7", "8 pigeons in 7 holes: no model", vec![pigeons(7)]),
        workload(
            "published, small",
            "the published files but those of the next two rows and pigeon holes",
            published(folder, &OTHERS, &[ADDER, LARGE, HOLES].concat())?,
        ),
        workload("published, large", "CaDiCaL's prime and sqrt files of 131 to 219 variables", published(folder, LARGE, &[])?),
        limited("published, adder", "CaDiCaL's add8, at most 10,000 tries", 10_000, published(folder, ADDER, &[])?),
        workload("most clauses", "1,024 clauses of two literals", published(folder, &["clauses_1024"], &[])?),
        workload("most entries", "1,024 clauses of three literals", published(folder, &["entries_4096"], &[])?),
    ]);
    Ok(all)
}

// The published files: how the names of those by others start, and some of them.
const OTHERS: [&str; 3] = ["cadical-", "cvc4-", "ruby31-"];
const ADDER: &[&str] = &["cadical-add8.cnf"];
const LARGE: &[&str] =
    &["cadical-prime25.cnf", "cadical-prime49.cnf", "cadical-sqrt2809.cnf", "cadical-sqrt3481.cnf", "cadical-sqrt3721.cnf"];
const HOLES: &[&str] = &["cadical-ph5.cnf", "cadical-ph6.cnf", "cvc4-hole6.cnf"];

/// Each point is named by its number of variables.
pub fn growth() -> Vec<Series> {
    let point = |vars: usize, budget, texts| Workload { name: vars.to_string(), what: String::new(), budget, texts };
    vec![
        Series {
            name: "cards",
            workloads: [32, 48, 64, 96, 128, 192, 256].iter().map(|&n| point(n, UNLIMITED, cards(n, 10))).collect(),
        },
        Series {
            name: "3-SAT, ratio 4.2",
            workloads: [20, 30, 40, 50, 60, 70].iter().map(|&n| point(n, UNLIMITED, randoms(n, 420, 4))).collect(),
        },
        Series {
            name: "3-SAT, ratio 4.0, at most 500 tries",
            workloads: [32, 48, 64, 96, 128, 192, 256].iter().map(|&n| point(n, 500, randoms(n, 400, 2))).collect(),
        },
    ]
}

/// Texts for the reader: name, what it is, texts.
pub fn texts(folder: &str) -> std::io::Result<Vec<Workload>> {
    let wide = random_3sat(256, 400, 1);
    let mut commented = Vec::new();
    while commented.len() + wide.len() < 32_000 {
        commented.extend(b"c a line of words that says which group of rules comes next\n");
    }
    commented.extend(&wide);
    Ok(vec![
        workload("card 256", "the texts of 10 rule sets", cards(256, 10)),
        workload("most entries", "1,024 clauses of three literals", vec![wide]),
        workload("comments", "the same behind comment lines, 32,000 bytes", vec![commented]),
        workload("published", "the published files, refused ones too", published(folder, &OTHERS, &[])?),
    ])
}

/// Formulas whose search goes as deep as there are variables: without a clause, and with one that a second call is needed for.
pub fn deepest() -> Vec<Vec<u8>> {
    vec![text_of(256, &[]), text_of(256, &[vec![255, 256]])]
}
