//! "Why" of the page in plain Rust, beside `rules.rs`: which clauses alone force a literal, and whether a set of clauses does so by trying
//! every assignment.

use crate::rules::{clauses_of, go_on, holds, list_refusal, Clause, End, Meter, Refusal, MAX_CLAUSES, MAX_VARS};

/// What is asked, and how much room there is.
pub struct WhyGiven<'a> {
    pub entries: &'a [i32],
    pub vars: u32,
    pub literal: i32,
    pub budget: u32,
    pub marks_len: usize,
    pub values_len: usize,
}

#[derive(Default)]
pub struct Why {
    pub answer: u32,
    pub calls: u64,
    pub tries: u64,
    pub marks: Vec<u8>,
    pub values: Vec<u8>,
}

fn refusal(g: &WhyGiven) -> Option<Refusal> {
    if g.vars as usize > MAX_VARS {
        return Some((10, 0));
    }
    if g.marks_len < MAX_CLAUSES || g.values_len < g.vars as usize {
        return Some((1, 0));
    }
    list_refusal(g.entries, g.vars).or((g.literal == 0 || g.literal.unsigned_abs() > g.vars).then_some((13, 0)))
}

/// The answer; an error where it is refused.
pub fn why(g: &WhyGiven) -> Result<Why, Refusal> {
    if let Some(refusal) = refusal(g) {
        return Err(refusal);
    }
    let vars = g.vars as usize;
    let clauses = clauses_of(g.entries);
    let mut meter = Meter { budget: g.budget.into(), spent: 0 };
    let mut calls = 0;
    // a call on clauses, each call from no value
    let mut call = |clauses: &[Clause]| {
        calls += 1;
        go_on(clauses, vec![None; vars], &mut meter)
    };
    // the clauses whose mark is set, with the literal false
    let marked = |marks: &[bool]| {
        let mut some: Vec<Clause> = clauses.iter().zip(marks).filter(|(_, &mark)| mark).map(|(c, _)| c.clone()).collect();
        some.push(Clause::from([-g.literal]));
        some
    };
    let mut values = vec![false; vars];
    let mut marks = vec![false; clauses.len()];
    let answer = 'answer: {
        match call(&clauses) {
            End::None => break 'answer 20,
            End::Stopped => break 'answer 21,
            End::Model(_) => {}
        }
        let mut left = vec![true; clauses.len()];
        match call(&marked(&left)) {
            End::Model(model) => {
                values = model;
                break 'answer 22;
            }
            End::Stopped => break 'answer 21,
            End::None => {}
        }
        for i in (0..clauses.len()).rev() {
            left[i] = false;
            match call(&marked(&left)) {
                End::Model(_) => left[i] = true,
                End::Stopped => break 'answer 21,
                End::None => {}
            }
        }
        marks = left;
        0
    };
    marks.resize(MAX_CLAUSES, false);
    let bytes = |bits: Vec<bool>| bits.into_iter().map(u8::from).collect();
    Ok(Why { answer, calls, tries: meter.spent, marks: bytes(marks), values: bytes(values) })
}

/// Whether clauses alone force a literal, by all assignments.
pub fn forces(vars: usize, clauses: &[Clause], literal: i32) -> bool {
    let v = literal.unsigned_abs() as usize - 1;
    let models = (0..1u32 << vars).map(|bits| (0..vars).map(|i| bits >> i & 1 == 1).collect::<Vec<bool>>());
    !models.into_iter().any(|model| model[v] != (literal > 0) && holds(clauses, &model))
}

/// What is wrong with a set of clauses that is said to force a literal with none to spare, by a test for "these force it"; nothing if it
/// is such a set.
pub fn fault_of_kept(kept: &[Clause], mut forced_by: impl FnMut(&[Clause]) -> bool) -> Option<String> {
    if !forced_by(kept) {
        return Some("the clauses do not force it".to_string());
    }
    (0..kept.len()).find_map(|i| {
        let fewer = [&kept[..i], &kept[i + 1..]].concat();
        forced_by(&fewer).then(|| format!("clause {} of those kept can go", i + 1))
    })
}
