//! Cases: those at the edges of the rules, always the same, and cases at random.

use crate::case::{Call, Lengths, MAX_GROUPS_TABLE, MAX_LINES, MAX_TABLE};
use crate::groups::MAX_GROUPS;
use crate::rules::{self, Given, MAX_CLAUSES, MAX_ENTRIES, MAX_HELD, MAX_TEXT, MAX_VARS};
use crate::texts::{random_held, random_text, some_literals, text_of, with_comments, with_percent, Random};
use crate::shorter::{self, ShorterGiven};
use crate::why::{self, WhyGiven};
use crate::witness::{self, WitnessGiven};

const LIMITS: [u32; 5] = [1, 2, 3, 16, 256];

fn log_of(vars: u32) -> usize {
    6 * (vars as usize + 1)
}

/// A run with exact buffers.
fn exact(entries: Vec<i32>, vars: u32, held: Vec<i32>, budget: u32, chunk_limit: u32) -> Call {
    let n = vars as usize;
    let lengths = Lengths { status: n, calls: n, ways: n, hints: n, log: log_of(vars) };
    Call::Run { entries, vars, held, budget, chunk_limit, lengths }
}

/// A witness with exact buffers.
fn exact_witness(entries: Vec<i32>, vars: u32, held: Vec<i32>, budget: u32, chunk_limit: u32, variable: u32) -> Call {
    let (first_len, witness_len) = (vars as usize, vars as usize);
    Call::Witness { entries, vars, held, budget, chunk_limit, variable, first_len, witness_len }
}

// ---- the edges

/// One text in buffers of every interesting length, read, as a table and as the lines of a witness.
fn in_all_rooms(text: &[u8], calls: &mut Vec<Call>) {
    for (entries, table) in [(0, 0), (1, 1), (4_095, 9_215), (4_096, 9_216), (4_097, 9_217), (5_000, 10_000)] {
        calls.push(Call::Read { text: text.to_vec(), room: entries });
        calls.push(Call::Table { text: text.to_vec(), held: Vec::new(), room: table });
        calls.push(Call::Lines { text: text.to_vec(), variable: 1, room: entries });
    }
}

fn edge_texts() -> Vec<Vec<u8>> {
    let ones = |n: usize| text_of(1, &[vec![1; n]]).into_bytes();
    let mut texts: Vec<Vec<u8>> = Vec::new();
    for text in [
        "", "\n", "c", "c\n", "p", "p cnf", "p cnf 1", "p cnf 1 1", "p cnf 0 0", "p cnf 0 1\n0", "x", " p cnf 1 0", "p cnf 1 0 0",
        "p cnf 1 -1", "pcnf 1 1", "p cnf 256 0", "p cnf 257 0", "p cnf 0 1025", "p cnf 999999999 999999999", "p cnf 1000000000 0",
        "p cnf 0000000001 0", "p cnf 000000001 0", "p cnf 1 1\n-", "p cnf 1 1\n--1 0", "p cnf 1 1\n-0", "p cnf 1 1\n1 -00 0",
        "p cnf 1 1\n000000001 0", "p cnf 1 1\n0000000001 0", "p cnf 1 1\n+1 0", "p cnf 1 1\n1 0 0", "p cnf 1 1\n1 0 %",
        "p cnf 1 1\n999999999 0", "p cnf 1 1\n1 0\nc", "c p cnf 1 1\np cnf 1 2\r\n1 0\t0 ", "p cnf 1 1\r1 0",
        "p\tcnf\t1\t1\t\r\n1 0", "p cnf 2 1\n1 2 2 -1 0",
        "p cnf 2 1\nc\n1\nc1 2 0\n2 0", "p cnf 2 1\n1 2\n c\n0", "p cnf 2 1\n1 2 0 c", "p cnf 1 1\nc 1 0\n", "p cnf 1 1\n1 0\n\nc x",
        "p cnf 1 1\n1 0\n%\n0\n\n", "p cnf 1 1\n1 0 % x", "p cnf 1 1\n%\n1 0", "p cnf 1 1\n1 %\n0", "p cnf 1 0\n%\n\0", "p cnf 1 1\n1 0\n%%",
        "p cnf 1 1\n1 0\n%0", "p cnf 1 1\n1 0\n0\n%", "%\np cnf 1 0", "p cnf 1 0 %", "p cnf 1 0\nc\n%\n1",
    ] {
        texts.push(text.as_bytes().to_vec());
    }
    for (vars, clauses) in [(MAX_VARS, MAX_CLAUSES), (MAX_VARS + 1, 1), (1, MAX_CLAUSES + 1)] {
        let units: Vec<Vec<i32>> = (0..clauses).map(|i| vec![(i % MAX_VARS) as i32 + 1]).collect();
        texts.push(text_of(vars as i32, &units).into_bytes());
    }
    // 4,096 and 4,097 entries, and one behind the last clause
    texts.extend([ones(MAX_ENTRIES - 1), ones(MAX_ENTRIES), ones(MAX_ENTRIES + 1)]);
    texts.push([ones(MAX_ENTRIES - 1), b"1".to_vec()].concat());
    for len in [MAX_TEXT - 1, MAX_TEXT, MAX_TEXT + 1, 2 * MAX_TEXT] {
        for mut text in [b"p cnf 1 1\n1 0".to_vec(), b"p cnf 1 1\n1 0\n%\nx".to_vec(), b"p cnf 1 0\nc".to_vec(), b"c ".to_vec(), Vec::new()] {
            text.resize(len, b' ');
            texts.push(text);
        }
        texts.push(vec![b'0'; len]);
    }
    texts
}

/// The rules' small formulas and lists at the sizes, with budgets and limits at theirs.
fn edge_lists() -> Vec<(Vec<i32>, u32)> {
    let zeros = |n: usize| vec![0; n];
    let ones = |n: usize| [vec![1; n - 1], vec![0]].concat();
    let forced: Vec<i32> = (1..=MAX_VARS as i32).flat_map(|v| [if v % 3 == 0 { -v } else { v }, 0]).collect();
    let mut lists = vec![
        (vec![], 0), (vec![0], 0), (vec![], 1), (vec![1, 0], 1), (vec![1, 1, 0], 1), (vec![1, -1, 0], 1), (vec![1, 0, -1, 0], 1),
        (vec![1, 2, 0, -1, -2, 0], 2), (vec![1, 2, 0, 1, -2, 0], 2), (vec![1, 0, 2, 0, 3, 0], 3), (vec![1, 2, 3, 0], 3),
        (vec![1], 1), (vec![1, 0, 1], 1), (vec![2, 0], 1), (vec![-2, 0], 1), (vec![1, 0, 2], 1), (vec![i32::MIN, 0], 256),
        (vec![i32::MAX, 0], 256), (vec![-i32::MAX, 0], 256), (vec![1, i32::MIN, 0], 1), (vec![257, 0], 256), (vec![1, 0], 0),
        (zeros(MAX_CLAUSES), 1), (zeros(MAX_CLAUSES + 1), 1), (zeros(MAX_ENTRIES), 1), (zeros(MAX_ENTRIES + 1), 1),
        (ones(MAX_ENTRIES), 1), (ones(MAX_ENTRIES + 1), 1), (vec![1; MAX_ENTRIES], 1), (vec![1; MAX_ENTRIES + 1], 0), (forced, 256),
        (vec![], 256),
    ];
    for vars in [257, 1_000, u32::MAX - 1, u32::MAX] {
        lists.push((vec![1, 0], vars));
    }
    lists
}

/// Lists with literals held: none, some, as many as can be held and one more, both signs, a literal twice, and words that are no literals;
/// as many clauses or entries as a list may have with as many held behind them; and lists that are refused first.
fn edge_held() -> Vec<(Vec<i32>, u32, Vec<i32>)> {
    let either = || vec![1, 2, 0];
    let ones = |n: usize| vec![1; n];
    let behind = |n: usize, l: i32| [ones(n), vec![l]].concat();
    let all: Vec<i32> = (1..=MAX_VARS as i32).map(|v| if v % 3 == 0 { -v } else { v }).collect();
    let others: Vec<i32> = all.iter().map(|l| -l).collect();
    let clauses: Vec<i32> = (0..MAX_CLAUSES as i32).flat_map(|i| [i % 256 + 1, -((i + 1) % 256 + 1), (i + 7) % 256 + 1, 0]).collect();
    let zeros = |n: usize| vec![0; n];
    let mut cases = vec![
        (vec![], 0, vec![]), (vec![], 0, vec![0]), (vec![], 0, vec![1]), (vec![0], 0, vec![]), (vec![], 1, vec![-1]), (vec![1, 0], 1, vec![1]),
        (vec![1, 0], 1, vec![-1]), (vec![], 256, all.clone()), (vec![], 256, others.clone()), (clauses.clone(), 256, all.clone()),
        (clauses.clone(), 256, others), (clauses.clone(), 256, vec![256; MAX_HELD]), (clauses, 256, all[..255].to_vec()),
        ([ones(MAX_ENTRIES - 1), vec![0]].concat(), 1, ones(MAX_HELD)), ([ones(MAX_ENTRIES - 1), vec![0]].concat(), 2, behind(255, 2)),
        (zeros(MAX_CLAUSES), 1, ones(MAX_HELD)), (zeros(MAX_CLAUSES + 1), 1, ones(MAX_HELD)), (zeros(MAX_CLAUSES + 1), 1, vec![0]),
        (vec![1], 1, vec![0]), (vec![1], 1, ones(MAX_HELD + 1)), (vec![3, 0], 2, vec![0]), (vec![3, 0], 2, ones(MAX_HELD + 1)),
        (ones(MAX_ENTRIES + 1), 1, vec![2]), (vec![1, 0], 257, vec![0]), (vec![1, 0], u32::MAX, ones(MAX_HELD + 1)),
    ];
    for held in [
        vec![], vec![1], vec![-1], vec![1, 1], vec![1, -1], vec![-1, 2, 1], vec![-1, -2], vec![0], vec![3], vec![-3], vec![i32::MIN],
        vec![i32::MAX], vec![2, 0, 3], vec![2, 3, 0], ones(MAX_HELD), behind(MAX_HELD - 1, -1), behind(MAX_HELD - 1, 0),
        behind(MAX_HELD - 1, i32::MIN), ones(MAX_HELD + 1), behind(MAX_HELD, 0), zeros(MAX_HELD), zeros(MAX_HELD + 1), ones(1_000),
    ] {
        cases.push((either(), 2, held));
    }
    cases
}

/// A run, a setup, a closing, a witness and a table with these literals held.
fn in_all_calls(entries: &[i32], vars: u32, held: &[i32], calls: &mut Vec<Call>) {
    let (vs, log) = (vars.min(300) as usize, log_of(vars.min(300)));
    for (len, log_len) in [(vs, log), (vs + 3, log + 7), (vs.max(1) - 1, log), (0, 0)] {
        calls.push(Call::Close { entries: entries.to_vec(), vars, held: held.to_vec(), values_len: len });
        for (budget, chunk_limit) in [(100, 2), (0, 1), (u32::MAX, 256), (100, 0)] {
            let (entries, held) = (entries.to_vec(), held.to_vec());
            let setup = Call::Setup { entries: entries.clone(), vars, held: held.clone(), budget, values_len: len };
            let (first_len, witness_len) = (len, len);
            let lengths = Lengths { status: len, calls: len, ways: len, hints: len, log: log_len };
            calls.push(Call::Run { entries: entries.clone(), vars, held: held.clone(), budget, chunk_limit, lengths });
            calls.push(setup);
            calls.push(Call::Witness { entries, vars, held, budget, chunk_limit, variable: 2, first_len, witness_len });
        }
    }
    let clauses: Vec<Vec<i32>> = rules::clauses_of(entries).into_iter().map(|c| c.into_iter().collect()).collect();
    let text = text_of(vars.min(300) as i32, &clauses).into_bytes();
    calls.push(Call::Table { text, held: held.to_vec(), room: MAX_TABLE });
}

/// A question with exact buffers.
fn exact_why(entries: Vec<i32>, vars: u32, literal: i32, budget: u32) -> Call {
    Call::Why { entries, vars, literal, budget, marks_len: MAX_CLAUSES, values_len: vars as usize }
}

/// Why, for a list in buffers of every interesting length, with literals at the edges.
fn edge_whys(list: &[i32], vars: u32, calls: &mut Vec<Call>) {
    let vs = vars.min(300) as usize;
    let above = vars.min(300) as i32 + 1;
    let lengths = [(1_024, vs), (1_030, vs + 5), (1_023, vs), (1_024, vs.max(1) - 1), (0, 0)];
    for (marks_len, values_len) in lengths {
        for literal in [1, -1, 0, above, -above, vars.min(300) as i32, i32::MIN, i32::MAX] {
            for budget in [100, 0] {
                calls.push(Call::Why { entries: list.to_vec(), vars, literal, budget, marks_len, values_len });
            }
        }
    }
}

/// A witness, for a list in buffers of every interesting length, with variables and limits at the edges.
fn edge_witnesses(list: &[i32], vars: u32, calls: &mut Vec<Call>) {
    let vs = vars.min(300) as usize;
    for (first_len, witness_len) in [(vs, vs), (vs + 3, vs + 5), (vs.max(1) - 1, vs), (vs, vs.max(1) - 1), (0, 0)] {
        for variable in [0, 1, 2, vars.min(300), vars.min(300) + 1, u32::MAX] {
            for (budget, chunk_limit) in [(100, 2), (0, 1), (2, 2), (100, 0), (100, 257)] {
                let (entries, held) = (list.to_vec(), Vec::new());
                calls.push(Call::Witness { entries, vars, held, budget, chunk_limit, variable, first_len, witness_len });
            }
        }
    }
}

/// Chains of implications, in file order and backwards, with their first literal a clause, held, or neither: from two rounds to as many as
/// there may be.
fn chains(calls: &mut Vec<Call>) {
    for vars in [1, 2, 3, 17, 255, 256] {
        let links: Vec<[i32; 3]> = (1..vars as i32).map(|v| [-v, v + 1, 0]).collect();
        let backwards: Vec<[i32; 3]> = links.iter().rev().copied().collect();
        let clash = [-1, -(vars as i32), 0];
        for links in [links.concat(), backwards.concat()] {
            for entries in [links.clone(), [&[1, 0], &links[..]].concat(), [&links[..], &[1, 0]].concat(), [&links[..], &clash].concat()] {
                for held in [vec![], vec![1], vec![-(vars as i32)], vec![1, -(vars as i32)]] {
                    calls.push(Call::Close { entries: entries.clone(), vars, held, values_len: vars as usize });
                }
            }
        }
    }
}

/// A closing of few or many variables, with enough clauses of one literal, or literals held, to set something.
fn random_closing(r: &mut Random) -> Call {
    let most = one_of(r, &[6, 10, 60, 256]);
    let vars = r.below(most + 1) as u32;
    let clauses = r.below(3 * u64::from(vars) + 3).min(MAX_CLAUSES as u64);
    let mut entries = random_list(r, vars, clauses);
    if entries.len() > MAX_ENTRIES {
        entries.truncate(MAX_ENTRIES);
        entries[MAX_ENTRIES - 1] = 0;
    }
    let count = r.below(2) * r.below(6);
    let held = some_literals(r, vars, count);
    let mut values_len = vars as usize;
    stretch(r, &mut values_len);
    Call::Close { entries, vars, held, values_len }
}

/// The shorter file, for a list in texts of every interesting length, with limits at the edges.
fn edge_shorters(list: &[i32], vars: u32, calls: &mut Vec<Call>) {
    for room in [MAX_TEXT, MAX_TEXT + 5, MAX_TEXT - 1, 0] {
        for (budget, chunk_limit) in [(100, 2), (0, 1), (2, 16), (u32::MAX, 256), (100, 0), (100, 257)] {
            calls.push(Call::Shorter { entries: list.to_vec(), vars, budget, chunk_limit, room });
        }
    }
}

pub fn edges() -> Vec<Call> {
    let mut calls = Vec::new();
    chains(&mut calls);
    for text in edge_texts() {
        in_all_rooms(&text, &mut calls);
    }
    for (entries, vars, held) in edge_held() {
        in_all_calls(&entries, vars, &held, &mut calls);
    }
    for (list, vars) in edge_lists() {
        edge_whys(&list, vars, &mut calls);
        edge_witnesses(&list, vars, &mut calls);
        edge_shorters(&list, vars, &mut calls);
        // the longest buffers that a run could ask for, and a little more, where the variables are too many
        let (vs, log) = (vars.min(300) as usize, log_of(vars.min(300)));
        let less = vs.max(1) - 1;
        let right = Lengths { status: vs, calls: vs, ways: vs, hints: vs, log };
        let all = [
            right,
            Lengths { status: vs + 3, calls: vs + 2, ways: vs + 4, hints: vs + 5, log: log + 7 },
            Lengths { status: less, ..right },
            Lengths { calls: less, ..right },
            Lengths { ways: less, ..right },
            Lengths { hints: less, ..right },
            Lengths { log: log - 1, ..right },
            Lengths { status: 0, calls: 0, ways: 0, hints: 0, log: 0 },
        ];
        for lengths in all {
            for (budget, chunk_limit) in [(100, 2), (0, 1), (u32::MAX, 256), (100, 0), (100, 257), (100, u32::MAX)] {
                calls.push(Call::Run { entries: list.clone(), vars, held: Vec::new(), budget, chunk_limit, lengths });
            }
        }
    }
    edge_groups(&mut calls);
    calls
}

// ---- at random

fn one_of<T: Copy>(r: &mut Random, list: &[T]) -> T {
    list[r.below(list.len() as u64) as usize]
}

/// A list at random: clauses of 1 to 5 literals or, for more tries, of at least 2 or 3, and a few empty ones. Where a model is planted,
/// each clause has a literal that is true in it, so that there is a valid setup.
fn random_list(r: &mut Random, vars: u32, clauses: u64) -> Vec<i32> {
    let least = 1 + r.below(3);
    let more = 1 + r.below(3);
    let planted: Option<Vec<bool>> = (r.below(2) == 0).then(|| (0..vars).map(|_| r.below(2) == 0).collect());
    let mut list: Vec<i32> = Vec::new();
    for _ in 0..clauses {
        let start = list.len();
        let literals = if vars == 0 || r.below(200) == 0 { 0 } else { least + r.below(more) };
        for _ in 0..literals {
            let v = 1 + r.below(vars.into()) as i32;
            list.push(match r.below(16) {
                0 if list.len() > start => list[start],
                1 if list.len() > start => -list[start],
                x if x % 2 == 0 => v,
                _ => -v,
            });
        }
        if let (Some(model), Some(first)) = (&planted, list.get_mut(start)) {
            let v = first.abs();
            *first = if model[v as usize - 1] { v } else { -v };
        }
        if planted.is_none() || list.len() > start {
            list.push(0);
        }
    }
    list
}

/// None, or a few literals to hold.
fn few_held(r: &mut Random, vars: u32) -> Vec<i32> {
    let count = r.below(2) * r.below(5);
    some_literals(r, vars, count)
}

/// A small formula with every budget from none to more than enough, for every chunk limit of the list, and its valid setup.
fn every_budget(r: &mut Random, calls: &mut Vec<Call>) {
    let vars = r.below(11) as u32;
    let clauses = r.below(4 * u64::from(vars) + 3);
    let entries = random_list(r, vars, clauses);
    let held = few_held(r, vars);
    let needed = rules::setup(&entries, vars, &held, u32::MAX, vars as usize).expect("the list keeps the rules").tries as u32;
    for budget in (0..=needed + 1).chain([u32::MAX]) {
        let mut values_len = vars as usize;
        stretch(r, &mut values_len);
        calls.push(Call::Setup { entries: entries.clone(), vars, held: held.clone(), budget, values_len });
    }
    for chunk_limit in LIMITS {
        let n = vars as usize;
        let (status_len, calls_len, ways_len, hints_len, log_len) = (n, n, n, n, log_of(vars));
        let given = Given { entries: &entries, vars, held: &held, budget: u32::MAX, chunk_limit, status_len, calls_len, ways_len, hints_len, log_len };
        let needed = rules::run(&given).expect("the list keeps the rules").tries as u32;
        for budget in (0..=needed + 1).chain([u32::MAX]) {
            let mut call = exact(entries.clone(), vars, held.clone(), budget, chunk_limit);
            if let Call::Run { lengths: Lengths { status, calls, ways, hints, log }, .. } = &mut call {
                for len in [status, calls, ways, hints, log] {
                    stretch(r, len);
                }
            }
            calls.push(call);
        }
    }
}

/// A small formula, all of its variables, and budgets from none to more than enough.
fn every_variable(r: &mut Random, calls: &mut Vec<Call>) {
    let vars = 1 + r.below(9) as u32;
    let clauses = r.below(4 * u64::from(vars) + 3);
    let entries = random_list(r, vars, clauses);
    let held = few_held(r, vars);
    let chunk_limit = one_of(r, &LIMITS);
    for variable in 0..=vars + 1 {
        let n = vars as usize;
        let budget = u32::MAX;
        let given = WitnessGiven { entries: &entries, vars, held: &held, budget, chunk_limit, variable, first_len: n, witness_len: n };
        let needed = witness::witness(&given).map_or(0, |(run, ..)| run.tries as u32);
        for budget in (0..=needed + 1).step_by(1 + needed as usize / 8).chain([needed, u32::MAX]) {
            let mut call = exact_witness(entries.clone(), vars, held.clone(), budget, chunk_limit, variable);
            if let Call::Witness { first_len, witness_len, .. } = &mut call {
                stretch(r, first_len);
                stretch(r, witness_len);
            }
            calls.push(call);
        }
    }
}

/// A larger witness, under a small budget.
fn large_witness(r: &mut Random) -> Call {
    let vars = 12 + r.below(120) as u32;
    let clauses = 1 + r.below(4 * u64::from(vars));
    let entries = random_list(r, vars, clauses.min(MAX_CLAUSES as u64));
    let variable = 1 + r.below(vars.into()) as u32;
    let held = few_held(r, vars);
    exact_witness(entries, vars, held, r.below(2_000) as u32, one_of(r, &LIMITS), variable)
}

/// A small formula's shorter file, with budgets from none to more than enough.
fn every_shorter(r: &mut Random, calls: &mut Vec<Call>) {
    let vars = r.below(11) as u32;
    let clauses = r.below(4 * u64::from(vars) + 3);
    let entries = random_list(r, vars, clauses);
    let chunk_limit = one_of(r, &LIMITS);
    let given = ShorterGiven { entries: &entries, vars, budget: u32::MAX, chunk_limit, room: MAX_TEXT };
    let needed = shorter::shorter(&given).expect("the list keeps the rules").0.tries as u32;
    for budget in (0..=needed + 1).step_by(1 + needed as usize / 4).chain([needed, u32::MAX]) {
        let mut room = MAX_TEXT;
        stretch(r, &mut room);
        calls.push(Call::Shorter { entries: entries.clone(), vars, budget, chunk_limit, room });
    }
}

/// A small formula, all of its literals and every budget from none to more than enough.
fn every_literal(r: &mut Random, calls: &mut Vec<Call>) {
    let vars = 1 + r.below(8) as u32;
    let clauses = r.below(4 * u64::from(vars) + 3);
    let entries = random_list(r, vars, clauses);
    for literal in (1..=vars as i32).flat_map(|v| [v, -v]) {
        let (marks_len, values_len) = (MAX_CLAUSES, vars as usize);
        let given = WhyGiven { entries: &entries, vars, literal, budget: u32::MAX, marks_len, values_len };
        let needed = why::why(&given).expect("the list keeps the rules").tries as u32;
        for budget in (0..=needed + 1).step_by(1 + needed as usize / 8).chain([needed, u32::MAX]) {
            let mut call = exact_why(entries.clone(), vars, literal, budget);
            if let Call::Why { marks_len, values_len, .. } = &mut call {
                stretch(r, marks_len);
                stretch(r, values_len);
            }
            calls.push(call);
        }
    }
}

/// A larger question, under a small budget.
fn large_why(r: &mut Random) -> Call {
    let vars = 12 + r.below(60) as u32;
    let clauses = 1 + r.below(4 * u64::from(vars));
    let entries = random_list(r, vars, clauses);
    let literal = (1 + r.below(vars.into()) as i32) * if r.below(2) == 0 { 1 } else { -1 };
    exact_why(entries, vars, literal, r.below(2_000) as u32)
}

/// A question with one or two things changed so that it may be refused.
fn refused_why(r: &mut Random) -> Call {
    let vars = if r.below(4) == 0 { r.below(257) as u32 } else { r.below(6) as u32 };
    let clauses = r.below(8);
    let list = random_list(r, vars, clauses);
    let mut call = exact_why(list, vars, 1 + r.below(3) as i32, r.below(50) as u32);
    for _ in 0..=r.below(2) {
        let Call::Why { entries, vars, literal, marks_len, values_len, .. } = &mut call else { unreachable!("it is a why") };
        match r.below(8) {
            0 => *vars = one_of(r, &[257, 258, 1 << 16, 1 << 31, u32::MAX]),
            1 => *marks_len = r.below(*marks_len as u64 + 1) as usize,
            2 => *values_len = r.below(*values_len as u64 + 1) as usize,
            3 => {
                entries.pop();
            }
            4 => entries.push(1 + r.below(3) as i32),
            5 => {
                let above = (*vars).min(300) as i32 + 1;
                let at = r.below(entries.len() as u64 + 1) as usize;
                entries.insert(at, one_of(r, &[above, -above, i32::MIN, i32::MAX]));
            }
            _ => *literal = one_of(r, &[0, (*vars).min(300) as i32 + 1, -1 - (*vars).min(300) as i32, i32::MIN, i32::MAX]),
        }
    }
    call
}

/// Now and then a length that is longer, or short by one.
fn stretch(r: &mut Random, len: &mut usize) {
    *len = match r.below(16) {
        0 => len.saturating_sub(1),
        x if x < 6 => *len + r.below(20) as usize,
        _ => *len,
    };
}

/// A formula of up to 256 variables, 1,024 clauses and 4,096 entries, most often with about as many clauses as make it hard.
fn large(r: &mut Random) -> Call {
    let most = one_of(r, &[40, 245]);
    let vars = 12 + r.below(most) as u32;
    let clauses = 1 + if r.below(4) == 0 { r.below(MAX_CLAUSES as u64) } else { r.below(5 * u64::from(vars)).min(MAX_CLAUSES as u64 - 1) };
    let mut entries = random_list(r, vars, clauses);
    if entries.len() > MAX_ENTRIES {
        entries.truncate(MAX_ENTRIES);
        entries[MAX_ENTRIES - 1] = 0;
    }
    let most = one_of(r, &[100, 1_000, 5_000]);
    let held = few_held(r, vars);
    exact(entries, vars, held, r.below(most) as u32, one_of(r, &LIMITS))
}

/// A run, a setup, a closing or a shorter file with one to three things changed so that it may be refused.
fn refused(r: &mut Random) -> Call {
    let vars = if r.below(4) == 0 { r.below(257) as u32 } else { r.below(6) as u32 };
    let clauses = r.below(8);
    let list = random_list(r, vars, clauses);
    let held = few_held(r, vars);
    let mut call = exact(list, vars, held, r.below(50) as u32, one_of(r, &LIMITS));
    for _ in 0..=r.below(3) {
        let Call::Run { entries, vars, held, chunk_limit, lengths, .. } = &mut call else { unreachable!("it is a run") };
        match r.below(24) {
            22 | 23 => {
                let above = (*vars).min(300) as i32 + 1;
                let bad = one_of(r, &[0, above, -above, i32::MIN, i32::MAX]);
                held.insert(r.below(held.len() as u64 + 1) as usize, bad);
            }
            21 => held.resize(MAX_HELD - 1 + r.below(4) as usize, 1),
            19 | 20 => *held = random_held(r, (*vars).min(300)),
            16 => lengths.hints = r.below(lengths.hints as u64 + 1) as usize,
            17 => lengths.calls = r.below(lengths.calls as u64 + 1) as usize,
            18 => lengths.ways = r.below(lengths.ways as u64 + 1) as usize,
            0 => *vars = one_of(r, &[257, 258, 1 << 16, 1 << 31, u32::MAX]),
            1 => *chunk_limit = one_of(r, &[0, 257, 1 << 16, u32::MAX]),
            2 => lengths.status = r.below(lengths.status as u64 + 1) as usize,
            3 => lengths.log = r.below(lengths.log as u64 + 1) as usize,
            4 => {
                entries.pop();
            }
            5 => entries.push(1 + r.below(3) as i32),
            6 => {
                let long = MAX_ENTRIES + r.below(3) as usize - 1;
                let fill = r.below(2) as i32;
                entries.resize(entries.len().max(long), fill);
            }
            7 => {
                let at = r.below(entries.len() as u64 + 1) as usize;
                let zeros = MAX_CLAUSES - 8 + r.below(12) as usize;
                entries.splice(at..at, std::iter::repeat(0).take(zeros));
            }
            _ => {
                let above = (*vars).min(300) as i32 + 1;
                let x = one_of(r, &[above, -above, i32::MIN, i32::MIN + 1, i32::MAX, 257, -257, 1 << 16]);
                let at = r.below(entries.len() as u64 + 1) as usize;
                entries.insert(at, x);
            }
        }
    }
    let Call::Run { entries, vars, held, budget, chunk_limit, lengths } = &call else { unreachable!("it is a run") };
    let (entries, held, values_len) = (entries.clone(), held.clone(), lengths.status);
    match r.below(8) {
        0 | 1 => Call::Setup { entries, vars: *vars, held, budget: *budget, values_len },
        2 => Call::Close { entries, vars: *vars, held, values_len },
        3 => Call::Shorter { entries, vars: *vars, budget: *budget, chunk_limit: *chunk_limit, room: MAX_TEXT - (r.below(8) / 7) as usize },
        _ => call,
    }
}

/// A list written as a text in some of the ways that the rules allow; now and then with a header that is one off.
fn dressed(r: &mut Random) -> Vec<u8> {
    let mut vars = r.below(12) as u32;
    let clauses = r.below(3 * u64::from(vars) + 3);
    let list = random_list(r, vars, clauses);
    let mut count = list.iter().filter(|&&e| e == 0).count();
    match r.below(12) {
        0 => count += 1,
        1 => count = count.saturating_sub(1),
        2 => vars = vars.saturating_sub(1),
        _ => {}
    }
    let mut text = String::new();
    for _ in 0..r.below(3) {
        text.push_str(one_of(r, &["\n", " \t\r\n", "c\n", "c p cnf 9 9\n", "comment\r\n"]));
    }
    let gap = |r: &mut Random| one_of(r, &[" ", "\t", "  ", " \t "]);
    text.push_str(&format!("p{}cnf{}{vars:0>w$}{}{count}", gap(r), gap(r), gap(r), w = 1 + r.below(9) as usize));
    text.push_str(one_of(r, &["\n", " \n", "\t\r\n", "\r\n"]));
    for e in list {
        let sign = if e < 0 { "-" } else { "" };
        text.push_str(&format!("{sign}{:0>w$}", e.abs(), w = if r.below(8) == 0 { 1 + r.below(9) as usize } else { 1 }));
        text.push_str(one_of(r, &[" ", "\n", "\t", "\r\n", "  "]));
    }
    text.into_bytes()
}

const BYTES: &[u8] = b"0123456789-- \t\r\npcnfx%\0\xff\x0b";

/// Changes, inserts, cuts, removes, doubles or reverses bytes.
fn damaged(r: &mut Random, text: &mut Vec<u8>) {
    if text.is_empty() {
        return;
    }
    let at = r.below(text.len() as u64) as usize;
    let to = at + r.below((text.len() - at) as u64 + 1).min(12) as usize;
    let byte = one_of(r, BYTES);
    match r.below(6) {
        0 => text[at] = byte,
        1 => text.insert(at, byte),
        2 => text.truncate(at),
        3 => {
            text.drain(at..to);
        }
        4 => {
            let part = text[at..to].to_vec();
            text.splice(at..at, part);
        }
        _ => text[at..to].reverse(),
    }
}

/// A text whose list has about as many entries and clauses as are allowed.
fn long_text(r: &mut Random) -> Vec<u8> {
    let entries = MAX_ENTRIES - 3 + r.below(6) as usize;
    let clauses = MAX_CLAUSES - 2 + r.below(3) as usize;
    let sizes = (0..clauses).map(|i| (entries + i) / clauses);
    let text: Vec<Vec<i32>> = sizes.map(|n| (1..n).map(|_| 1 + r.below(100) as i32).collect()).collect();
    text_of(100, &text).into_bytes()
}

fn random_bytes(r: &mut Random) -> Vec<u8> {
    let any = r.below(2) == 0;
    (0..r.below(60)).map(|_| if any { r.below(256) as u8 } else { one_of(r, BYTES) }).collect()
}

/// A text at random, read, as a table and as the lines of a witness.
fn some_text(r: &mut Random, calls: &mut Vec<Call>) {
    let mut text = match r.below(32) {
        0 => long_text(r),
        1 => random_bytes(r),
        2..=4 => [b"p cnf 3 2\n".to_vec(), random_bytes(r)].concat(),
        5..=12 => random_text(r),
        _ => dressed(r),
    };
    if r.below(3) == 0 {
        with_comments(r, &mut text);
    }
    if r.below(3) == 0 {
        with_percent(r, &mut text);
    }
    if r.below(2) == 0 {
        for _ in 0..=r.below(3) {
            damaged(r, &mut text);
        }
    }
    let (mut room, mut table) = (MAX_ENTRIES, MAX_TABLE);
    stretch(r, &mut room);
    stretch(r, &mut table);
    let vars = rules::read(&text).map_or(3, |f| f.vars as u32);
    let held = if r.below(2) == 0 { Vec::new() } else { random_held(r, vars) };
    calls.push(Call::Read { text: text.clone(), room });
    calls.push(Call::Table { text: text.clone(), held, room: table });
    let mut lines = MAX_LINES;
    stretch(r, &mut lines);
    calls.push(Call::Lines { text, variable: r.below(8) as u32, room: lines });
}

// ---- groups

/// A file of groups in buffers of every interesting length.
fn groups_in_all_rooms(text: &[u8], calls: &mut Vec<Call>) {
    for (room, sizes_len) in [(4_096, 128), (4_100, 131), (4_095, 128), (4_096, 127), (0, 0)] {
        calls.push(Call::Groups { text: text.to_vec(), room, sizes_len });
    }
    for room in [4_096, 4_095, 5_000, 0] {
        calls.push(Call::GroupsTable { text: text.to_vec(), room });
    }
}

/// Each refusal at its edges: 128 and 129 groups, sizes 1, 2, 16 and 17, 256 and 257 variables, 1,024 and 1,025 clauses, and expanded lists that
/// just fit and that do not.
fn edge_groups(calls: &mut Vec<Call>) {
    let times = |n: usize, word: &str| word.repeat(n);
    let mut texts: Vec<String> = [
        "", " \n", "0", "0 0", "0 1 0", "0 1 1 0", "1 2 0", "1 2 0 0", "1 1 0", "1 2 1 1 0", "1 16 0", "1 17 0", "-1", "-0", "1 -2 0", "129", "128", "c 0 0",
        "0 0 %", "0 0\nc", "1 2 x", "1 2 1025", "1 2 1024", "1 2 -1", "1 2 1 1 -2", "1 2 1 1 -2 0", "1 2 1 3 0", "1 2 1 -3 0", "1 2 1 0 9", "1 2 1 0 x",
        "2 2 2 2 -1 0 -2 0", "2\t3\r\n2 2 -1 0 5 0\n", "3 2 2 2 3 1 3 0 -1 -3 0 5 0", "0000000001 2 0", "000000001 2 0", "1 000000002 0", "1 2 1 1000000000 0",
    ]
    .map(str::to_string)
    .to_vec();
    texts.push(format!("128{} 0", times(128, " 2")));
    texts.push(format!("129{} 0", times(129, " 2")));
    texts.push(format!("17{} 2 0", times(16, " 16")));
    texts.push(format!("17{} 1 0", times(16, " 16")));
    texts.push(format!("16{} 0", times(16, " 16")));
    for (clauses, zeros) in [(56, 56), (57, 57), (57, 56), (56, 57), (1_024, 1_024)] {
        texts.push(format!("8{} {clauses} {}", times(8, " 16"), times(zeros, "0 ")));
    }
    // 3,016 entries of groups: 1,080 more fit in 1 clause, and 1,081 do not
    for ones in [1_079, 1_080, 1_081] {
        texts.push(format!("8{} 1 {}0", times(8, " 16"), times(ones, "1 ")));
    }
    // more than 4,096 entries, and a refusal behind them
    texts.push(format!("9{} 1 {}x", times(9, " 16"), times(2_000, "1 ")));
    texts.push(format!("9{} 1 {}", times(9, " 16"), times(2_000, "1 ")));
    texts.push(format!("9{} 1 {}257 0", times(9, " 16"), times(2_000, "1 ")));
    texts.push(format!("9{} 1 0 1", times(9, " 16")));
    texts.push(format!("9{} 0", times(9, " 16")));
    for text in texts {
        groups_in_all_rooms(text.as_bytes(), calls);
    }
    for len in [MAX_TEXT, MAX_TEXT + 1] {
        let mut text = b"1 2 1 -1 0".to_vec();
        text.resize(len, b' ');
        groups_in_all_rooms(&text, calls);
    }
}

/// A file of groups at random, now and then damaged.
fn some_groups(r: &mut Random, calls: &mut Vec<Call>) {
    let count = r.below(5);
    let sizes: Vec<u64> = (0..count).map(|_| if r.below(8) == 0 { 2 + r.below(15) } else { 2 + r.below(3) }).collect();
    let vars: u64 = sizes.iter().sum();
    let clauses = r.below(2 * vars + 2);
    let list = random_list(r, vars as u32, clauses);
    let mut number = list.iter().filter(|&&e| e == 0).count();
    match r.below(24) {
        0 => number += 1,
        1 => number = number.saturating_sub(1),
        _ => {}
    }
    let words = [vec![count as i64], sizes.iter().map(|&n| n as i64).collect(), vec![number as i64], list.iter().map(|&e| e.into()).collect()].concat();
    let mut text = String::new();
    for word in words {
        text.push_str(&word.to_string());
        text.push_str(one_of(r, &[" ", "\n", "\t", "\r\n", "  "]));
    }
    let mut text = text.into_bytes();
    if r.below(3) == 0 {
        for _ in 0..=r.below(3) {
            damaged(r, &mut text);
        }
    }
    let (mut room, mut sizes_len, mut table) = (MAX_ENTRIES, MAX_GROUPS, MAX_GROUPS_TABLE);
    stretch(r, &mut room);
    stretch(r, &mut sizes_len);
    stretch(r, &mut table);
    calls.push(Call::Groups { text: text.clone(), room, sizes_len });
    calls.push(Call::GroupsTable { text, room: table });
}

/// The calls of one case at random.
pub fn random_calls(r: &mut Random) -> Vec<Call> {
    let mut calls = Vec::new();
    match r.below(64) {
        0 => calls.push(large(r)),
        1 => calls.push(large_why(r)),
        2 => calls.push(large_witness(r)),
        36 => {
            if let Call::Run { entries, vars, budget, chunk_limit, .. } = large(r) {
                calls.push(Call::Shorter { entries, vars, budget, chunk_limit, room: MAX_TEXT });
            }
        }
        37..=39 => every_shorter(r, &mut calls),
        3..=6 => every_variable(r, &mut calls),
        x if x < 12 => every_budget(r, &mut calls),
        x if x < 16 => every_literal(r, &mut calls),
        x if x < 26 => calls.push(refused(r)),
        x if x < 32 => calls.push(refused_why(r)),
        x if x < 36 => calls.push(random_closing(r)),
        x if x < 44 => some_groups(r, &mut calls),
        _ => some_text(r, &mut calls),
    }
    calls
}
