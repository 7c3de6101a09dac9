//! A smaller case that still differs.

use crate::case::{Call, Case, Lengths};
use crate::rules;
use crate::texts::text_of;

/// So many smaller cases are tried at most.
const MOST: usize = 4_000;

/// The list without some of its elements: halves first, then ever smaller parts, down to one.
fn cuts<T: Clone>(list: &[T]) -> Vec<Vec<T>> {
    let mut all = Vec::new();
    let mut size = list.len().div_ceil(2);
    while size > 0 {
        all.extend((0..list.len()).step_by(size).map(|at| [&list[..at], &list[(at + size).min(list.len())..]].concat()));
        size /= 2;
    }
    all
}

fn clauses_of(entries: &[i32]) -> Vec<Vec<i32>> {
    entries.split_inclusive(|&e| e == 0).map(<[i32]>::to_vec).collect()
}

/// Variables, a list, and the literals held.
type Held = (u32, Vec<i32>, Vec<i32>);

/// The formula with fewer clauses, with fewer literals held, and with its variables numbered without gaps.
fn formulas(vars: u32, entries: &[i32], held: &[i32]) -> Vec<Held> {
    let mut used: Vec<u32> = entries.iter().chain(held).map(|e| e.unsigned_abs()).filter(|&v| v > 0).collect();
    used.sort_unstable();
    used.dedup();
    let mut all: Vec<Held> = cuts(&clauses_of(entries)).into_iter().map(|cs| (vars, cs.concat(), held.to_vec())).collect();
    all.extend(cuts(held).into_iter().map(|fewer| (vars, entries.to_vec(), fewer)));
    if used.len() < vars as usize {
        let number = |e: &i32| e.signum() * (1 + used.partition_point(|&v| v < e.unsigned_abs()) as i32);
        all.push((used.len() as u32, entries.iter().map(number).collect(), held.iter().map(number).collect()));
    }
    all
}

/// The same with a variable less, or with single entries cut out.
fn lists(vars: u32, entries: &[i32], held: &[i32]) -> Vec<Held> {
    let mut all = formulas(vars, entries, held);
    all.extend((vars > 0).then(|| (vars - 1, entries.to_vec(), held.to_vec())));
    all.extend(cuts(entries).into_iter().map(|list| (vars, list, held.to_vec())));
    all
}

/// Budgets that are smaller.
fn budgets(budget: u32) -> impl Iterator<Item = u32> {
    [0, budget / 2, budget.saturating_sub(1)].into_iter().filter(move |&b| b < budget)
}

fn smaller_texts(text: &[u8], held: &[i32]) -> Vec<(Vec<u8>, Vec<i32>)> {
    let mut all = Vec::new();
    if let Ok(f) = rules::read(text) {
        for (vars, list, fewer) in formulas(f.vars as u32, &f.entries, held) {
            let clauses: Vec<Vec<i32>> = clauses_of(&list).into_iter().map(|c| c[..c.len() - 1].to_vec()).collect();
            all.push((text_of(vars as i32, &clauses).into_bytes(), fewer));
        }
    }
    all.extend(cuts(text).into_iter().map(|less| (less, held.to_vec())));
    all.extend(cuts(held).into_iter().map(|fewer| (text.to_vec(), fewer)));
    let size = |text: &[u8], held: &[i32]| text.len() + held.len();
    all.retain(|(less, fewer)| size(less, fewer) < size(text, held));
    all
}

/// Calls that are a step smaller.
fn smaller(call: &Call) -> Vec<Call> {
    match call {
        Call::Read { text, room } => smaller_texts(text, &[]).into_iter().map(|(text, _)| Call::Read { text, room: *room }).collect(),
        &Call::Groups { ref text, room, sizes_len } => cuts(text).into_iter().map(|text| Call::Groups { text, room, sizes_len }).collect(),
        Call::GroupsTable { text, room } => cuts(text).into_iter().map(|text| Call::GroupsTable { text, room: *room }).collect(),
        &Call::Lines { ref text, variable, room } => {
            smaller_texts(text, &[]).into_iter().map(|(text, _)| Call::Lines { text, variable, room }).collect()
        }
        Call::Table { text, held, room } => {
            smaller_texts(text, held).into_iter().map(|(text, held)| Call::Table { text, held, room: *room }).collect()
        }
        &Call::Shorter { ref entries, vars, budget, chunk_limit, room } => {
            let with = |(vars, entries, _): Held, budget, chunk_limit| Call::Shorter { entries, vars, budget, chunk_limit, room };
            let same = || (vars, entries.clone(), Vec::new());
            let mut all: Vec<Call> = lists(vars, entries, &[]).into_iter().map(|less| with(less, budget, chunk_limit)).collect();
            all.extend(budgets(budget).map(|less| with(same(), less, chunk_limit)));
            all.extend((chunk_limit > 1).then(|| with(same(), budget, chunk_limit / 2)));
            all
        }
        Call::Why { entries, vars, literal, budget, marks_len, values_len } => {
            let (vars, literal, budget, marks_len, values_len) = (*vars, *literal, *budget, *marks_len, *values_len);
            // the literal stays, and so do the variables
            let with = |entries: Vec<i32>, budget| Call::Why { entries, vars, literal, budget, marks_len, values_len };
            let mut all: Vec<Call> = cuts(&clauses_of(entries)).into_iter().map(|cs| with(cs.concat(), budget)).collect();
            for fewer in [0, budget / 2, budget.saturating_sub(1)].into_iter().filter(|&b| b < budget) {
                all.push(with(entries.clone(), fewer));
            }
            all.extend(cuts(entries).into_iter().map(|list| with(list, budget)));
            all
        }
        Call::Witness { entries, vars, held, budget, chunk_limit, variable, first_len, witness_len } => {
            let (vars, chunk_limit, variable, first_len, witness_len) = (*vars, *chunk_limit, *variable, *first_len, *witness_len);
            // the variable stays, and so do the others and what is held
            let with = |entries: Vec<i32>, budget| {
                let held = held.clone();
                Call::Witness { entries, vars, held, budget, chunk_limit, variable, first_len, witness_len }
            };
            let mut all: Vec<Call> = cuts(&clauses_of(entries)).into_iter().map(|cs| with(cs.concat(), *budget)).collect();
            for fewer in [0, budget / 2, budget.saturating_sub(1)].into_iter().filter(|b| b < budget) {
                all.push(with(entries.clone(), fewer));
            }
            all.extend(cuts(entries).into_iter().map(|list| with(list, *budget)));
            all
        }
        // with fewer variables the buffers have as much room behind as before
        Call::Run { entries, vars, held, budget, chunk_limit, lengths } => {
            let (vars, budget, chunk_limit) = (*vars, *budget, *chunk_limit);
            let with = |(fewer, entries, held): Held, budget, chunk_limit| {
                let less = (vars - fewer) as usize;
                let lengths = Lengths {
                    status: lengths.status.saturating_sub(less),
                    calls: lengths.calls.saturating_sub(less),
                    ways: lengths.ways.saturating_sub(less),
                    hints: lengths.hints.saturating_sub(less),
                    log: lengths.log.saturating_sub(6 * less),
                };
                Call::Run { entries, vars: fewer, held, budget, chunk_limit, lengths }
            };
            let same = || (vars, entries.clone(), held.clone());
            let mut all: Vec<Call> = lists(vars, entries, held).into_iter().map(|less| with(less, budget, chunk_limit)).collect();
            all.extend(budgets(budget).map(|less| with(same(), less, chunk_limit)));
            all.extend((chunk_limit > 1).then(|| with(same(), budget, chunk_limit / 2)));
            all
        }
        Call::Close { entries, vars, held, values_len } => {
            let with = |(fewer, entries, held): Held| {
                let values_len = values_len.saturating_sub((vars - fewer) as usize);
                Call::Close { entries, vars: fewer, held, values_len }
            };
            lists(*vars, entries, held).into_iter().map(with).collect()
        }
        Call::Setup { entries, vars, held, budget, values_len } => {
            let (vars, budget) = (*vars, *budget);
            let with = |(fewer, entries, held): Held, budget| {
                let values_len = values_len.saturating_sub((vars - fewer) as usize);
                Call::Setup { entries, vars: fewer, held, budget, values_len }
            };
            let mut all: Vec<Call> = lists(vars, entries, held).into_iter().map(|less| with(less, budget)).collect();
            all.extend(budgets(budget).map(|less| with((vars, entries.clone(), held.clone()), less)));
            all
        }
    }
}

/// Takes smaller steps as long as the case goes on to differ.
pub fn shrunk(case: &Case, differs: impl Fn(&Case) -> bool) -> Case {
    let mut least = case.clone();
    let mut tried = 0;
    'again: loop {
        for call in smaller(&least.call) {
            tried += 1;
            if tried > MOST {
                return least;
            }
            let next = Case { paint: least.paint, call };
            if differs(&next) {
                least = next;
                continue 'again;
            }
        }
        return least;
    }
}
