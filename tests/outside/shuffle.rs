//! The same rules in another order: clauses, their literals and the held literals shuffled, and some of them repeated, within the sizes.

use crate::case::Call;
use crate::rules::{MAX_CLAUSES, MAX_ENTRIES, MAX_HELD};
use crate::texts::Random;

fn shuffle<T>(r: &mut Random, list: &mut [T]) {
    for i in (1..list.len()).rev() {
        list.swap(i, r.below(i as u64 + 1) as usize);
    }
}

/// How many are repeated: few, and now and then as many as there is room for.
fn repeats(r: &mut Random) -> u64 {
    if r.below(16) == 0 { MAX_ENTRIES as u64 } else { r.below(4) }
}

/// Repeats clauses and literals of them as long as both sizes allow it.
fn repeat_some(r: &mut Random, clauses: &mut Vec<Vec<i32>>) {
    if clauses.is_empty() {
        return;
    }
    let mut room = MAX_ENTRIES - clauses.iter().map(|c| c.len() + 1).sum::<usize>();
    for _ in 0..repeats(r) {
        let clause = clauses[r.below(clauses.len() as u64) as usize].clone();
        if clauses.len() < MAX_CLAUSES && clause.len() < room {
            room -= clause.len() + 1;
            clauses.push(clause);
        }
    }
    for _ in 0..repeats(r) {
        let at = r.below(clauses.len() as u64) as usize;
        let clause = &mut clauses[at];
        if room > 0 && !clause.is_empty() {
            room -= 1;
            clause.push(clause[r.below(clause.len() as u64) as usize]);
        }
    }
}

fn other_entries(r: &mut Random, entries: &[i32]) -> Vec<i32> {
    let ended = entries.split_inclusive(|&e| e == 0);
    let mut clauses: Vec<Vec<i32>> = ended.map(|c| c[..c.len() - 1].to_vec()).collect();
    repeat_some(r, &mut clauses);
    shuffle(r, &mut clauses);
    for clause in &mut clauses {
        shuffle(r, clause);
        clause.push(0);
    }
    clauses.concat()
}

fn other_held(r: &mut Random, held: &[i32]) -> Vec<i32> {
    let mut other = held.to_vec();
    if !held.is_empty() {
        for _ in 0..repeats(r).min((MAX_HELD - held.len()) as u64) {
            other.push(held[r.below(held.len() as u64) as usize]);
        }
    }
    shuffle(r, &mut other);
    other
}

/// A call whose list was accepted with its rules in another order; none for a call that has no list, or that answers by clauses or writes
/// them.
pub fn shuffled(r: &mut Random, call: &Call) -> Option<Call> {
    let mut other = call.clone();
    match &mut other {
        Call::Run { entries, held, .. }
        | Call::Setup { entries, held, .. }
        | Call::Close { entries, held, .. }
        | Call::Witness { entries, held, .. } => {
            *entries = other_entries(r, entries);
            *held = other_held(r, held);
        }
        Call::Read { .. }
        | Call::Why { .. }
        | Call::Shorter { .. }
        | Call::Table { .. }
        | Call::Lines { .. }
        | Call::Groups { .. }
        | Call::GroupsTable { .. } => return None,
    }
    Some(other)
}
