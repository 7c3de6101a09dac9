//! The run once more in plain safe Rust, with two numbers kept for each clause, its true and its unset literals, as the library keeps them.
//! The reader, the refusals and the meter are those of `plain`.

use crate::plain::{refusal, End, Meter, MAX_CLAUSES, MAX_ENTRIES, MAX_VARS};
use crate::raw::Report;

const CLAUSES: usize = MAX_CLAUSES as usize;
const LITERALS: usize = 2 * MAX_VARS as usize;
/// A word of hot bits for every 64 clauses, the constraint among them.
const WORDS: usize = CLAUSES / 64 + 1;
/// One true literal, in the upper half of a key; unset ones are counted in the lower half.
const ONE_TRUE: u32 = 1 << 16;

/// A literal as a number: 2v for variable v on, 2v + 1 for off.
fn code(l: i32) -> usize {
    2 * (l.unsigned_abs() as usize - 1) + usize::from(l < 0)
}

/// Who holds a literal: clauses in order, each once.
struct Lists<'a> {
    entries: &'a [i32],
    starts: [u16; CLAUSES + 1],
    held_from: [u16; LITERALS + 2],
    held_in: [u16; MAX_ENTRIES],
    clauses: usize,
}

impl Lists<'_> {
    fn of(entries: &[i32]) -> Lists<'_> {
        let mut lists = Lists { entries, starts: [0; CLAUSES + 1], held_from: [0; LITERALS + 2], held_in: [0; MAX_ENTRIES], clauses: 0 };
        let mut seen = [u16::MAX; LITERALS];
        for (i, &e) in entries.iter().enumerate() {
            if e == 0 {
                lists.clauses += 1;
                lists.starts[lists.clauses] = i as u16 + 1;
            } else if std::mem::replace(&mut seen[code(e)], lists.clauses as u16) != lists.clauses as u16 {
                lists.held_from[code(e) + 2] += 1;
            }
        }
        for k in 1..LITERALS {
            lists.held_from[k + 1] += lists.held_from[k];
        }
        seen = [u16::MAX; LITERALS];
        let mut clause = 0;
        for &e in entries {
            if e == 0 {
                clause += 1;
            } else if std::mem::replace(&mut seen[code(e)], clause) != clause {
                let next = &mut lists.held_from[code(e) + 1];
                lists.held_in[*next as usize] = clause;
                *next += 1;
            }
        }
        lists
    }

    fn clause(&self, c: usize) -> &[i32] {
        &self.entries[self.starts[c] as usize..self.starts[c + 1] as usize - 1]
    }

    fn holding(&self, l: usize) -> &[u16] {
        &self.held_in[self.held_from[l] as usize..self.held_from[l + 1] as usize]
    }
}

/// The keys of all clauses and of the constraint, which is the last one, and which of them are hot: nothing true, and at most one unset.
struct Board {
    values: [u8; MAX_VARS as usize],
    keys: [u32; CLAUSES + 1],
    hot: [u64; WORDS],
    trail: [u16; MAX_VARS as usize],
    set: usize,
    in_constraint: [bool; LITERALS],
}

impl Board {
    fn of(lists: &Lists) -> Board {
        let mut board = Board {
            values: [0; MAX_VARS as usize],
            keys: [0; CLAUSES + 1],
            hot: [0; WORDS],
            trail: [0; MAX_VARS as usize],
            set: 0,
            in_constraint: [false; LITERALS],
        };
        for &c in &lists.held_in[..lists.held_from[LITERALS] as usize] {
            board.keys[c as usize] += 1;
        }
        for c in 0..lists.clauses {
            board.mark(c);
        }
        board
    }

    fn mark(&mut self, c: usize) {
        let bit = 1 << (c % 64);
        if self.keys[c] <= 1 {
            self.hot[c / 64] |= bit;
        } else {
            self.hot[c / 64] &= !bit;
        }
    }

    /// The key of a clause moves by a literal that becomes true or false, or is taken back.
    fn move_by(&mut self, c: usize, by: u32) {
        let before = self.keys[c];
        self.keys[c] = before.wrapping_add(by);
        if before <= 1 || self.keys[c] <= 1 {
            self.mark(c);
        }
    }

    fn move_all(&mut self, lists: &Lists, l: usize, by: u32) {
        for &c in lists.holding(l) {
            self.move_by(c as usize, by);
        }
        if self.in_constraint[l] {
            self.move_by(lists.clauses, by);
        }
    }

    fn push(&mut self, lists: &Lists, l: usize) {
        self.values[l / 2] = 2 - (l % 2) as u8;
        self.move_all(lists, l, ONE_TRUE - 1);
        self.move_all(lists, l ^ 1, 1u32.wrapping_neg());
        self.trail[self.set] = l as u16;
        self.set += 1;
    }

    fn undo(&mut self, lists: &Lists, to: usize) {
        while self.set > to {
            self.set -= 1;
            let l = self.trail[self.set] as usize;
            self.values[l / 2] = 0;
            self.move_all(lists, l, 1u32.wrapping_sub(ONE_TRUE));
            self.move_all(lists, l ^ 1, 1);
        }
    }

    fn next_hot(&self, from: usize) -> Option<usize> {
        let mut word = from / 64;
        let mut bits = self.hot.get(word)? & (!0 << (from % 64));
        while bits == 0 {
            word += 1;
            bits = *self.hot.get(word)?;
        }
        Some(64 * word + bits.trailing_zeros() as usize)
    }

    /// Rounds over the hot clauses in order, until one sets nothing. False on a clash.
    fn close(&mut self, lists: &Lists, constraint: &[i32]) -> bool {
        loop {
            let before = self.set;
            let mut cursor = 0;
            while let Some(c) = self.next_hot(cursor) {
                if self.keys[c] == 0 {
                    return false;
                }
                let clause = if c < lists.clauses { lists.clause(c) } else { constraint };
                let unit = clause.iter().map(|&l| code(l)).find(|l| self.values[l / 2] == 0).expect("one literal is unset");
                self.push(lists, unit);
                cursor = c + 1;
            }
            if self.set == before {
                return true;
            }
        }
    }

    /// The first clause in which this true literal alone is true, and whose negation it does not hold.
    fn first_held(&self, lists: &Lists, l: usize) -> Option<usize> {
        let alone = |c: &usize| self.keys[*c] >> 16 == 1 && !lists.clause(*c).iter().any(|&other| code(other) == l ^ 1);
        lists.holding(l).iter().map(|&c| c as usize).find(alone)
    }

    fn constrain(&mut self, lists: &Lists, constraint: &[i32]) {
        for &l in constraint {
            self.in_constraint[code(l)] = true;
        }
        self.keys[lists.clauses] = constraint.len() as u32;
        self.mark(lists.clauses);
    }

    /// No constraint: a key that is never hot.
    fn release(&mut self, lists: &Lists, constraint: &[i32]) {
        for &l in constraint {
            self.in_constraint[code(l)] = false;
        }
        self.keys[lists.clauses] = ONE_TRUE;
        self.mark(lists.clauses);
    }
}

// ---- the search

/// Leaves the model on the board, or else what was there. `from` is the variable tried above: all before it are set.
fn go_on(lists: &Lists, board: &mut Board, constraint: &[i32], vars: usize, from: usize, meter: &mut Meter) -> End {
    let mark = board.set;
    let end = choose(lists, board, constraint, vars, from, meter);
    if !matches!(end, End::Model) {
        board.undo(lists, mark);
    }
    end
}

fn choose(lists: &Lists, board: &mut Board, constraint: &[i32], vars: usize, from: usize, meter: &mut Meter) -> End {
    if !board.close(lists, constraint) {
        return End::None;
    }
    let Some(v) = (from..vars).find(|&v| board.values[v] == 0) else {
        return End::Model;
    };
    for l in [2 * v + 1, 2 * v] {
        if meter.spent == meter.budget {
            return End::Stopped;
        }
        meter.spent += 1;
        let mark = board.set;
        board.push(lists, l);
        match go_on(lists, board, constraint, vars, v + 1, meter) {
            End::None => board.undo(lists, mark),
            end => return end,
        }
    }
    End::None
}

// ---- the run

/// Compare, then flip: how many candidates each drops. The way of each is put down.
fn drop_by(lists: &Lists, board: &Board, first: &[u8], status: &mut [u8], ways: &mut [u8]) -> (u32, u32) {
    let (mut by_compare, mut by_flip) = (0, 0);
    for v in 0..status.len() {
        if status[v] != 0 {
            continue;
        }
        if board.values[v] != first[v] {
            (status[v], ways[v]) = (1, 1);
            by_compare += 1;
        } else if board.first_held(lists, true_at(board, v)).is_none() {
            (status[v], ways[v]) = (1, 2);
            by_flip += 1;
        }
    }
    (by_compare, by_flip)
}

/// The literal of a variable that is true in a model.
fn true_at(board: &Board, v: usize) -> usize {
    2 * v + usize::from(board.values[v] == 1)
}

#[inline(never)]
#[allow(clippy::too_many_arguments)] // those of the library
pub fn run(
    entries: &[i32],
    vars: u32,
    budget: u32,
    chunk_limit: u32,
    status: &mut [u8],
    calls: &mut [u32],
    ways: &mut [u8],
    hints: &mut [u32],
    log: &mut [u32],
) -> Report {
    let shortest = status.len().min(calls.len()).min(ways.len()).min(hints.len());
    if let Some((answer, place)) = refusal(entries, vars, chunk_limit, shortest, log.len()) {
        return Report { answer, place: place as u32, ..Report::default() };
    }
    let n = vars as usize;
    let (status, calls, ways, hints) = (&mut status[..n], &mut calls[..n], &mut ways[..n], &mut hints[..n]);
    let log = &mut log[..6 * (n + 1)];
    status.fill(0);
    calls.fill(0);
    ways.fill(0);
    hints.fill(0);
    log.fill(0);
    let lists = Lists::of(entries);
    let mut board = Board::of(&lists);
    let mut meter = Meter { budget, spent: 0 };
    let mut first = [0; MAX_VARS as usize];
    let mut constraint = Vec::with_capacity(chunk_limit as usize);
    let mut report = Report::default();
    let (mut size, mut forced) = (1, 0);
    loop {
        let before = meter.spent;
        constraint.clear();
        if report.calls > 0 {
            let open = (0..n).filter(|&v| status[v] == 0).take(size);
            constraint.extend(open.map(|v| if first[v] == 2 { -(v as i32 + 1) } else { v as i32 + 1 }));
            board.constrain(&lists, &constraint);
        }
        let end = go_on(&lists, &mut board, &constraint, n, 0, &mut meter);
        let row = &mut log[6 * report.calls as usize..];
        report.calls += 1;
        report.tries = meter.spent;
        row[0] = report.calls;
        row[2] = constraint.len() as u32;
        row[5] = meter.spent - before;
        match end {
            End::Model => {
                if report.calls == 1 {
                    first = board.values;
                    for (v, hint) in hints.iter_mut().enumerate() {
                        *hint = board.first_held(&lists, true_at(&board, v)).map_or(0, |c| c as u32 + 1);
                    }
                }
                let (by_compare, by_flip) = drop_by(&lists, &board, &first, status, ways);
                (row[1], row[3], row[4]) = (1, by_compare, by_flip);
                report.free += by_compare + by_flip;
                board.undo(&lists, forced);
                board.release(&lists, &constraint);
                size = 1;
            }
            End::None => {
                row[1] = 2;
                if report.calls == 1 {
                    report.answer = 20;
                    return report;
                }
                board.release(&lists, &constraint);
                for &l in &constraint {
                    let v = l.unsigned_abs() as usize - 1;
                    (status[v], ways[v]) = (if l < 0 { 2 } else { 3 }, 3);
                    board.push(&lists, code(-l));
                }
                forced = board.set;
                report.forced += constraint.len() as u32;
                size = (2 * size).min(chunk_limit as usize);
            }
            End::Stopped => {
                row[1] = 3;
                report.answer = 21;
                return report;
            }
        }
        for (call, _) in calls.iter_mut().zip(&*ways).filter(|(call, &way)| **call == 0 && way != 0) {
            *call = report.calls;
        }
        if report.forced + report.free == vars {
            return report;
        }
    }
}
