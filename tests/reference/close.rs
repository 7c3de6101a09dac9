//! What follows at once, written a second time from docs/RULES.md: rounds that look at every clause, in order, and are counted.

use crate::rules::{self, Clause, Refusal};

/// What is answered: 0 or 20, the rounds, and a byte a variable.
pub struct Closing {
    pub answer: u32,
    pub rounds: u32,
    pub values: Vec<u8>,
}

impl Closing {
    /// How many variables are set.
    pub fn set(&self) -> usize {
        self.values.iter().filter(|&&v| v != 0).count()
    }
}

/// One round: false if it stopped at a false clause, else whether it set anything.
fn round(clauses: &[Clause], values: &mut [u8]) -> (bool, bool) {
    let mut set = false;
    for clause in clauses {
        let at = |l: i32| l.unsigned_abs() as usize - 1;
        let of = |l: i32| if l > 0 { 2 } else { 1 };
        if clause.iter().any(|&l| values[at(l)] == of(l)) {
            continue;
        }
        let unset: Vec<i32> = clause.iter().copied().filter(|&l| values[at(l)] == 0).collect();
        match unset[..] {
            [] => return (false, set),
            [l] => {
                values[at(l)] = of(l);
                set = true;
            }
            _ => {}
        }
    }
    (true, set)
}

/// The closing of the list and the held literals, from nothing set; an error where it is refused.
pub fn close(entries: &[i32], vars: u32, held: &[i32], values_len: usize) -> Result<Closing, Refusal> {
    // as a setup is refused, which is lent the same buffer
    rules::setup(entries, vars, held, 0, values_len)?;
    let clauses = rules::with_held(entries, held);
    let mut values = vec![0; vars as usize];
    for rounds in 1.. {
        match round(&clauses, &mut values) {
            (false, _) => return Ok(Closing { answer: 20, rounds, values: vec![0; vars as usize] }),
            (true, false) => return Ok(Closing { answer: 0, rounds, values }),
            (true, true) => {}
        }
    }
    unreachable!("each round but the last sets a variable")
}
