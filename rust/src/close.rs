//! What follows at once, without a search.

use crate::{raw, Formula, Refusal, VARS_MAX};

/// What follows at once from a formula and the choices made.
#[derive(Clone, Debug, PartialEq, Eq)]
pub struct Closing {
    /// Rounds over all clauses, the last one too: at most one more than the variables that are set, and at most the variables plus one.
    pub rounds: u32,
    /// The values that every valid setup has, if there is one: that of variable v at v - 1, and none where it is not set. None at all if a
    /// clause became false: then there is no valid setup.
    pub values: Option<Vec<Option<bool>>>,
}

impl Closing {
    /// The variables that are set, each with its value, by number.
    pub fn set(&self) -> impl Iterator<Item = (u32, bool)> + '_ {
        (1..).zip(self.values.iter().flatten()).filter_map(|(variable, value)| Some((variable, (*value)?)))
    }
}

impl Formula {
    /// What follows at once from these choices: while a clause has no true literal and one distinct unset one, that one is set. There is no
    /// search, so that the cost is known before: each of the rounds looks at each clause and each held literal once.
    ///
    /// # Errors
    /// As for [`run_held`](Formula::run_held).
    pub fn close(&self, held: &[i32]) -> Result<Closing, Refusal> {
        let mut values = [0; VARS_MAX];
        let closing = raw::close(self.entries(), self.vars(), held, &mut values);
        if let Some(refusal) = Refusal::of(closing.answer, closing.place) {
            return Err(refusal);
        }
        let values = match closing.answer {
            0 => Some(values[..self.vars() as usize].iter().map(|&v| (v != 0).then_some(v == 2)).collect()),
            20 => None,
            other => unreachable!("no answer {other}"),
        };
        Ok(Closing { rounds: closing.rounds, values })
    }
}
