//! Two setups that differ on a free variable.

use crate::{raw, Formula, Limits, Refusal, VARS_MAX, WITNESS_TEXT_MAX};

impl Formula {
    /// Two valid setups that differ on a free variable, each with the value of variable v at v - 1: the first model of the run with these
    /// limits, and the witness by which the run settled the variable.
    ///
    /// # Errors
    /// Refusals 10 to 12 as for [`run`](Formula::run), and 14 if the variable is not marked free by that run.
    pub fn witness(&self, variable: u32, limits: Limits) -> Result<(Vec<bool>, Vec<bool>), Refusal> {
        self.witness_held(&[], variable, limits)
    }

    /// The same of the setups that have every held literal.
    ///
    /// # Errors
    /// Refusals 10 to 13 and 15 as for [`run_held`](Formula::run_held), and 14 if the variable is not marked free by that run.
    pub fn witness_held(&self, held: &[i32], variable: u32, limits: Limits) -> Result<(Vec<bool>, Vec<bool>), Refusal> {
        // long enough for every formula that is not refused
        let mut first = [0; VARS_MAX];
        let mut witness = [0; VARS_MAX];
        let Limits { budget, chunk_limit } = limits;
        let report = raw::witness(self.entries(), self.vars(), held, budget, chunk_limit, variable, &mut first, &mut witness);
        match Refusal::of(report.answer, report.place) {
            Some(refusal) => Err(refusal),
            None => Ok((self.values(&first), self.values(&witness))),
        }
    }

    fn values(&self, literals: &[i32]) -> Vec<bool> {
        literals[..self.vars() as usize].iter().map(|&l| l > 0).collect()
    }
}

/// Both setups of a text and a variable as lines of literals, or `refused N place P`. The run has [`Limits::default`].
#[must_use]
pub fn witness_text(text: &[u8], variable: u32) -> String {
    let mut out = vec![0; WITNESS_TEXT_MAX];
    let length = raw::witness_text(text, variable, &mut out);
    out.truncate(length);
    String::from_utf8(out).expect("literals are ASCII")
}
