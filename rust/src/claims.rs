//! What other tools claim.

use crate::{raw, Formula, Refusal};

impl Formula {
    /// Checks a file of another tool: a valid setup, and claims that literals are forced, each with a tree of splits that ends in clauses. If it
    /// holds, every claimed literal is forced, whatever the tool did.
    ///
    /// # Errors
    /// [`LongText`](Refusal::LongText) for over 32,768 bytes, [`BadToken`](Refusal::BadToken) for what is no number,
    /// [`Rejected`](Refusal::Rejected) at the first number at fault.
    pub fn check_claims(&self, text: &[u8]) -> Result<(), Refusal> {
        let verdict = raw::check_claims(self.entries(), self.vars(), text);
        Refusal::of(verdict.answer, verdict.place).map_or(Ok(()), Err)
    }
}
