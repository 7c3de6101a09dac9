//! The shorter file: rules with what is settled folded in.

use crate::{raw, End, Formula, Limits, Refusal, TEXT_MAX};

/// A text with the same valid setups as a formula, and the run that it was written after.
#[derive(Clone, Debug, PartialEq, Eq)]
pub struct Shorter {
    /// How the run ended. After [`End::Stopped`] what it settled is folded in.
    pub end: End,
    /// Calls begun.
    pub calls: u32,
    /// Tries taken.
    pub tries: u32,
    /// Variables that are forced: each has a clause of its own in the text.
    pub forced: u32,
    /// Variables that are free.
    pub free: u32,
    /// DIMACS CNF text, which [`read`](crate::read) takes; one empty clause after [`End::NoModel`].
    pub text: String,
}

impl Formula {
    /// The shorter file: forced literals as clauses by variable, then the clauses that hold none of them, in order, less the negations of forced
    /// literals and later repeats. It has no more clauses and entries than the formula.
    ///
    /// # Errors
    /// [`Refusal::BadLimits`] if the chunk limit is 0 or over 256.
    pub fn shorter(&self, limits: Limits) -> Result<Shorter, Refusal> {
        let mut text = vec![0; TEXT_MAX];
        let report = raw::shorter(self.entries(), self.vars(), limits.budget, limits.chunk_limit, &mut text);
        if let Some(refusal) = Refusal::of(report.answer, report.place) {
            return Err(refusal);
        }
        let end = match report.answer {
            0 => End::Settled,
            20 => End::NoModel,
            21 => End::Stopped,
            other => unreachable!("no answer {other}"),
        };
        text.truncate(report.length as usize);
        let text = String::from_utf8(text).expect("digits, spaces and LF");
        Ok(Shorter { end, calls: report.calls, tries: report.tries, forced: report.forced, free: report.free, text })
    }
}
