//! Why a literal is forced, and which choice of the player is to blame.

use crate::{raw, Formula, Refusal, CLAUSES_MAX, VARS_MAX};

/// The answer to the question why a literal is forced.
#[derive(Clone, Debug, PartialEq, Eq)]
pub struct Why {
    /// What was found.
    pub found: Found,
    /// Calls of the search begun, at most the number of clauses and 2.
    pub calls: u32,
    /// Tries taken, within the budget.
    pub tries: u32,
}

/// What was found.
#[derive(Clone, Debug, PartialEq, Eq)]
pub enum Found {
    /// The literal is forced, and this alone forces it: without any single part of it there is a setup with the literal false.
    Reason(Reason),
    /// A valid setup has the literal false: the value of each variable, that of variable v at v - 1.
    NotForced(Vec<bool>),
    /// There is no valid setup.
    NoModel,
    /// The budget ended the search.
    Stopped,
}

/// What alone forces a literal, none of which can go.
#[derive(Clone, Debug, Default, PartialEq, Eq)]
pub struct Reason {
    /// Clauses of the formula, in order.
    pub clauses: Vec<Kept>,
    /// The player's choices that are to blame, in order; none if none were held.
    pub choices: Vec<Choice>,
}

/// A clause of the formula that is a part of the reason.
#[derive(Clone, Debug, PartialEq, Eq)]
pub struct Kept {
    /// Its number, from 1.
    pub number: u32,
    /// Its literals as they stand in the list.
    pub literals: Vec<i32>,
}

/// A held choice that is a part of the reason.
#[derive(Clone, Copy, Debug, PartialEq, Eq)]
pub struct Choice {
    /// Its index in the list of held choices.
    pub index: usize,
    /// The literal that is held.
    pub literal: i32,
}

impl Formula {
    /// Why a literal is forced: which clauses alone force it, or a setup that has it false. All calls together take at most `budget` tries.
    ///
    /// # Errors
    /// Refusals 10 to 13: over 256 variables, a list of the caller's own that breaks the rules, or no literal of the formula.
    pub fn why(&self, literal: i32, budget: u32) -> Result<Why, Refusal> {
        self.why_held(&[], literal, budget)
    }

    /// The same with the player's choices held: they are put behind the formula as clauses of one literal, and those that are to blame
    /// are named apart.
    ///
    /// # Errors
    /// Refusals 10 to 13. Choices count as clauses and entries here: where they do not fit, it is 11 as for a list that is too long. A choice
    /// that is no literal of the formula is 13 at its index, if the formula itself is not refused.
    pub fn why_held(&self, held: &[i32], literal: i32, budget: u32) -> Result<Why, Refusal> {
        let no_literal = |l: &i32| *l == 0 || l.unsigned_abs() > self.vars();
        if let Some(index) = held.iter().position(no_literal) {
            // what the formula itself is refused for comes first
            return match ask(self.vars(), self.entries(), 1, 0) {
                Err(refusal) if refusal.number() != 13 => Err(refusal),
                _ => Err(Refusal::BadLiteral { index }),
            };
        }
        let mut entries = self.entries().to_vec();
        entries.extend(held.iter().flat_map(|&l| [l, 0]));
        let (report, marks, values) = ask(self.vars(), &entries, literal, budget)?;
        let found = match report.answer {
            0 => Found::Reason(self.reason(held, &marks)),
            20 => Found::NoModel,
            21 => Found::Stopped,
            22 => Found::NotForced(values[..self.vars() as usize].iter().map(|&v| v == 1).collect()),
            other => unreachable!("no answer {other}"),
        };
        Ok(Why { found, calls: report.calls, tries: report.tries })
    }

    /// The marked clauses and, behind them, the marked choices.
    fn reason(&self, held: &[i32], marks: &[u8]) -> Reason {
        let clauses: Vec<&[i32]> = self.clauses().collect();
        let mut reason = Reason::default();
        for i in (0..clauses.len() + held.len()).filter(|&i| marks[i] == 1) {
            match clauses.get(i) {
                Some(clause) => reason.clauses.push(Kept { number: i as u32 + 1, literals: clause.to_vec() }),
                None => {
                    let index = i - clauses.len();
                    reason.choices.push(Choice { index, literal: held[index] });
                }
            }
        }
        reason
    }
}

type Answer = (raw::WhyReport, [u8; CLAUSES_MAX], [u8; VARS_MAX]);

fn ask(vars: u32, entries: &[i32], literal: i32, budget: u32) -> Result<Answer, Refusal> {
    // long enough for every formula that is not refused
    let mut marks = [0; CLAUSES_MAX];
    let mut values = [0; VARS_MAX];
    let report = raw::why(entries, vars, literal, budget, &mut marks, &mut values);
    match Refusal::of(report.answer, report.place) {
        Some(refusal) => Err(refusal),
        None => Ok((report, marks, values)),
    }
}
