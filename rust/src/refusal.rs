//! What is refused, by which rule and where.

use crate::place;
use std::error::Error;
use std::fmt;

/// A refusal, one variant for each rule. Bytes and indices count from 0. There may be more rules later: a `match` on all of these has an arm for
/// them.
///
/// ```compile_fail,E0004
/// use igbezolum::Refusal::*;
/// fn known(refusal: igbezolum::Refusal) {
///     match refusal {
///         ShortBuffer | LongText | BadHeader { .. } | LargeHeader { .. } | BadToken { .. } | TokenBehind { .. } => {}
///         TokenOverVars { .. } | ManyTokens { .. } | ShortText { .. } | BadLimits | BadList { .. } => {}
///         EntryOverVars { .. } | BadLiteral { .. } | NotFree | ManyHeld | Rejected { .. } => {}
///     }
/// }
/// ```
#[non_exhaustive]
#[derive(Clone, Copy, Debug, PartialEq, Eq, Hash)]
pub enum Refusal {
    /// 1: a lent buffer is too short. Only the functions of [`raw`](crate::raw) are lent buffers.
    ShortBuffer,
    /// 2: the text has over 32,768 bytes.
    LongText,
    /// 3: the header is missing or malformed.
    BadHeader {
        /// Start of that line, or the text's length if there is none.
        byte: usize,
    },
    /// 4: the header is over 256 variables or 1,024 clauses.
    LargeHeader {
        /// Start of its line.
        byte: usize,
    },
    /// 5: a malformed token, or a `%` before the last clause is complete.
    BadToken {
        /// Its first byte.
        byte: usize,
    },
    /// 6: a token after the last clause. A `%` there ends the text.
    TokenBehind {
        /// Its first byte.
        byte: usize,
    },
    /// 7: a variable above the header's number.
    TokenOverVars {
        /// Its first byte.
        byte: usize,
    },
    /// 8: the 4,097th entry.
    ManyTokens {
        /// Its first byte.
        byte: usize,
    },
    /// 9: the text ends inside a clause or before the last one.
    ShortText {
        /// The text's length.
        byte: usize,
    },
    /// 10: over 256 variables, or a chunk limit of 0 or over 256.
    BadLimits,
    /// 11: a list of over 4,096 entries, not ended by 0, or with a 1,025th zero.
    BadList {
        /// 4,096; or the list's length; or the index of that zero.
        index: usize,
    },
    /// 12: a variable above the formula's number.
    EntryOverVars {
        /// The index of the first one.
        index: usize,
    },
    /// 13: a literal that is 0, or whose variable is above the formula's number.
    BadLiteral {
        /// 0 for the literal that is asked about; of held literals the index of the first one.
        index: usize,
    },
    /// 14: the variable is not free in the run: 0, above the formula's number, forced, or open.
    NotFree,
    /// 15: over 256 held literals.
    ManyHeld,
    /// 17: a file of claims that does not hold.
    Rejected {
        /// The first byte of the first number at fault, or the text's length if numbers are missing.
        byte: usize,
    },
}

use Refusal::{
    BadHeader, BadLimits, BadList, BadLiteral, BadToken, EntryOverVars, LargeHeader, LongText, ManyHeld, ManyTokens, NotFree, Rejected,
    ShortBuffer, ShortText, TokenBehind, TokenOverVars,
};

impl Refusal {
    /// The refusal of an answer and its place; none if the answer is no refusal.
    #[must_use]
    pub fn of(answer: u32, place: u32) -> Option<Refusal> {
        let (byte, index) = (place as usize, place as usize);
        Some(match answer {
            1 => ShortBuffer,
            2 => LongText,
            3 => BadHeader { byte },
            4 => LargeHeader { byte },
            5 => BadToken { byte },
            6 => TokenBehind { byte },
            7 => TokenOverVars { byte },
            8 => ManyTokens { byte },
            9 => ShortText { byte },
            10 => BadLimits,
            11 => BadList { index },
            12 => EntryOverVars { index },
            13 => BadLiteral { index },
            14 => NotFree,
            15 => ManyHeld,
            17 => Rejected { byte },
            _ => return None,
        })
    }

    /// The number of the rule, 1 to 15 or 17.
    #[must_use]
    pub fn number(self) -> u32 {
        match self {
            ShortBuffer => 1,
            LongText => 2,
            BadHeader { .. } => 3,
            LargeHeader { .. } => 4,
            BadToken { .. } => 5,
            TokenBehind { .. } => 6,
            TokenOverVars { .. } => 7,
            ManyTokens { .. } => 8,
            ShortText { .. } => 9,
            BadLimits => 10,
            BadList { .. } => 11,
            EntryOverVars { .. } => 12,
            BadLiteral { .. } => 13,
            NotFree => 14,
            ManyHeld => 15,
            Rejected { .. } => 17,
        }
    }

    /// The place: a byte of the text (2 to 9, 17), an index of the list (11, 12) or of the held literals (13, 15), else 0.
    #[must_use]
    pub fn place(self) -> usize {
        match self {
            ShortBuffer | BadLimits | NotFree => 0,
            LongText => crate::TEXT_MAX,
            BadHeader { byte }
            | LargeHeader { byte }
            | BadToken { byte }
            | TokenBehind { byte }
            | TokenOverVars { byte }
            | ManyTokens { byte }
            | ShortText { byte }
            | Rejected { byte } => byte,
            BadList { index } | EntryOverVars { index } | BadLiteral { index } => index,
            ManyHeld => crate::HELD_MAX,
        }
    }
}

/// Number, place, what is wrong and what was expected; [`within`](Refusal::within) displays the line too.
impl fmt::Display for Refusal {
    fn fmt(&self, f: &mut fmt::Formatter<'_>) -> fmt::Result {
        let (what, expected) = place::words(self.number());
        write!(f, "refused {} place {}: {what}: {expected}", self.number(), self.place())
    }
}

impl Error for Refusal {}
